"""Calls of streams that signals interrupt many times in a row: they succeed all the same, and the answers don't change."""

from __future__ import annotations

import errno
from collections.abc import Callable
from pathlib import Path

import pytest

from faults import Faults
from harness.auctions import definition
from harness.programs import Program

# More often in a row than any program would try that gives up.
TIMES = 300
# Each job makes at least these calls of its streams. A script and a run read twice, since the end is read, too.
CALLS = [("read", 1), ("read", 2), ("write", 1)]
LINES = b"BID x 1 a 100\nBID y 1 b 150\nCLOSE 1\nSHOW\n"
ANSWERS = "OK 1\nOK 2\nOK 3\nROUND 2 STAGE 1 OPEN REVENUE 250 COUNT 3\n"


@pytest.fixture
def faults(library: Callable[[Path], Path], room: Path) -> Faults:
    """The library that makes calls fail."""
    return Faults.built(library, room)


@pytest.mark.parametrize(("call", "number"), CALLS)
def test_a_script_is_answered_through_interruptions(program: Program, faults: Faults, call: str, number: int) -> None:
    ran = program.run(text=definition() + LINES, conditions=faults.of("hpb", None, call, number, errno.EINTR, TIMES))
    assert (ran.output, ran.errors, ran.status) == (ANSWERS, "", 0)
    assert faults.failed() == TIMES


@pytest.mark.parametrize(("call", "number"), CALLS)
def test_a_run_is_answered_through_interruptions(
    program: Program, file: Path, faults: Faults, call: str, number: int
) -> None:
    conditions = faults.of("hpb", file, call, number, errno.EINTR, TIMES)
    ran = program.run_lines(file, LINES, "--batch", 3, conditions=conditions)
    assert (ran.output, ran.errors, ran.status) == (ANSWERS, "", 0)
    assert faults.failed() == TIMES
    assert program.count(file) == 3


@pytest.mark.parametrize(("call", "number"), CALLS)
def test_a_file_is_made_through_interruptions(program: Program, room: Path, faults: Faults, call: str, number: int) -> None:
    ran = program.format(room / "F", conditions=faults.of("hpb", None, call, number, errno.EINTR, TIMES))
    assert (ran.output, ran.errors, ran.status) == ("FORMATTED 17\n", "", 0)
    assert faults.failed() == TIMES
    assert program.count(room / "F") == 0
