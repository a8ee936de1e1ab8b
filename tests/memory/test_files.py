"""A file is made, shown and run, with each request for memory refused in turn."""

from __future__ import annotations

from pathlib import Path

import pytest

from harness.auctions import EXAMPLES, Layout, text_of
from harness.programs import Program
from harness.refusals import Refusals
from memory.files import FileTrial
from outside.sized import Sized, halves

GREATEST = Sized(halves(127), 64)


def test_format(program: Program, refusals: Refusals, layout: Layout, room: Path) -> None:
    """Some requests end it by the line of refused memory."""
    assert FileTrial(program, refusals, layout, room).try_format()


def test_check(program: Program, refusals: Refusals, layout: Layout, room: Path) -> None:
    """Some requests end it by the line of refused memory."""
    assert FileTrial(program, refusals, layout, room).try_check()


def test_run(program: Program, refusals: Refusals, layout: Layout, room: Path) -> None:
    text, lines = (EXAMPLES / "stages.txt").read_bytes().split(b"\n", 1)
    FileTrial(program, refusals, layout, room, text).try_run(lines)


@pytest.fixture
def greatest(program: Program, refusals: Refusals, room: Path) -> FileTrial:
    """A file of 127 nodes and 64 bidders."""
    return FileTrial(program, refusals, Layout.PAGES, room, GREATEST.definition())


def test_format_of_the_greatest(greatest: FileTrial) -> None:
    greatest.try_format()


def test_check_of_the_greatest(greatest: FileTrial) -> None:
    greatest.try_check()


def test_run_of_the_greatest(greatest: FileTrial) -> None:
    greatest.try_run(text_of(GREATEST.lines(0, 9)))
