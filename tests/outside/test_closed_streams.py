"""Standard streams that are closed, or are files, terminals or full: each job does what it does with pipes. A closed stream is one on
/dev/null: the auction's file never takes its place."""

from __future__ import annotations

import itertools
import os
from collections.abc import Callable
from dataclasses import replace
from pathlib import Path

import pytest

from harness.auctions import FIRST_ROUND, PAGE, text_of
from harness.conditions import Conditions
from harness.programs import Program, shown
from harness.streams import full, opened, read_available, terminal
from outside.jobs import CHOICES, EMPTY, FIRST_BID, JOBS, ONE_BID, TWO_BIDS, Streams, input_of, outcome, without_ports
from outside.lies import Liar

LENGTH = 17 * PAGE
NO_ROOM = "hpb: 92 stream: writing: No space left on device (os error 28)"
END = b"\x04"
IDS = ["none" if not choice else "".join(map(str, choice)) for choice in CHOICES]


@pytest.fixture(scope="session")
def kept(program: Program, place: Path) -> bytes:
    """The bytes of a file with one bid. It is made anew if tests of another program come between."""
    file = place / f"kept-{program.path.parent.name}"
    file.unlink(missing_ok=True)
    assert program.format(file).status == program.run_lines(file, FIRST_BID).status == 0
    return file.read_bytes()


def closing(choice: tuple[int, ...]) -> Callable[[], None]:
    """Closes these of the standard streams."""

    def last() -> None:
        for stream in choice:
            os.close(stream)

    return last


def nothing(choice: tuple[int, ...]) -> Callable[[], None]:
    """Puts /dev/null in the place of these."""

    def last() -> None:
        null = os.open(os.devnull, os.O_RDWR)
        for stream in choice:
            os.dup2(null, stream)

    return last


def is_as_with_nothing(program: Program, job: str, choice: tuple[int, ...], kept: bytes, room: Path) -> None:
    """A job whose streams are closed does what it does with /dev/null in their places, and keeps what it answers."""
    found = outcome(program, job, kept, room, Streams(conditions=Conditions(last=closing(choice))))
    assert found == outcome(program, job, kept, room, Streams(conditions=Conditions(last=nothing(choice))))
    has_lines = job == "serve" or (job == "run" and 0 not in choice)
    assert (found.has_front, found.length, found.check) == (True, LENGTH, TWO_BIDS if has_lines else ONE_BID)
    assert found.status == int(job in ("script", "format") and 0 in choice)
    assert found.new == (EMPTY if job == "format" and 0 not in choice else "")


@pytest.mark.parametrize("choice", CHOICES, ids=IDS)
@pytest.mark.parametrize("job", JOBS)
def test_streams_that_are_closed(program: Program, kept: bytes, room: Path, job: str, choice: tuple[int, ...]) -> None:
    is_as_with_nothing(program, job, choice, kept, room)


@pytest.mark.parametrize("job", JOBS)
def test_an_input_that_is_a_file(program: Program, kept: bytes, room: Path, job: str) -> None:
    (room / "text").write_bytes(input_of(job))
    with opened(room / "text") as file:
        assert outcome(program, job, kept, room, Streams(input=file)) == outcome(program, job, kept, room)


@pytest.mark.parametrize("job", JOBS)
def test_an_input_that_is_a_terminal(program: Program, kept: bytes, room: Path, job: str) -> None:
    """A hint says what to type, and nothing else differs."""
    with terminal() as (typing, device):
        os.write(typing, input_of(job) + END)
        found = outcome(program, job, kept, room, Streams(input=device))
    assert found.without("errors") == outcome(program, job, kept, room).without("errors")
    assert job == "--help" or [line for line in found.errors.splitlines() if not line.startswith("hpb: ")] == []


@pytest.mark.parametrize("stream", ["output", "errors"])
@pytest.mark.parametrize("job", JOBS)
def test_an_output_that_is_a_file(program: Program, kept: bytes, room: Path, job: str, stream: str) -> None:
    wanted = outcome(program, job, kept, room)
    with (room / "written").open("w+b") as file:
        found = outcome(program, job, kept, room, replace(Streams(), **{stream: file.fileno()}))
    assert found.without(stream) == wanted.without(stream)


@pytest.mark.parametrize("stream", ["output", "errors"])
@pytest.mark.parametrize("job", JOBS)
def test_an_output_that_is_a_terminal(program: Program, kept: bytes, room: Path, job: str, stream: str) -> None:
    wanted = outcome(program, job, kept, room)
    with terminal() as (typing, device):
        found = outcome(program, job, kept, room, replace(Streams(), **{stream: device}))
        written = without_ports(shown(read_available(typing)))
    # The port behind LISTENING is another one each time.
    length = len("LISTENING") if (job, stream) == ("serve", "output") else None
    assert written[:length] == getattr(wanted, stream)[:length]
    assert found.without(stream) == wanted.without(stream)


@pytest.mark.parametrize("job", JOBS)
def test_errors_that_are_full(program: Program, kept: bytes, room: Path, job: str) -> None:
    with full() as device:
        found = outcome(program, job, kept, room, Streams(errors=device))
    assert found.without("errors") == outcome(program, job, kept, room).without("errors")


@pytest.mark.parametrize("job", JOBS)
def test_an_output_that_is_full(program: Program, kept: bytes, room: Path, job: str) -> None:
    with full() as device:
        found = outcome(program, job, kept, room, Streams(output=device))
    if job == "--help":
        assert found == outcome(program, job, kept, room)
    else:
        assert (found.errors[: len(NO_ROOM)], found.status) == (NO_ROOM, 1)


def run_first_round(program: Program, file: Path, every: int, at_terminal: bool) -> bytes:
    """The bytes of a new file behind a first round, one command in a batch, from a pipe or typed."""
    file.unlink(missing_ok=True)
    assert program.format(file).status == 0
    words = ("run", "--file", file, "--batch", 1, "--every", every)
    if at_terminal:
        with terminal() as (typing, device):
            os.write(typing, text_of(FIRST_ROUND) + END)
            ran = program.run(*words, input=device)
    else:
        ran = program.run(*words, text=text_of(FIRST_ROUND))
    assert (ran.output.count("OK "), ran.status) == (len(FIRST_ROUND), 0)
    return file.read_bytes()


def test_typed_lines_leave_the_same_checkpoints(program: Program, room: Path) -> None:
    """Other checkpoints leave other bytes, so this can fail."""
    made = {case: run_first_round(program, room / "F", *case) for case in itertools.product((0, 1), (False, True))}
    assert made[0, True] == made[0, False] != made[1, False] == made[1, True]


@pytest.mark.parametrize("lie, job, choice", [("ill", "check", ()), ("well", "format", (0,))])
def test_another_outcome_is_seen(liar: Liar, kept: bytes, room: Path, lie: str, job: str, choice: tuple[int, ...]) -> None:
    with pytest.raises(AssertionError):
        is_as_with_nothing(liar(lie), job, choice, kept, room)
