"""Standard streams that lead to the auction's file, or to the file from which it is made: nothing is written there."""

from __future__ import annotations

import os
import subprocess
from collections.abc import Callable, Iterator
from contextlib import contextmanager
from pathlib import Path

import pytest

from harness.auctions import definition
from harness.conditions import NORMAL, Conditions
from harness.namespaces import hide
from harness.programs import Program, format_words

SECONDS = 20
# A stack in KiB in which no job has enough room.
LITTLE_STACK = 150


def without_proc() -> None:
    """Hides /proc: then the system doesn't name the file of a stream."""
    hide("/proc")


def without_devices() -> None:
    """Hides /dev and closes standard input, whose number then can't be held by another stream."""
    hide("/dev")
    os.close(0)


@pytest.fixture(params=[None, without_proc], ids=["proc", "no proc"])
def seeing(request: pytest.FixtureRequest, lack: Callable[[object], None]) -> Conditions:
    """With the system's information about streams, and without it."""
    if request.param and os.geteuid() != 0:
        lack("only root can hide /proc")
    return Conditions(last=request.param)


@contextmanager
def opened(path: Path, flags: int) -> Iterator[int]:
    """A descriptor of a file, which is made if it isn't there."""
    descriptor = os.open(path, flags | os.O_CREAT, 0o600)
    try:
        yield descriptor
    finally:
        os.close(descriptor)


@pytest.mark.parametrize("flags", [os.O_WRONLY | os.O_TRUNC, os.O_WRONLY | os.O_APPEND], ids=[">", ">>"])
def test_an_output_beside_writes_into_no_auction(program: Program, room: Path, seeing: Conditions, flags: int) -> None:
    """`format --file F > F.new`: the file is made under that name."""
    with opened(room / "F.new", flags) as output:
        ran = program.run(*format_words(room / "F"), text=definition(), output=output, conditions=seeing)
    assert (ran.errors, ran.status) == (f"hpb: 91 device: {led('standard output', room)}\n", 1)
    assert not (room / "F").exists() and (room / "F.new").read_bytes() == b""


@pytest.mark.parametrize("flags", [os.O_WRONLY | os.O_TRUNC, os.O_WRONLY | os.O_APPEND], ids=["2>", "2>>"])
def test_errors_beside_are_written_into_no_auction(program: Program, room: Path, seeing: Conditions, flags: int) -> None:
    """`format --file F 2>> F.new`."""
    with opened(room / "F.new", flags) as errors:
        ran = program.run(*format_words(room / "F"), text=definition(), errors=errors, conditions=seeing)
    assert (ran.output, ran.status) == ("ERR 91 device\n", 1)
    assert not (room / "F").exists() and (room / "F.new").read_bytes() == b""


def led(stream: str, room: Path) -> str:
    """The message about a stream that leads to the file under the name by which it is made."""
    return f"{stream} is {room / 'F'}.new, as {room / 'F'} is called while it is made: let it lead elsewhere"


WRONG_WORDS = [
    ("check", "--file", "F", "--help"),
    ("--help", "--file", "F"),
    ("check", "--file", "F", "--bogus"),
    ("check", "--bogus", "--file", "F"),
    ("check", "--file=F", "--bogus"),
    ("run", "--file", "F", "--batch", "none"),
    ("serve", "--file", "F"),
    ("format", "--file", "F", "--journal", "3"),
    ("nonsense", "--file", "F"),
    ("--file", "F"),
    ("check", "--file", "none", "--file", "F"),
    ("check", "--file", "F", "--file", "none"),
    ("check", "--file", "./F", "--bogus"),
    ("check", "--file", "link", "--bogus"),
    ("check", "--file", "F", b"\xff"),
    (b"\xff", "--file", "F"),
]


@pytest.mark.parametrize("words", WRONG_WORDS, ids=[" ".join(map(str, words)) for words in WRONG_WORDS])
def test_no_words_make_errors_of_the_auction(program: Program, room: Path, seeing: Conditions, words: tuple[str | bytes, ...]) -> None:
    """`hpb .. 2>> F`: whatever the words are, nothing is written into the file that they name."""
    before = kept_bytes(program, room)
    with opened(room / "F", os.O_WRONLY | os.O_APPEND) as errors:
        status = status_of(program, words, errors, room, seeing)
    assert status in (0, 1, 2)
    assert (room / "F").read_bytes() == before


@pytest.mark.as_root
@pytest.mark.parametrize("words", [("check", "--file", "F"), ("check", "--file", "F", "--bogus")], ids=["right", "wrong"])
def test_a_stream_that_cant_be_held_is_told_in_no_auction(program: Program, room: Path, words: tuple[str, ...]) -> None:
    """Standard input is closed, and there is no /dev/null."""
    before = kept_bytes(program, room)
    with opened(room / "F", os.O_WRONLY | os.O_APPEND) as errors:
        status = status_of(program, words, errors, room, Conditions(last=without_devices))
    assert (status, (room / "F").read_bytes() == before) == (1, True)


def test_memory_that_is_refused_is_told_in_no_auction(program: Program, room: Path) -> None:
    before = kept_bytes(program, room)
    with opened(room / "F", os.O_WRONLY | os.O_APPEND) as errors:
        status = status_of(program, ("check", "--file", "F"), errors, room, NORMAL.with_stack(LITTLE_STACK))
    assert (status, (room / "F").read_bytes() == before) == (1, True)


def kept_bytes(program: Program, room: Path) -> bytes:
    """A new auction in F; `link` leads to F, too."""
    assert program.format(room / "F").status == 0
    (room / "link").symlink_to("F")
    return (room / "F").read_bytes()


def status_of(program: Program, words: tuple[str | bytes, ...], errors: int, room: Path, conditions: Conditions) -> int:
    """The status with these words, in this folder."""
    process = subprocess.Popen(
        ["hpb", *words],
        executable=program.path,
        stdin=subprocess.DEVNULL,
        stdout=subprocess.DEVNULL,
        stderr=errors,
        cwd=room,
        preexec_fn=conditions.prepare,
    )
    try:
        return process.wait(SECONDS)
    finally:
        process.kill()
