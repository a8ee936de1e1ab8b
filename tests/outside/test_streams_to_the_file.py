"""Standard streams that lead to the file of the auction, by whatever name: nothing is written there, no job is done, and it is said."""

from __future__ import annotations

import os
import resource
import subprocess
from collections.abc import Callable
from dataclasses import dataclass
from pathlib import Path

import pytest

from harness.auctions import definition
from harness.conditions import NORMAL, Conditions
from harness.namespaces import hide
from harness.programs import Program, Ran, Stream, format_words
from harness.serving import free_port
from harness.streams import opened
from outside.jobs import FIRST_BID
from outside.lies import Liar

JOBS = ("format", "check", "run", "serve")
NAMES = ("F", "linked", "symbolic")
# Which standard streams lead to the file.
CHOICES = [(0,), (1,), (2,), (1, 2)]
FLAGS = {"": os.O_RDWR, "append": os.O_RDWR | os.O_APPEND}
FEW_FILES = Conditions().with_limit(resource.RLIMIT_NOFILE, 16)
CANT_HOLD = (
    "hpb: 92 stream: a standard stream is closed, and /dev/null can't be opened in its place: "
    "No such file or directory (os error 2): start hpb with its streams open\n"
)


@pytest.fixture
def file(program: Program, room: Path) -> Path:
    """An auction with one bid, which has three names, and a definition beside it."""
    file = room / "F"
    assert program.format(file).status == program.run_lines(file, FIRST_BID).status == 0
    (room / "linked").hardlink_to(file)
    (room / "symbolic").symlink_to("F")
    (room / "definition").write_bytes(definition())
    (room / "wrong").write_bytes(b"{\n")
    return file


def words_of(job: str, file: Path) -> list[object]:
    more: list[object] = ["--port", free_port(), "--sessions", 1] if job == "serve" else []
    return format_words(file) if job == "format" else [job, "--file", file, *more]


@dataclass(frozen=True)
class Lead:
    """Which standard streams lead to a file, and how it is opened for that."""

    file: Path
    choice: tuple[int, ...]
    flags: int = FLAGS["append"]

    def run(self, program: Program, words: list[object], conditions: Conditions = NORMAL) -> Ran:
        """These words, with such streams. AssertionError if a byte of the file is another one then."""
        whole, text = self.file.read_bytes(), self.file.with_name("definition")
        with opened(self.file, self.flags) as lead, opened(text) as given:
            pipes: tuple[Stream, ...] = (given, subprocess.PIPE, subprocess.PIPE)
            streams = [lead if number in self.choice else pipe for number, pipe in enumerate(pipes)]
            ran = program.run(*words, input=streams[0], output=streams[1], errors=streams[2], conditions=conditions)
        assert self.file.read_bytes() == whole
        return ran


def is_refused(program: Program, job: str, file: Path, choice: tuple[int, ...], flags: int) -> None:
    """It is refused by 91, and said on each stream that leads elsewhere."""
    ran = Lead(file.with_name("F"), choice, flags).run(program, words_of(job, file))
    named = "output" if 1 in choice else "input"
    said = f"hpb: 91 device: standard {named} is {file}, the file of the auction itself: let it lead elsewhere\n"
    assert ran.told() == ("" if 1 in choice else "ERR 91 device\n", "" if 2 in choice else said, 1)


@pytest.mark.parametrize("flags", FLAGS.values(), ids=["write", "append"])
@pytest.mark.parametrize("choice", CHOICES, ids=["input", "output", "errors", "both"])
@pytest.mark.parametrize("job", JOBS)
def test_a_stream_that_leads_to_the_file(program: Program, file: Path, job: str, choice: tuple[int, ...], flags: int) -> None:
    """By each of its names."""
    for name in NAMES:
        is_refused(program, job, file.with_name(name), choice, flags)


# Words that are refused before a file is opened: of a definition, a journal, and connections.
BEFORE: dict[str, Callable[[Path], list[object]]] = {
    "a wrong definition": format_words,
    "a journal out of range": lambda file: format_words(file, journal=1),
    "too few files": lambda file: ["serve", "--file", file, "--port", free_port(), "--sessions", 32],
}


@pytest.mark.parametrize("what", list(BEFORE))
def test_what_is_said_before_a_file_is_opened(program: Program, file: Path, what: str) -> None:
    if what == "a wrong definition":
        file.with_name("wrong").replace(file.with_name("definition"))
    assert Lead(file, (1, 2)).run(program, BEFORE[what](file), FEW_FILES).status == 1


@pytest.mark.as_root
@pytest.mark.parametrize("stream", range(3))
@pytest.mark.parametrize("job", ["run", "check", "serve"])
def test_no_name_leads_to_a_stream(program: Program, file: Path, job: str, stream: int) -> None:
    """The system's own folder of streams is hidden."""
    ran = Lead(file, (stream,)).run(program, words_of(job, file), Conditions(last=lambda: hide("/proc")))
    assert ran.status == 1


def without_devices(stream: int) -> Callable[[], None]:
    """Hides /dev, and closes a stream."""

    def last() -> None:
        hide("/dev")
        os.close(stream)

    return last


@pytest.mark.as_root
@pytest.mark.parametrize("stream", [0, 1])
@pytest.mark.parametrize("job", ["check", "run"])
def test_nothing_can_take_the_place_of_a_closed_stream(program: Program, file: Path, job: str, stream: int) -> None:
    """Nothing is done, and it is said why."""
    whole = file.read_bytes()
    ran = program.run(*words_of(job, file), conditions=Conditions(last=without_devices(stream)))
    assert ran.told() == ("", CANT_HOLD, 1)
    assert file.read_bytes() == whole


@pytest.mark.parametrize("lie", ["wrong", "silent", "well"])
def test_what_is_said_otherwise_is_seen(liar: Liar, file: Path, lie: str) -> None:
    with pytest.raises(AssertionError):
        is_refused(liar(lie), "check", file, (0,), os.O_RDWR)
