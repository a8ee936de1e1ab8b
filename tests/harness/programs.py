"""Runs the program under test to its end, and collects its answers and messages."""

from __future__ import annotations

import subprocess
import time
from collections.abc import Sequence
from dataclasses import dataclass
from pathlib import Path
from typing import IO

from harness.auctions import PAGE, Layout, definition, text_of
from harness.conditions import NORMAL, Conditions

SECONDS = 20

Stream = int | IO[bytes]


@dataclass(frozen=True)
class Ran:
    """The output of a program on standard output and standard error, its status (minus the signal, if a signal ended it), and its
    seconds.
    """

    output: str
    errors: str
    status: int
    seconds: float

    def lines(self) -> list[str]:
        """The lines of standard output."""
        return self.output.splitlines()

    def told(self) -> tuple[str, str, int]:
        """Its output on both streams, and its status."""
        return self.output, self.errors, self.status


class TookTooLong(AssertionError):
    """A program didn't end within its time, and was killed here."""


@dataclass(frozen=True)
class Program:
    """A built `hpb`, which every user may run."""

    path: Path
    # Within how long it ends, unless a run says otherwise.
    seconds: float = SECONDS

    def start(
        self,
        *words: object,
        input: Stream = subprocess.DEVNULL,
        output: Stream = subprocess.PIPE,
        errors: Stream = subprocess.PIPE,
        conditions: Conditions = NORMAL,
    ) -> subprocess.Popen[bytes]:
        """Starts it; the caller ends it."""
        return subprocess.Popen(
            ["hpb", *map(argument, words)],
            executable=self.path,
            stdin=input,
            stdout=output,
            stderr=errors,
            cwd=conditions.folder,
            env=conditions.variables(),
            preexec_fn=conditions.preparation,
        )

    def run(
        self,
        *words: object,
        text: bytes = b"",
        input: Stream | None = None,
        output: Stream = subprocess.PIPE,
        errors: Stream = subprocess.PIPE,
        conditions: Conditions = NORMAL,
        seconds: float | None = None,
    ) -> Ran:
        """Runs it to its end, on this text or on an open input. If that takes more than `seconds`, TookTooLong is raised."""
        began = time.monotonic()
        source = subprocess.PIPE if input is None else input
        process = self.start(*words, input=source, output=output, errors=errors, conditions=conditions)
        try:
            written, said = process.communicate(text if input is None else None, timeout=self.seconds if seconds is None else seconds)
        except subprocess.TimeoutExpired:
            process.kill()
            written, said = process.communicate()
            raise TookTooLong(f"hpb {words}: {shown(written)} {shown(said)}") from None
        return Ran(shown(written), shown(said), process.returncode, time.monotonic() - began)

    def format(
        self,
        file: Path,
        layout: Layout = Layout.PAGES,
        journal: int | None = None,
        text: bytes | None = None,
        conditions: Conditions = NORMAL,
    ) -> Ran:
        """Runs `format`. The default is the least journal and the definition of the first example."""
        words = format_words(file, layout, journal)
        return self.run(*words, text=definition() if text is None else text, conditions=conditions)

    def run_lines(self, file: Path, text: bytes, *words: object, conditions: Conditions = NORMAL, seconds: float | None = None) -> Ran:
        """Runs `run` on a file, with these lines and further words."""
        return self.run("run", "--file", file, *words, text=text, conditions=conditions, seconds=seconds)

    def keep(
        self,
        file: Path,
        lines: Sequence[str] = (),
        text: bytes | None = None,
        layout: Layout = Layout.PAGES,
        journal: int | None = None,
    ) -> Path:
        """A new file, on which these lines were run. AssertionError if that fails; what the lines are answered isn't looked at."""
        made = self.format(file, layout, journal, text)
        assert (made.output, made.status) == (f"FORMATTED {file.stat().st_size // PAGE}\n", 0), made
        if lines:
            ran = self.run_lines(file, text_of(lines))
            assert (ran.errors, ran.status) == ("", 0), ran
        return file

    def check(self, file: Path, conditions: Conditions = NORMAL) -> Ran:
        """Runs `check` on a file."""
        return self.run("check", "--file", file, conditions=conditions)

    def count(self, file: Path) -> int:
        """How many commands a file keeps, by `check`. If the file can't be opened, AssertionError is raised, with the messages."""
        found = self.check(file)
        first = found.output.split("\n")[0]
        assert found.status == 0 and " COUNT " in first, found
        return int(first.rsplit(" ", 1)[1])


def format_words(file: Path, layout: Layout = Layout.PAGES, journal: int | None = None) -> list[object]:
    """The words of `format`. The first layout needs no option."""
    chosen = [] if layout is Layout.PAGES else ["--layout", int(layout)]
    return ["format", "--file", file, "--journal", layout.least_journal if journal is None else journal, *chosen]


def argument(word: object) -> str | bytes:
    """A word of a command line. Bytes need not be a text."""
    return word if isinstance(word, bytes) else str(word)


def shown(data: bytes | None) -> str:
    """The bytes of a stream as text. Bytes that aren't text are escaped."""
    return (data or b"").decode(errors="backslashreplace")
