"""A file of one layout, and the jobs on it, while a request for memory is refused."""

from __future__ import annotations

import shutil
from dataclasses import dataclass, field
from pathlib import Path

from harness.auctions import Layout, definition
from harness.programs import Program, format_words
from harness.refusals import Refusals, Tried, each
from memory.endings import ILL, LINE, SAID_OF_RUN, Whole, ending, is_short

RUN = ("run", "--file", "F", "--batch", 2, "--every", 3)


@dataclass(frozen=True)
class FileTrial:
    """A program, a layout, a definition, and a folder for new files."""

    program: Program
    refusals: Refusals
    layout: Layout
    room: Path
    text: bytes = field(default_factory=definition)

    def format(self, folder: Path, number: int = 0) -> Tried:
        """Makes the file F in a folder."""
        return self.refusals.run(self.program, format_words(Path("F"), self.layout), folder, number, self.text)

    def check(self, file: Path, folder: Path, number: int = 0) -> Tried:
        """Shows a file, in a folder."""
        return self.refusals.run(self.program, ["check", "--file", file], folder, number)

    def new(self) -> Path:
        """A new file."""
        folder = self.room / "new"
        folder.mkdir()
        assert self.format(folder).status == 0
        return folder / "F"

    def try_format(self) -> int:
        """Whichever request is refused, no auction is half made. How often the line of refused memory came."""
        wanted = (b"FORMATTED %d\n" % self.layout.pages(self.layout.least_journal), 0)
        first = self.room / "first"
        first.mkdir()
        requests = range(1, self.format(first).requests + 1)
        assert requests

        def tries(number: int, folder: Path) -> tuple[bool, Tried]:
            ran = self.format(folder, number)
            if ran.status == ILL and is_short(ran):
                return ran.output == LINE, self.format(folder)
            return False, ran

        found = each(self.room, requests, tries)
        assert [(number, ending(ran)) for number, (_, ran) in zip(requests, found) if (ran.output, ran.status) != wanted] == []
        return sum(is_told for is_told, _ in found)

    def try_check(self) -> int:
        """Whichever request is refused, the file is shown as with memory, or not at all. How often the line of refused memory came."""
        new = self.new()
        whole = self.check(new, new.parent)
        requests = range(1, whole.requests + 1)
        assert requests and whole.status == 0

        def is_right(ran: Tried) -> bool:
            return (ran.status, ran.output) == (0, whole.output) or (ran.status == ILL and is_short(ran))

        found = each(self.room, requests, lambda number, folder: self.check(new, folder, number))
        assert [(number, ending(ran)) for number, ran in zip(requests, found) if not is_right(ran)] == []
        return sum(ran.output == LINE for ran in found)

    def try_run(self, lines: bytes) -> None:
        """Whichever request is refused, each answer by OK is kept."""
        new = self.new()

        def run(number: int, folder: Path) -> Tried:
            shutil.copyfile(new, folder / "F")
            return self.refusals.run(self.program, RUN, folder, number, lines)

        def tries(number: int, folder: Path) -> tuple[int, Tried]:
            ran = run(number, folder)
            return kept(self.check(folder / "F", folder)), ran

        first = self.room / "whole"
        first.mkdir()
        whole = Whole(run(0, first), SAID_OF_RUN)
        requests = range(1, whole.tried.requests + 1)
        assert requests and whole.tried.status == 0
        for number, (count, ran) in zip(requests, each(self.room, requests, tries)):
            answered = [int(line[3:]) for line in ran.output.split(b"\n") if line.startswith(b"OK ")]
            assert count >= max([0, *answered]), f"request {number}: {answered[-1:]} answered, {count} kept"
            assert whole.allows(ran), f"request {number}: {ending(ran)}"


def kept(ran: Tried) -> int:
    """How many commands a file keeps, by `check`."""
    first = ran.output.split(b"\n")[0]
    return int(first.rsplit(b" ", 1)[1]) if b" COUNT " in first else -1
