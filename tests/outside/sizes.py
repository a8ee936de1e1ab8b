"""Files of auctions of any size, which are made, run, served and shown. All answers are known by hand."""

from __future__ import annotations

import functools
import itertools
from dataclasses import dataclass, field
from pathlib import Path

from harness.auctions import PAGE, Layout, text_of
from harness.notices import closes
from harness.programs import Program
from harness.serving import Server
from outside.answering import same
from outside.sized import Sized, halves, numbers

GREATEST = Sized(halves(127), 64)
PATIENCE = 110
# So many commands are served behind those of a run.
SERVED = 3
# The places in a file: the two slots, the page behind the gate of each, and the journal with its frames.
SLOTS = (3 * PAGE, 8 * PAGE)
JOURNAL_AT, FRAME = 13 * PAGE, {Layout.PAGES: PAGE, Layout.CELLS: 1536}


def number_at(image: bytes, at: int) -> int:
    """A number of eight bytes."""
    return int.from_bytes(image[at : at + 8], "big")


@functools.cache
def in_memory(program: Program, auction: Sized, count: int) -> str:
    """The answers of a script to so many commands, and to the questions that `check` answers."""
    questions = ["SHOW", *(f"NODE {node}" for node in auction.nodes)]
    return program.run(text=auction.definition() + text_of([*auction.lines(0, count), *questions]), seconds=PATIENCE).output


@dataclass
class SizedFile:
    """A new file of an auction, with a journal of so many frames."""

    program: Program
    file: Path
    layout: Layout = Layout.PAGES
    auction: Sized = field(default=GREATEST)
    frames: int = 0

    def __post_init__(self) -> None:
        """Makes it. Without a number of frames it has the least one."""
        self.frames = self.frames or self.layout.least_journal
        made = self.program.format(self.file, self.layout, self.frames, self.auction.definition())
        assert made.told() == (f"FORMATTED {self.layout.pages(self.frames)}\n", "", 0)

    def shows(self, count: int) -> None:
        """AssertionError unless it is shown with so many commands."""
        same(self.program.check(self.file).told(), (self.auction.shown(count), "", 0))

    def runs(self, first: int, end: int, batch: int = 64, every: int = 0) -> None:
        """Runs the commands from this place on and up to that one. A script answers and shows the same."""
        text = text_of(self.auction.lines(first, end))
        ran = self.program.run_lines(self.file, text, "--batch", batch, "--every", every, seconds=PATIENCE)
        same(ran.told(), (numbers(first, end), "", 0))
        self.shows(end)
        same(in_memory(self.program, self.auction, end), numbers(0, end) + self.auction.shown(end))

    def serves(self, count: int) -> None:
        """Serves some more commands, the last of them twice, and questions before and behind them."""
        end = count + SERVED
        lines = self.auction.lines(count, end)
        before, behind = (self.auction.shown(number).split("\n")[0] for number in (count, end))
        with Server(self.program, self.file) as server:
            session = server.connect()
            answers = [session.ask(line) for line in ["SHOW", *lines, lines[-1], "SHOW"]]
            same(answers, [before, *numbers(count, end).splitlines(), f"OK {end}", behind])
            assert session.finish() == []
            closes(server, end)
        self.shows(end)

    def works(self, count: int, batch: int = 64, every: int = 0) -> None:
        """Is shown, run, shown and served."""
        self.shows(0)
        self.runs(0, count, batch, every)
        self.serves(count)

    def covered(self) -> int:
        """How many batches its newer checkpoint covers."""
        image = self.file.read_bytes()
        return max(number_at(image, slot + PAGE + 16) for slot in SLOTS)

    def batches(self) -> int:
        """How many batches there were, by the last one in its journal."""
        image, places = self.file.read_bytes(), itertools.count(JOURNAL_AT, FRAME[self.layout])
        return 1 + max(number_at(image, place + 16) for place in itertools.islice(places, self.frames))
