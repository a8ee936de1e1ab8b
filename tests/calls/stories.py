"""Stories of files: each is made, run, stopped at an image that a crash may leave, and run again. The program opens all images."""

from __future__ import annotations

import functools
import random
from collections.abc import Sequence
from dataclasses import dataclass, field
from pathlib import Path

from calls.images import Traced, TracedFormat, bytes_of
from calls.promises import numbers_in
from harness.auctions import FIRST_ROUND, PAGE, Layout, definition, rounds, text_of
from harness.file_calls import Call, Recorder
from harness.programs import Program
from outside.encoder import FIRST_FORMAT, NODES, OPEN, SLOTS, WAIVERS_FORMAT, Image

# A story has so many runs, and each run so many images. The next run goes on from the last of them. Of every three stories, the second
# goes on from a file of an earlier program. The third is of an auction whose bidders have waivers.
RUNS, IMAGES_A_RUN, IMAGES_A_FORMAT = 4, 24, 4
STORY = RUNS * IMAGES_A_RUN + IMAGES_A_FORMAT
# This many batches wrap the journal, and take at least two checkpoints.
BATCHES = {Layout.PAGES: 14, Layout.CELLS: 34}
# Batches of cells take one more cell from 30 commands on, and from 61 on.
FEW, MANY = range(1, 5), (29, 30, 31, 60, 61, 64)
EVERIES = (0, 0, 3, 1)
MOST_ROUNDS, WAIVERS = 180, 20


@functools.cache
def prefixes(program: Program, waivers: int = 0) -> tuple[list[str], list[str]]:
    """Many commands, all of which are accepted, and the auction that is shown after each number of them."""
    commands = [*FIRST_ROUND, *rounds(MOST_ROUNDS, waivers)]
    questions = ["SHOW", *(f"NODE {name}" for name in NODES)]
    lines = [*questions, *(line for command in commands for line in (command, *questions))]
    answers = program.run(text=definition(waivers) + text_of(lines)).output.splitlines(keepends=True)
    step = len(questions) + 1
    return commands, ["".join(answers[step * count : step * count + step - 1]) for count in range(len(commands) + 1)]


@dataclass
class Crashes:
    """Stories of files of one layout, by a seed. The files are made in the recorder's folder, in which a wrong image stays."""

    program: Program
    recorder: Recorder
    layout: Layout
    seed: int
    lie: str = ""
    waivers: int = 0
    images: int = 0
    runs: int = 0
    faults: list[str] = field(default_factory=list)

    def __post_init__(self) -> None:
        self.folder = self.recorder.folder
        self.file, self.picture = self.folder / "story", self.folder / "image"
        self.journal = self.layout.least_journal
        self._begin(self.waivers)

    def _begin(self, waivers: int) -> None:
        self.waivers = waivers
        self.commands, self.texts = prefixes(self.program, waivers)

    def story(self, number: int) -> None:
        """Formats a file, and runs it again and again, each time from an earlier image, until something is wrong."""
        dice, count = random.Random(f"{self.seed} {self.layout.value} {number}"), 0
        self._begin(WAIVERS if number % 3 == 2 else 0)
        if self.holds(self._format(dice), IMAGES_A_FORMAT, dice, f"story {number}, format") is None:
            return
        form = FIRST_FORMAT if number % 3 == 1 else WAIVERS_FORMAT
        self.file.write_bytes(Image(self.layout, self.journal, self.waivers, form).bytes)
        for place in range(RUNS):
            kept = self.holds(self._run(dice, count), IMAGES_A_RUN, dice, f"story {number}, run {place}")
            if kept is None:
                return
            count = kept
            self.picture.replace(self.file)

    def holds(self, traced: Traced, count: int, dice: random.Random, what: str) -> int | None:
        """How many commands the last of so many images keeps, or None if something is wrong with one of them."""
        if not traced.writes:
            self._fault(what, "nothing was written")
            return None
        kept: int | None = traced.count
        for picture in range(count):
            kept = self._open(traced, dice, f"{what}, image {picture}")
            if kept is None:
                return None
        return kept

    def _open(self, traced: Traced, dice: random.Random, what: str) -> int | None:
        image, calls, came = traced.image(dice)
        self.images += 1
        self.picture.write_bytes(image)
        found, wanted = self.program.check(self.picture), traced.shown(calls, self.texts)
        if found.status == 0 and found.errors:
            self._fault(what, f"{found.errors!r} is said of what a stop left; {came}")
        if found.output not in wanted:
            first, *may_be = (text.split("\n")[0] for text in (found.output, *sorted(wanted)))
            self._fault(what, f"{first!r} is shown, wanted: {' or '.join(map(repr, may_be))}; {came}")
            self.picture.with_name("wrong-" + what.replace(", ", "-").replace(" ", "")).write_bytes(image)
        return wanted.get(found.output)

    def _fault(self, what: str, fault: str) -> None:
        self.faults.append(f"layout {self.layout.value}, seed {self.seed}, {what}: {fault}")

    def _format(self, dice: random.Random) -> TracedFormat:
        """Formats a file that held something else."""
        size = self.layout.pages(self.journal) * PAGE
        before = dice.choice([bytes(size), OPEN * size, bytes_of(dice, size)])
        self.file.write_bytes(before)
        self.program.format(self.file, self.layout, text=definition(self.waivers), conditions=self.recorder.conditions(self.lie))
        return TracedFormat(self._calls(), before, 0)

    def _calls(self) -> list[Call]:
        self.runs += 1
        return self.recorder.calls(self.file)

    def _run(self, dice: random.Random, first: int) -> Traced:
        """Runs the file from so many commands on. Each command has to be answered by its number."""
        before, count = self.file.read_bytes(), first
        lines: list[str] = []
        for _ in range(BATCHES[self.layout]):
            size = dice.choice(FEW if dice.random() < 0.9 else MANY)
            lines += [*self.commands[count : count + size], "SHOW"]
            count += size
        words = ("run", "--file", self.file, "--batch", 64, "--every", dice.choice(EVERIES))
        ran = run_from_a_file(self.program, self.recorder, words, lines, self.lie)
        calls, what = self._calls(), f"a run from {first} commands on"
        if numbers_in(ran.encode()) != list(range(first + 1, count + 1)):
            self._fault(what, f"answers otherwise: {ran[:90]!r}")
        if not is_long(calls, self.journal):
            self._fault(what, "wraps no journal, or has no two checkpoints")
        return Traced(calls, before, first)


def run_from_a_file(program: Program, recorder: Recorder, words: Sequence[object], lines: Sequence[str], lie: str = "") -> str:
    """The answers of a run whose lines are all there from the start."""
    text: Path = recorder.folder / "lines"
    text.write_bytes(text_of(lines))
    with text.open("rb") as opened:
        ran = program.run(*words, input=opened, conditions=recorder.conditions(lie))
    assert ran.status == 0, ran
    return ran.output


def is_long(calls: Sequence[Call], journal: int) -> bool:
    """Whether the run makes more durable batches than there are frames, and two checkpoints."""
    opened = [call.at for call in calls if call.name == "write" and call.data == OPEN]
    return sum(at in SLOTS for at in opened) >= 2 and sum(at not in SLOTS for at in opened) > journal
