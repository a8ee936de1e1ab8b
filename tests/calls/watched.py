"""A file whose calls are all seen: they have to be those that docs/FORMATS.md gives, each in its place and with its bytes."""

from __future__ import annotations

import functools
from collections.abc import Sequence

from calls.promises import broken_promises
from calls.stories import run_from_a_file
from calls.wanted import Engine
from harness.auctions import FIRST_ROUND, Layout, definition, rounds, text_of
from harness.file_calls import Call, Recorder, difference
from harness.programs import Program, Ran, format_words

# After how many commands a question ends the batch. Some of these are sizes at which a batch of cells takes one more cell.
BATCHES = (1, 2, 29, 30, 31, 60, 61, 64, 3, 1, 1, 5)
REFUSED = "BID y 9 b 10"


def script(sizes: Sequence[int], waivers: int = 0) -> list[str]:
    """Lines in batches of these sizes, each with a question after it. All are accepted, but for one in some of the batches."""
    commands = [*FIRST_ROUND, *rounds(-(-sum(sizes) // 10), waivers)]
    lines: list[str] = []
    for size in sizes:
        lines += [*commands[:size], *([REFUSED] if size in (2, 5, 30) else []), "SHOW"]
        commands = commands[size:]
    return [*lines, REFUSED, REFUSED, "SHOW", REFUSED]


@functools.cache
def answers_of(program: Program, lines: tuple[str, ...], waivers: int = 0) -> list[bytes]:
    """The answers of an auction in memory."""
    return program.run(text=definition(waivers) + text_of(lines)).output.encode().splitlines(keepends=True)


class Watched:
    """A file of one layout, the contents that it has to have, and a program whose calls are all seen."""

    def __init__(self, program: Program, recorder: Recorder, layout: Layout, journal: int | None = None, waivers: int = 0) -> None:
        self.program, self.recorder, self.layout, self.waivers = program, recorder, layout, waivers
        self.journal = layout.least_journal if journal is None else journal
        # In a folder of its own, of which each call is seen.
        folder = recorder.folder / "watched"
        folder.mkdir(exist_ok=True)
        self.file = folder / "F"
        self.engine = Engine(layout, self.journal, waivers)
        self.formatted = f"FORMATTED {layout.pages(self.journal)}\n"

    def run(self, *words: object, text: bytes = b"", lie: str = "") -> tuple[Ran, list[Call]]:
        """The output of a job, and its calls."""
        ran = self.program.run(*words, text=text, conditions=self.recorder.conditions(lie))
        return ran, self.recorder.calls(self.file)

    def words(self, journal: int | None = None) -> list[object]:
        """Those of `format`."""
        return format_words(self.file, self.layout, self.journal if journal is None else journal)

    def make(self) -> Watched:
        """Makes a new file."""
        self.engine.make_file()
        self.engine.format()
        self.engine.taken()
        assert self.program.run(*self.words(), text=definition(self.waivers)).output == self.formatted
        return self

    def hold(self, before: bytes) -> Watched:
        """Gives the file these bytes."""
        self.file.write_bytes(before)
        self.engine.image[:] = before
        return self

    def takes(self) -> None:
        """An existing file is opened to be changed."""
        self.engine.take_file()
        self.engine.sync_folder()

    def ends(self, answer: str) -> None:
        """The file is closed, and then the answer says how that ended."""
        self.engine.ask("close")
        self.engine.put(answer.encode())

    def formats(self, answer: str, journal: int | None = None) -> None:
        """Formats the file. AssertionError unless the program makes the calls that are due, and answers this."""
        ran, found = self.run(*self.words(journal), text=definition(self.waivers))
        assert ran.output == answer, ran
        self.holds(found)

    def holds(self, found: Sequence[Call], kept: tuple[bytes, int] | None = None) -> None:
        """AssertionError unless these calls are due, and the file has its due contents. If `kept` says what it held before, no promise may
        be broken.
        """
        holds_calls(found, self.engine.taken())
        if kept is not None:
            self.keeps(found, kept)
        self.holds_bytes()

    def keeps(self, found: Sequence[Call], kept: tuple[bytes, int]) -> None:
        """AssertionError if one of these calls breaks a promise. `kept` are the bytes of the file before them, and its commands."""
        faults = [*broken_promises(found, kept[0], self.layout, self.journal, kept[1])]
        assert faults == [], faults[:3]

    def holds_bytes(self) -> None:
        """AssertionError unless the file holds all that was written."""
        is_same = self.file.read_bytes() == bytes(self.engine.image)
        assert is_same, "the file doesn't hold what was written"

    def kept(self) -> tuple[bytes, int]:
        """The bytes of the file, and how many commands it keeps."""
        return bytes(self.engine.image), self.engine.auction.count

    def shows(self) -> None:
        """AssertionError unless the file is shown by the calls that are due."""
        ran, found = self.run("check", "--file", self.file)
        self.engine.take_file("to read", "shared")
        self.engine.open()
        self.engine.put(ran.output.encode())
        self.engine.ask("close")
        self.holds(found, self.kept())
        assert (ran.output.split("\n")[0].rsplit(" ", 1)[1], ran.status) == (str(self.engine.auction.count), 0)

    def runs(self, lines: Sequence[str], answers: Sequence[bytes], batch: int, every: int) -> None:
        """AssertionError unless these lines get these answers, by the calls that are due."""
        kept = self.kept()
        found = self.run_lines(lines, answers, batch, every)
        self.engine.run(lines, answers, batch, every)
        self.holds(found, kept)

    def run_lines(self, lines: Sequence[str], answers: Sequence[bytes], batch: int, every: int, lie: str = "") -> list[Call]:
        """The calls of a run. AssertionError unless its lines get these answers."""
        words = ("run", "--file", self.file, "--batch", batch, "--every", every)
        assert run_from_a_file(self.program, self.recorder, words, lines, lie).encode() == b"".join(answers)
        return self.recorder.calls(self.file)


def holds_calls(found: Sequence[Call], wanted: Sequence[Call]) -> None:
    """AssertionError unless the calls are the wanted ones."""
    differs = difference(found, wanted)
    assert not differs, differs
