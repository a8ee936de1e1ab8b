"""Lines that a script, runs and sessions answer alike, in files of both layouts."""

from __future__ import annotations

from dataclasses import dataclass
from pathlib import Path

from harness.auctions import Layout
from harness.notices import closes
from harness.programs import Program
from harness.serving import Server

SECONDS = 20


@dataclass(frozen=True)
class Lines:
    """A text, what it is answered under a definition, and how many commands are then kept."""

    definition: bytes
    text: bytes
    answers: str
    count: int
    # Within how many seconds.
    seconds: float = SECONDS

    def script(self, program: Program) -> None:
        """AssertionError if a script is answered otherwise."""
        same(program.run(text=self.definition + self.text, seconds=self.seconds).told(), (self.answers, "", 0))

    def run(self, program: Program, file: Path, layout: Layout) -> None:
        """AssertionError if a run is answered otherwise, or the file then keeps something else."""
        assert program.format(file, layout, text=self.definition).status == 0
        same(program.run_lines(file, self.text, seconds=self.seconds).told(), (self.answers, "", 0))
        assert program.count(file) == self.count

    def session(self, program: Program, file: Path, layout: Layout) -> None:
        """AssertionError if a session is answered otherwise, or the file then keeps something else."""
        assert program.format(file, layout, text=self.definition).status == 0
        with Server(program, file) as server:
            same(server.connect(self.seconds).tell(self.text), self.answers)
            closes(server, self.count)
        assert program.count(file) == self.count


def same(found: object, wanted: object, what: str = "") -> None:
    """AssertionError unless they are the same, with the front and the end of each: a difference of long texts takes long to make."""
    is_same = found == wanted
    assert is_same, f"{what}: {shortened(found)}, wanted: {shortened(wanted)}"


def shortened(value: object) -> str:
    """The front and the end of a long value."""
    text = repr(value)
    return text if len(text) <= 900 else f"{text[:600]}.. ({len(text)} in all) ..{text[-200:]}"
