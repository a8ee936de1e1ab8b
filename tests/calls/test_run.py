"""Each call of `run` and `check`, over batches of one and of several commands, with checkpoints and without.

The file is new, then opened again after a whole batch in the middle, and at the end.
"""

from __future__ import annotations

from collections.abc import Sequence

import pytest

from calls.watched import BATCHES, Watched, answers_of, holds_calls, script
from harness.auctions import Layout
from harness.file_calls import Recorder
from harness.programs import Program
from outside.encoder import FIRST_FORMAT, Image


def runs_script(watched: Watched, batch: int, every: int, sizes: Sequence[int]) -> None:
    """AssertionError unless all calls of a script in batches of these sizes are those that are due."""
    lines = script(sizes, watched.waivers)
    answers = answers_of(watched.program, tuple(lines), watched.waivers)
    middle = lines.index("SHOW", len(lines) // 2) + 1
    for part in (slice(0, middle), slice(middle, None), slice(len(lines), None)):
        watched.runs(lines[part], answers[part], batch, every)
        watched.shows()


@pytest.mark.parametrize(
    ("batch", "every", "sizes"),
    [(1, 0, BATCHES[:3]), (64, 0, BATCHES * 2), (64, 3, BATCHES * 2), (7, 2, BATCHES), (64, 1, BATCHES[:6])],
    ids=["by-1", "by-64", "every-3-batches", "by-7", "every-batch"],
)
def test_runs(watched: Watched, batch: int, every: int, sizes: Sequence[int]) -> None:
    runs_script(watched.make(), batch, every, sizes)


def test_runs_with_waivers(program: Program, recorder: Recorder, layout: Layout) -> None:
    runs_script(Watched(program, recorder, layout, waivers=5).make(), 64, 2, BATCHES)


def test_runs_of_a_file_of_an_earlier_program(watched: Watched) -> None:
    old = Image(watched.layout, watched.journal, form=FIRST_FORMAT).bytes
    runs_script(watched.hold(old), 64, 2, BATCHES)


def test_a_link_in_another_folder(watched: Watched) -> None:
    """Both folders are synced."""
    watched.make()
    link = watched.recorder.folder / "link"
    link.symlink_to(watched.file)
    ran = watched.program.run_lines(link, b"BID x 1 a 100\n", conditions=watched.recorder.conditions())
    watched.engine.run(["BID x 1 a 100"], [b"OK 1\n"], 1, 0, is_linked=True)
    holds_calls(watched.recorder.calls(watched.file, link), watched.engine.taken())
    assert (ran.output, ran.status) == ("OK 1\n", 0)
