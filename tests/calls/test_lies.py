"""A program that leaves out a call is found by its calls, and by the promises that they break."""

from __future__ import annotations

import pytest

from calls.promises import broken_promises
from calls.watched import BATCHES, Watched, answers_of, script
from harness.auctions import Layout, definition
from harness.file_calls import difference

# The calls that are left out, and the faults that are then found: of its calls, and of promises that they break.
LIES = {
    "sync": ("call 3 is advise file: 0 0 4; wanted: sync file", "call 23 is write file: 1 bytes at 53248, a5..: what is behind it isn't durable"),
    "folder": ("call 7 is close folder; wanted: sync folder", None),
    "lock": ("call 2 is sync file; wanted: lock file: alone", None),
    "advice": ("call 4 is read file: 0 69632; wanted: advise file: 0 0 4", None),
    "body": ("call 25 is write file: 1 bytes at 53248, a5..; wanted: sync file", "call 25 is write file: 1 bytes at 53248, a5..: what is behind it isn't durable"),
    "gate": ("call 27 is put output: b'OK 1\\nROUND 1 STAGE 1 OPEN REVENUE 0 COUNT 1\\n'; wanted: sync file", "call 27 is OK 1, and 0 commands are durable"),
}
# A program that shows a file syncs no folder and writes nothing, so only these can be seen.
SHOWN = ("sync", "lock", "advice")

pytestmark = pytest.mark.parametrize("layout", [Layout.PAGES], indirect=True, ids=["pages"])


@pytest.mark.parametrize("lie", LIES)
def test_a_run(watched: Watched, lie: str) -> None:
    lines = script(BATCHES[:6])
    answers = answers_of(watched.program, tuple(lines))
    before, _ = watched.make().kept()
    found = watched.run_lines(lines, answers, 64, 0, lie)
    watched.engine.run(lines, answers, 64, 0)
    broken = next(broken_promises(found, before, watched.layout, watched.journal), None)
    assert (difference(found, watched.engine.taken()), broken) == LIES[lie]


@pytest.mark.parametrize("lie", LIES)
def test_a_file_that_is_made_and_shown(watched: Watched, lie: str) -> None:
    watched.engine.make_file()
    watched.engine.format()
    made = watched.engine.taken()
    watched.engine.take_file("to read", "shared")
    watched.engine.open()
    shown = watched.engine.taken()
    for words, text, wanted, is_told in (
        (watched.words(), definition(), made, True),
        (["check", "--file", watched.file], b"", shown, lie in SHOWN),
    ):
        _, found = watched.run(*words, text=text, lie=lie)
        assert (difference(found[: len(wanted)], wanted) != "") is is_told, words
