"""2,000 images that a crash may leave of files of both layouts, made from the calls of `format` and `run`, and opened by the program.

`bench/images` makes more, and tells one story again.
"""

from __future__ import annotations

import pytest

from calls.stories import STORY, Crashes
from harness.auctions import Layout
from harness.file_calls import Recorder
from harness.programs import Program

# The seed of the stories, and how many each layout has.
SEED, STORIES = 1, 10
# Lies, and the stories in which some of the images are wrong then.
LOSING = {"sync": range(1), "gate": range(1), "body": range(4)}


@pytest.mark.parametrize("number", range(STORIES))
def test_stories(program: Program, recorder: Recorder, layout: Layout, number: int) -> None:
    crashes = Crashes(program, recorder, layout, SEED)
    crashes.story(number)
    assert crashes.faults == []
    assert crashes.images == STORY


@pytest.mark.parametrize("lie", LOSING)
def test_a_crash_shows_what_was_not_synced(program: Program, recorder: Recorder, layout: Layout, lie: str) -> None:
    crashes = Crashes(program, recorder, layout, SEED, lie)
    for number in LOSING[lie]:
        crashes.story(number)
    assert any(" is shown, wanted: " in fault for fault in crashes.faults), crashes.faults
