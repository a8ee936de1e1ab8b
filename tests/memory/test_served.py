"""A file is served to two sessions, with each request for memory refused in turn.

The auction goes on as long as one of the sessions is there. No command is lost or has two numbers, and the file at the end is the same as
with memory.
"""

from __future__ import annotations

import shutil
from collections import Counter
from collections.abc import Sequence
from pathlib import Path

import pytest

from harness.auctions import Layout, text_of
from harness.programs import Program
from harness.refusals import Refusals, each
from memory.files import FileTrial
from memory.served import LINES, Auction, End, Lie, Serving, doubles, drops, loses, place_as_memory, truth

# Some hundreds of servings, some of them side by side.
pytestmark = pytest.mark.timeout(240)


@pytest.fixture
def auction(program: Program, refusals: Refusals, layout: Layout, room: Path) -> Auction:
    """A new auction, and what it shows after all lines."""
    trial = FileTrial(program, refusals, layout, room)
    new = trial.new()
    whole = room / "whole"
    shutil.copyfile(new, whole)
    assert program.run_lines(whole, text_of(LINES)).status == 0
    return Auction(program, refusals, new, trial.check(whole, room).output)


def requests_of(auction: Auction, room: Path) -> range:
    """The numbers of the requests that a serving makes."""
    folder = room / "first"
    folder.mkdir()
    serving = Serving(auction, folder, 0)
    assert serving.serve() is End.SERVED
    return range(1, serving.requests + 1)


def ends_of(auction: Auction, room: Path, numbers: Sequence[int], lie: Lie = truth) -> tuple[Counter[End], list[str]]:
    """How many servings end in each way if one of these requests is refused, and the faults that were found."""

    def tries(number: int, folder: Path) -> End | str:
        try:
            return Serving(auction, folder, number, lie).serve()
        except AssertionError as fault:
            return f"request {number}: {fault}"

    found = each(room, numbers, tries)
    return Counter(end for end in found if isinstance(end, End)), [fault for fault in found if isinstance(fault, str)]


def test_served(auction: Auction, room: Path) -> None:
    ends, faults = ends_of(auction, room, requests_of(auction, room))
    assert faults == []
    assert all(ends[end] for end in (End.SERVED, End.BY_THE_OTHER, End.MEMORY, End.PLACE)), ends


@pytest.mark.parametrize("lie", [loses, doubles, drops], ids=["loses", "doubles", "drops"])
def test_lies_are_found(auction: Auction, room: Path, lie: Lie) -> None:
    """The last request is refused once all is served, so the lie alone is wrong."""
    _, faults = ends_of(auction, room, requests_of(auction, room)[-1:], lie)
    assert faults


def test_a_place_that_is_told_as_memory_is_found(auction: Auction, room: Path) -> None:
    ends, faults = ends_of(auction, room, requests_of(auction, room), place_as_memory)
    assert faults and not ends[End.PLACE]
