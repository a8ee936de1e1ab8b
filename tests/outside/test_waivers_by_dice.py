"""What closes leave of eligibility and waivers, and which waivers are refused: auctions by dice, worked out apart from the program."""

from __future__ import annotations

import pytest

from harness.programs import Program
from outside.lies import Liar
from outside.waivers import Asked

AUCTIONS = 100
# All of these have to come.
ANSWERS = {"ERR 20 closed", "ERR 25 eligibility", "ERR 27 stage", "ERR 28 waiver", "ERR 29 waived"}


def test_auctions_by_dice(program: Program) -> None:
    answers: set[str] = set()
    taken, longest = 0, 0
    for number in range(AUCTIONS):
        with Asked(program, f"waivers {number}") as asked:
            answers.update(asked.answers())
            taken, longest = taken + asked.known.taken, max(longest, asked.known.round)
    assert answers >= ANSWERS
    assert taken > AUCTIONS and longest > 5


def test_answers_that_come_at_the_end_are_seen(liar: Liar) -> None:
    with pytest.raises(AssertionError), Asked(liar("late"), "waivers 0") as asked:
        list(asked.answers())


def test_waivers_that_differ_are_seen(program: Program) -> None:
    """An auction that is known to have one waiver more than the program has."""
    with pytest.raises(AssertionError), Asked(program, "waivers 0") as asked:
        asked.known.left = {bidder: left + 1 for bidder, left in asked.known.left.items()}
        list(asked.answers())
