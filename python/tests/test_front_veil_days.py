"""Days of a front that limits what names may know: whatever fails, each line is answered, `COUNT` is that of the last close, and a pseudonym
stays the same."""
from __future__ import annotations

import re

import pytest

from front_days import NODES, Caller, Day
from front_promises import Promises, told_form
from front_world import ROLES, Wire, World
from hpb.front.core.information import Identities, Information, Rule, Veil

FAULTS = ["", "kills", "losses", "kills losses reloads vanishing", "kills losses disks reloads jumps stops vanishing"]
SEEDS, MORE_SEEDS = 4, 100
RULES = Information(Rule(Identities.OWN, False, False))
SHOWN = re.compile(rb"ROUND ([0-9]+) STAGE . (OPEN|CLOSED) REVENUE ([0-9]+) COUNT ([0-9]+)")
NODE = re.compile(rb"(NODE [a-z]+ HIGH [0-9]+ )(\S+)( PRICE .*)")


class Asker(Caller):
    """A client that mostly asks."""

    def next(self) -> bytes:
        questions = [b"SHOW", *(b"NODE " + node.encode() for node in NODES)]
        return self.world.source.choice(questions) if self.world.source.random() < 0.6 else super().next()


class Limited(Promises):
    """Checks all promises of a front. Answers to SHOW and NODE are compared with the file and with the server's own."""

    def __init__(self) -> None:
        super().__init__()
        # For each name and bidder, its pseudonym. How many answers were looked at that hide something.
        self.known: dict[tuple[str, str], str] = {}
        self.hidden = 0

    def look_at_wanted(self, world: World, wire: Wire, asked: bytes, line: bytes) -> None:
        if wire.name == "desk" or not line.startswith((b"ROUND ", b"NODE ")):
            super().look_at_wanted(world, wire, asked, line)
        elif found := SHOWN.fullmatch(line):
            self.look_at_count(world, int(found[1]) - (found[2] == b"OPEN"), int(found[4]), int(found[3]))
        else:
            self.look_at_name(wire.name, line, self.given[told_form(asked)])

    def look_at_count(self, world: World, closes: int, count: int, revenue: int) -> None:
        file = (world.mislaid or world.server).file
        at_closes = [0, *(number for number, line in enumerate(file, 1) if line.startswith("CLOSE "))]
        assert (count, revenue) == (at_closes[closes], 0), (closes, count, at_closes)
        self.hidden += count != len(file)

    def look_at_name(self, name: str, line: bytes, given: set[bytes]) -> None:
        """Of the answers that the server gave, one has the same values. Bids of one amount have one bidder in this world, or more."""
        found = NODE.fullmatch(line)
        assert found
        bidders = {real[2].decode() for one in given if (real := NODE.fullmatch(one)) and (real[1], real[3]) == (found[1], found[3])}
        shown = found[2].decode()
        assert bidders, line
        if shown == "-" or shown in ROLES[name].bidders:
            assert shown in bidders, (line, bidders)
            return
        assert shown.startswith("other"), line
        if len(bidders) == 1:
            self.hidden += 1
            bidder = bidders.pop()
            assert self.known.setdefault((name, bidder), shown) == shown, (name, bidder, shown)
            assert [other for (whose, other), known in self.known.items() if whose == name and known == shown] == [bidder]


def day_of(seed: int, faults: str) -> Limited:
    day = Day(seed, frozenset(faults.split()))
    day.world.information = RULES
    day.world.watch = day.promises = watch = Limited()
    day.callers = [Asker(day.world, name, left=40) for name in ("desk", "ann", "bob", "bob", "carl", "public")]
    day.run()
    return watch


@pytest.mark.parametrize("faults", FAULTS)
def test_each_answer_is_as_the_rules_say_on_days_with_these_faults(faults: str) -> None:
    assert sum(day_of(seed, faults).hidden for seed in range(SEEDS)) > 5 * SEEDS


@pytest.mark.slow
@pytest.mark.parametrize("faults", FAULTS)
def test_each_answer_is_as_the_rules_say_on_many_days(faults: str) -> None:
    for seed in range(SEEDS, SEEDS + MORE_SEEDS):
        day_of(seed, faults)


def test_a_count_of_now_is_caught(monkeypatch: pytest.MonkeyPatch) -> None:
    """SHOW has another count than that of the last close."""
    monkeypatch.setattr(Veil, "count_after", lambda self, closes: self.counts[-1] + 1)
    with pytest.raises(AssertionError):
        day_of(0, "")
