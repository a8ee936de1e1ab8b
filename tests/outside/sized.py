"""Auctions of any size, of which all is known by hand: in each round every bidder bids on every node, as much for each licence.

The bids of a round are the least ones on the licences, and the sum of these on a package: so the parts win. The first bidder has each high
bid, and nobody's activity is ever short.
"""

from __future__ import annotations

import itertools
import json
from collections.abc import Iterator, Sequence
from dataclasses import dataclass

LETTERS = "abcdefghijklmnopqrstuvwxyz0123456789_"
LEVELS = 8

# The place of its parent for each node.
Tree = list[int | None]


def flat(count: int) -> Tree:
    """So many licences and no package."""
    return [None] * count


def package(count: int) -> Tree:
    """A package of all the other nodes."""
    return [None, *[0] * (count - 1)]


def halves(count: int) -> Tree:
    """Packages of two nodes each; if the number is even, one licence is beside them."""
    odd = count - 1 + count % 2
    return [(place - 1) // 2 if place else None for place in range(odd)] + flat(count - odd)


def deep(count: int) -> Tree:
    """Packages on all levels but the last, each in the one before it and with a licence besides; all other licences are in the last."""
    last = LEVELS - 2
    return [None, *range(last), *range(last), *[last] * (count - 2 * last - 1)]


def name(place: int, letters: int) -> str:
    """One of so many letters, or with fewer if that is enough; names differ in their last two."""
    first, last = divmod(place, len(LETTERS))
    return ((LETTERS[first] if first else "") + LETTERS[last]).rjust(letters, LETTERS[0])


def up_to(step: int, number: int) -> int:
    """The least multiple of a step that isn't less than a number."""
    return -(-number // step) * step


@dataclass(frozen=True)
class Terms:
    """The numbers of a definition."""

    letters: int = 0
    step: int = 1
    percent: int = 1
    opening: int = 100
    units: int = 1
    stages: Sequence[int] = (50,)
    waivers: int = 0


class Sized:
    """An auction of this tree, with so many bidders."""

    def __init__(self, tree: Tree, bidders: int, terms: Terms = Terms()) -> None:
        self.tree, self.terms = tree, terms
        self.nodes, self.bidders = ([name(place, terms.letters) for place in range(count)] for count in (len(tree), bidders))
        # How many licences lie at or under each node, and in all.
        self.licences = [0] * len(tree)
        for place, parent in reversed(list(enumerate(tree))):
            self.licences[place] = self.licences[place] or 1
            if parent is not None:
                self.licences[parent] += self.licences[place]
        self.all = self.licences.count(1)
        # How many commands a round has.
        self.round = len(tree) * bidders + 1
        self._amounts, self._made, self._more = [terms.opening], list[str](), self._commands()

    def definition(self) -> bytes:
        """Its definition, with its newline."""
        terms = self.terms
        nodes: list[dict[str, object]] = []
        for node, parent, licences in zip(self.nodes, self.tree, self.licences):
            of_licence = {"units": terms.units, "opening": terms.opening} if licences == 1 else {}
            nodes.append({"name": node, "parent": None if parent is None else self.nodes[parent], **of_licence})
        bidders = [{"name": bidder, "units": terms.units * self.all} for bidder in self.bidders]
        rules = {"step": terms.step, "percent": terms.percent, "stages": terms.stages, "waivers": terms.waivers}
        return json.dumps({**rules, "nodes": nodes, "bidders": bidders}, separators=(",", ":")).encode() + b"\n"

    def _amount(self, number: int) -> int:
        """The bid for a licence in this round."""
        while len(self._amounts) < number:
            self._amounts.append(self._minimum(self._amounts[-1], 1))
        return self._amounts[number - 1]

    def _minimum(self, price: int, licences: int) -> int:
        increment = up_to(100, price * self.terms.percent) // 100
        return max(self.terms.opening * licences, up_to(self.terms.step, price + increment))

    def _commands(self) -> Iterator[str]:
        """All, without end. Each is accepted as long as no bid is too high."""
        for number in itertools.count(1):
            amount = self._amount(number)
            for place, (node, licences) in enumerate(zip(self.nodes, self.licences), 1):
                ticket = (number - 1) * len(self.nodes) + place
                yield from (f"BID {bidder} {ticket} {node} {amount * licences}" for bidder in self.bidders)
            yield f"CLOSE {number}"

    def lines(self, first: int, end: int) -> list[str]:
        """The commands from this place on and up to that one; the first of all is 0."""
        self._made += itertools.islice(self._more, max(0, end - len(self._made)))
        return self._made[first:end]

    def shown(self, count: int) -> str:
        """The lines of `check` after so many commands."""
        closed = count // self.round
        amount = self._amount(closed) if closed else 0
        lines = [f"ROUND {closed + 1} STAGE 1 OPEN REVENUE {amount * self.all} COUNT {count}"]
        for node, licences in zip(self.nodes, self.licences):
            high, least = amount * licences, self._minimum(amount * licences, licences)
            wins = "yes" if closed and licences == 1 else "no"
            lines.append(f"NODE {node} HIGH {high} {self.bidders[0] if closed else '-'} PRICE {high} MIN {least} WIN {wins}")
        return "".join(f"{line}\n" for line in lines)


def numbers(first: int, end: int) -> str:
    """The answers to commands from this place on and up to that one."""
    return "".join(f"OK {number}\n" for number in range(first + 1, end + 1))
