"""Auctions for the tests: definitions, lines that are accepted, and the two layouts of a file."""

from __future__ import annotations

import enum
import json
from collections.abc import Iterable, Iterator
from pathlib import Path

EXAMPLES = Path(__file__).resolve().parents[2] / "examples"
PAGE = 4096
# Pages before the journal: the head, nodes, bidders, and two slots of five pages.
FIRST_PAGES = 13


class Layout(enum.IntEnum):
    """The layouts of a journal, by their numbers. A frame is a page, or three cells, which are three eighths of a page."""

    PAGES = 1
    CELLS = 2

    @property
    def least_journal(self) -> int:
        """The fewest frames that a journal of this layout may have."""
        return 4 if self is Layout.PAGES else 16

    def pages(self, journal: int) -> int:
        """The pages of a whole file with so many frames."""
        return FIRST_PAGES + (journal if self is Layout.PAGES else journal * 3 // 8)


def definition(waivers: int = 0) -> bytes:
    """The definition of the first example, with its newline: nodes all, east, a, b, c, d; bidders x, y, z, w, with so many waivers each."""
    first = (EXAMPLES / "package-beats-parts.txt").read_bytes().split(b"\n")[0] + b"\n"
    return first.replace(b'"nodes"', b'"waivers":%d,"nodes"' % waivers, 1) if waivers else first


FIRST_ROUND = ("BID x 1 a 100", "BID y 1 b 150", "BID z 1 all 500", "BID w 1 c 100", "CLOSE 1")
# The nodes on which each bidder bids in later rounds: its units allow these.
NODES_OF = {"x": ("a",), "y": ("b",), "z": ("all", "east", "a", "b", "c"), "w": ("c", "d")}
LICENCES_OF = {"all": 3, "east": 2}


def amounts(count: int) -> Iterator[int]:
    """The price of a licence in each of `count` rounds. Each time it rises by a thousand dollars, and at least by a tenth."""
    amount = 0
    for _ in range(count):
        amount = max(amount + 1000, -(-amount * 11 // 100) * 10)
        yield amount


def rounds(count: int, waivers: int = 0) -> list[str]:
    """The ten commands of each of `count` rounds after the first one, all accepted in this order. At most 180 rounds. If bidders have
    waivers, each waives as often: one more command in each of the first rounds."""
    tickets = dict.fromkeys(NODES_OF, 1)
    lines = []
    for number, amount in enumerate(amounts(count), 1):
        for bidder, nodes in NODES_OF.items():
            for node in nodes:
                tickets[bidder] += 1
                lines.append(f"BID {bidder} {tickets[bidder]} {node} {amount * LICENCES_OF.get(node, 1)}")
        if number <= waivers * len(NODES_OF):
            bidder = list(NODES_OF)[number % len(NODES_OF)]
            tickets[bidder] += 1
            lines.append(f"WAIVE {bidder} {tickets[bidder]}")
        lines.append(f"CLOSE {number + 1}")
    return lines


def commands(count: int) -> list[str]:
    """The first `count` commands of an auction, all of which are accepted. At most 1,805."""
    return [*FIRST_ROUND, *rounds(-(-count // 10))][:count]


# The most that a definition may have.
MOST_NODES, MOST_LICENCES, MOST_BIDDERS, MOST_NAME = 127, 64, 64, 16
# The last node with nodes below it: up to this place, each node has two.
LAST_PACKAGE = 62


def long_name(letter: str, place: int) -> str:
    """A name of the greatest length."""
    return f"{letter}{place:0{MOST_NAME - 1}}"


def greatest_definition() -> bytes:
    """A definition with the most nodes, licences, bidders, stages and waivers, and with names of the greatest length."""
    nodes: list[dict[str, object]] = []
    for place in range(MOST_NODES):
        parent = long_name("n", (place - 1) // 2) if place else None
        licence = {"units": 1, "opening": 10} if place > LAST_PACKAGE else {}
        nodes.append({"name": long_name("n", place), "parent": parent, **licence})
    bidders = [{"name": long_name("b", place), "units": MOST_LICENCES} for place in range(MOST_BIDDERS)]
    fields = {"step": 10, "percent": 50, "waivers": 20, "stages": [50, 70, 90, 100], "nodes": nodes, "bidders": bidders}
    return json.dumps(fields).encode() + b"\n"


def greatest_lines() -> list[str]:
    """Commands of that auction, all of which are accepted: a bid of each bidder on a licence, one on the package of all, and a
    close; then questions.
    """
    bids = [f"BID {long_name('b', place)} 1 {long_name('n', LAST_PACKAGE + 1 + place)} 100" for place in range(MOST_BIDDERS)]
    lines = [*bids, f"BID {long_name('b', 0)} 2 {long_name('n', 0)} 10000", "CLOSE 1"]
    return [*lines, "SHOW", f"NODE {long_name('n', 0)}", f"WHO {long_name('b', 0)}"]


def text_of(lines: Iterable[str]) -> bytes:
    """Lines as a program reads them."""
    return "".join(f"{line}\n" for line in lines).encode()
