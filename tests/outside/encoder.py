"""A second encoder, apart from the program: the bytes of a file by docs/FORMATS.md and docs/DEVICE.md, and auctions by docs/RULES.md."""

from __future__ import annotations

import json
from collections.abc import Iterator, Sequence

from harness.auctions import PAGE, Layout, definition

RULES = json.loads(definition())
NODES: list[str] = [node["name"] for node in RULES["nodes"]]
BIDDERS: list[str] = [bidder["name"] for bidder in RULES["bidders"]]
OPEN, CLOSED = b"\xa5", b"\0"
MAGIC = b"HPBAUCT1"
# The formats of states. The first is that of files that an earlier program made, and has no waivers.
FIRST_FORMAT, WAIVERS_FORMAT = 1, 2
KINDS = {"BID": 1, "CLOSE": 2, "STAGE": 3, "WAIVE": 4}
NODES_AT, BIDDERS_AT = 48, 3096
HEAD_AT, HEAD_SIZE = 16, 3 * PAGE - 16
JOURNAL_AT, CELL = 13 * PAGE, 512
FRAME = {Layout.PAGES: PAGE, Layout.CELLS: 3 * CELL}
# How many records the first cell of a batch has, and each other one.
FIRST_RECORDS, RECORDS = 29, 31
# The gate of each slot. Its body is the four pages behind the page of the gate.
SLOTS = (3 * PAGE, 8 * PAGE)
CHUNKS = 4


def number(size: int, value: int) -> bytes:
    """A number in so many bytes, the greatest one first."""
    return value.to_bytes(size, "big")


def name(text: str) -> bytes:
    """A name in 16 bytes."""
    return text.encode().ljust(16, b"\0")


def head(layout: Layout, journal: int, waivers: int = 0, form: int = WAIVERS_FORMAT) -> bytes:
    """The bytes behind the head's gate: the first three pages from byte 16 on."""
    stages = bytes(RULES["stages"])
    counts = bytes([layout, form, len(NODES), len(BIDDERS), RULES["percent"], len(stages)])
    rest = bytes([waivers, 0]) + number(4, RULES["step"]) + number(4, journal)
    front = (bytes(HEAD_AT) + MAGIC + counts + stages.ljust(4, b"\0") + rest).ljust(PAGE, b"\0")
    nodes = b"".join(
        name(node["name"])
        + bytes([NODES.index(node["parent"]) if node["parent"] else 0xFF, "units" in node, 0, 0])
        + number(4, node.get("units", 0))
        + number(8, node.get("opening", 0))
        for node in RULES["nodes"]
    )
    bidders = b"".join(name(bidder["name"]) + number(4, bidder["units"]) + bytes(4) for bidder in RULES["bidders"])
    return (front + nodes.ljust(PAGE, b"\0") + bidders.ljust(PAGE, b"\0"))[HEAD_AT:]


class Image:
    """The bytes of a file that was just made, by this program or by an earlier one; then others are put in their places."""

    def __init__(self, layout: Layout, journal: int, waivers: int = 0, form: int = WAIVERS_FORMAT) -> None:
        self.layout, self.journal = layout, journal
        self.bytes = bytearray(layout.pages(journal) * PAGE)
        self.put(0, OPEN)
        self.put(HEAD_AT, head(layout, journal, waivers, form))
        self.put_state(0, Auction(waivers).state(0, form))

    def put(self, at: int, part: bytes) -> None:
        """Puts these bytes there."""
        self.bytes[at : at + len(part)] = part

    def put_state(self, slot: int, body: bytes) -> None:
        """Puts a state into a slot, 0 or 1, and opens its gate."""
        self.put(SLOTS[slot], OPEN)
        self.put(SLOTS[slot] + PAGE, body)

    def frame(self, index: int) -> int:
        """The place of the frame of a batch."""
        return frame_at(self.layout, self.journal, index)

    def put_batch(self, index: int, first: int, lines: Sequence[str]) -> int:
        """Puts a batch into its frame, whose first command has this number, and gives the length of its body."""
        body = body_of(self.layout, index, first, [record(line) for line in lines])
        self.put(self.frame(index), OPEN)
        self.put(self.frame(index) + 16, body)
        return len(body)


def frame_at(layout: Layout, journal: int, index: int) -> int:
    """The place of the frame of a batch."""
    return JOURNAL_AT + FRAME[layout] * (index % journal)


def sender_of(line: str) -> str:
    """The bidder of a bid or a waiver; none of a command of the auctioneer."""
    kind, first, *_ = line.split()
    return first if kind in ("BID", "WAIVE") else ""


def record(line: str) -> bytes:
    """A command in 16 bytes."""
    kind, *words = line.split()
    bidder = BIDDERS.index(words.pop(0)) if sender_of(line) else 0
    ticket, node, amount = words if kind == "BID" else (words[0], NODES[0], "0")
    return bytes([KINDS[kind], bidder, NODES.index(node), 0]) + number(4, int(ticket)) + number(8, int(amount))


def body_of(layout: Layout, index: int, first: int, records: Sequence[bytes]) -> bytes:
    """The body of a batch: a page, or as many cells as it needs."""
    fields = number(8, index) + number(8, first) + number(2, len(records)) + bytes(6)
    if layout is Layout.PAGES:
        return (fields + b"".join(records)).ljust(PAGE - 16, b"\0")
    body = (fields + b"".join(records[:FIRST_RECORDS])).ljust(CELL - 16, b"\0")
    for cell, place in enumerate(range(FIRST_RECORDS, len(records), RECORDS), 1):
        body += (number(8, index) + bytes([cell]) + bytes(7) + b"".join(records[place : place + RECORDS])).ljust(CELL, b"\0")
    return body


def children_of(node: str | None) -> list[str]:
    """Those of a package in their order, and the top nodes of none."""
    return [place["name"] for place in RULES["nodes"] if place["parent"] == node]


def licences_of(node: str) -> dict[str, int]:
    """The licences at or under a node, with their units."""
    found: dict[str, int] = {place["name"]: place["units"] for place in RULES["nodes"] if place["name"] == node and "units" in place}
    for child in children_of(node):
        found.update(licences_of(child))
    return found


class Auction:
    """An auction whose bidders have so many waivers. It takes commands, each of which has to be one that is accepted."""

    def __init__(self, waivers: int = 0) -> None:
        self.count, self.round, self.stage, self.is_over = 0, 1, 1, False
        # The high bid of a node, and the highest of the open round, each with its bidder.
        self.high: dict[str, tuple[int, str]] = {}
        self.offered: dict[str, tuple[int, str]] = {}
        self.last = dict.fromkeys(["", *BIDDERS], bytes(24))
        self.eligible: dict[str, int] = {bidder["name"]: bidder["units"] for bidder in RULES["bidders"]}
        self.nodes_of: dict[str, set[str]] = {bidder: set() for bidder in BIDDERS}
        self.waivers, self.left = waivers, dict.fromkeys(BIDDERS, waivers)
        self.waived: set[str] = set()
        # How many waivers closes took.
        self.taken = 0

    def take(self, line: str) -> None:
        """Takes a command."""
        self.count += 1
        kind, *words = line.split()
        sender = sender_of(line)
        ticket, *words = words[1:] if sender else words
        self.last[sender] = number(4, int(ticket)) + number(4, self.count) + record(line)
        if kind == "BID":
            self._bid(sender, words[0], int(words[1]))
        elif kind == "WAIVE":
            self.left[sender] -= 1
            self.waived.add(sender)
        elif kind == "STAGE":
            self.stage += 1
        else:
            self._close()

    def _bid(self, bidder: str, node: str, amount: int) -> None:
        self.nodes_of[bidder].add(node)
        if node not in self.offered or amount > self.offered[node][0]:
            self.offered[node] = amount, bidder

    def _close(self) -> None:
        """The bids of the open round are above those before. A round that has neither a bid nor a waiver is the last."""
        self.is_over = not self.offered and not self.waived
        for bidder, active in {bidder: self.active(bidder) for bidder in BIDDERS}.items():
            self._settle(bidder, active)
        self.high.update(self.offered)
        self.offered, self.waived, self.nodes_of = {}, set(), {bidder: set() for bidder in BIDDERS}
        self.round += not self.is_over

    def _settle(self, bidder: str, active: int) -> None:
        """One that waived keeps its eligibility, and so does one that is short and has a waiver left, which the close takes."""
        wanted = RULES["stages"][self.stage - 1] * self.eligible[bidder]
        if bidder in self.waived or active * 100 >= wanted:
            return
        if self.left[bidder]:
            self.left[bidder], self.taken = self.left[bidder] - 1, self.taken + 1
        else:
            self.eligible[bidder] = active * 100 // RULES["stages"][self.stage - 1]

    def active(self, bidder: str) -> int:
        """The units of the licences at or under the nodes that it bid on in the open round, or that it won."""
        nodes = {*self.nodes_of[bidder], *(node for node, winner in self.winners() if winner == bidder)}
        return sum({name: units for node in nodes for name, units in licences_of(node).items()}.values())

    def winners(self, above: str | None = None) -> Iterator[tuple[str, str]]:
        """The nodes that win, with their bidders. A package has to bring more than its parts."""
        for node in children_of(above):
            amount, bidder = self.high.get(node, (0, ""))
            if amount > self._inside(node):
                yield node, bidder
            else:
                yield from self.winners(node)

    def _inside(self, node: str) -> int:
        return sum(max(self.high.get(child, (0,))[0], self._inside(child)) for child in children_of(node))

    def state(self, batches: int, form: int = WAIVERS_FORMAT) -> bytes:
        """The body of a slot that covers so many batches."""
        fields = bytes([form, self.stage, self.is_over, 0]) + number(4, self.round) + number(4, self.count) + bytes(4)
        nodes = b"".join(self._node_entry(node) for node in NODES)
        bidders = b"".join(self._bidder_entry(bidder, form) for bidder in BIDDERS)
        front = (fields + number(8, batches) + self.last[""]).ljust(NODES_AT, b"\0") + nodes
        return (front.ljust(BIDDERS_AT, b"\0") + bidders).ljust(CHUNKS * PAGE, b"\0")

    def _node_entry(self, node: str) -> bytes:
        (high, winner), (offered, bidder) = (bids.get(node, (0, BIDDERS[0])) for bids in (self.high, self.offered))
        return number(8, high) + number(8, offered) + bytes([BIDDERS.index(winner), BIDDERS.index(bidder)]) + bytes(6)

    def _bidder_entry(self, bidder: str, form: int) -> bytes:
        last, bits = self.last[bidder], sum(1 << NODES.index(node) for node in self.nodes_of[bidder])
        kept = bytes(4) if form == FIRST_FORMAT else bytes([self.left[bidder], bidder in self.waived, 0, 0])
        return number(4, self.eligible[bidder]) + last[:8] + kept + last[8:] + number(16, bits)
