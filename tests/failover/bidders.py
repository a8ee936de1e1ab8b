"""Bidders that keep each answer, and go to another machine if theirs doesn't answer."""

from __future__ import annotations

import json
import random
import socket
import threading
import time
from collections.abc import Iterator, Sequence
from contextlib import suppress
from dataclasses import dataclass, field
from typing import Protocol

from failover.ledger import Era, Ledger, Wrong
from harness.namespaces import Network

# So many nodes in seven levels, of which the second half are licences.
NODES, BIDDERS = 127, 32
PRICE = 1_000
# An answer of a server that accepts nothing more.
FAILED = ("ERR 91", "ERR 93", "ERR 95", "ERR 96")


def definition() -> str:
    """An auction in which each of 32 bidders may bid on each of 127 nodes in the first round, in any order: 4,064 bids."""
    first = NODES // 2
    nodes = [
        {"name": f"n{node}", "parent": f"n{(node - 1) // 2}" if node else None} | ({"units": 1, "opening": 100} if node >= first else {})
        for node in range(NODES)
    ]
    bidders = [{"name": f"b{number}", "units": NODES - first} for number in range(BIDDERS)]
    return json.dumps({"step": 1, "percent": 1, "stages": [50], "nodes": nodes, "bidders": bidders}, separators=(",", ":"))


def amount(node: int) -> int:
    """The price of a node: each licence costs the same."""
    licences = (NODES + 1) // 2
    while node:
        node, licences = (node - 1) // 2, licences // 2
    return PRICE * licences


def bids(bidders: Sequence[int], dice: random.Random) -> Iterator[str]:
    """All bids of these bidders, in an order by chance."""
    pairs = [(bidder, node) for bidder in bidders for node in range(NODES)]
    dice.shuffle(pairs)
    tickets = dict.fromkeys(bidders, 0)
    for bidder, node in pairs:
        tickets[bidder] += 1
        yield f"BID b{bidder} {tickets[bidder]} n{node} {amount(node)}"


@dataclass(frozen=True)
class Door:
    """How a server is reached: the machine whose network the connection is made in, the address, and the first lines to send."""

    network: Network
    era: Era
    address: tuple[str, int]
    greeting: str = ""


class House(Protocol):
    """The servers of an auction."""

    def door(self, number: int, name: str) -> Door | None:
        """The door of a machine's server for a name; None if it has none now."""

    def fails(self, era: Era) -> None:
        """A server said that it accepts nothing more."""


@dataclass
class Bidder:
    """One line outstanding at a time. `patience` is how many seconds it waits for an answer before it tries another machine."""

    name: str
    lines: Iterator[str]
    house: House
    ledger: Ledger
    patience: float
    places: Sequence[int]
    stops: threading.Event = field(default_factory=threading.Event)
    pauses: threading.Event = field(default_factory=threading.Event)
    line: str = ""
    connection: socket.socket | None = None
    era: Era | None = None
    received: bytes = b""
    turn: int = 0

    def run(self) -> None:
        """Bids until it is stopped, and then until its last line is answered."""
        while self.line or not self.stops.is_set():
            if not self.line:
                if self.pauses.is_set() or not (line := next(self.lines, "")):
                    self.stops.wait(0.05)
                    continue
                self.line = line
            try:
                self.step()
            except (OSError, EOFError):
                self.leave()
        self.leave()

    def step(self) -> None:
        """Sends its line, and takes the answer."""
        if not self.connection:
            self.connect()
        assert self.connection and self.era
        self.connection.sendall(f"{self.line}\n".encode())
        answer = self.read()
        if answer.startswith("OK "):
            self.ledger.take(self.era, self.line, int(answer[3:]))
            self.line = ""
        elif answer.startswith(FAILED):
            self.house.fails(self.era)
            raise EOFError(answer)
        elif not answer.startswith(("ERR 74", "ERR 75", "ERR 76", "WAIT")):
            raise Wrong(f"{self.line!r} was answered {answer!r}")

    def connect(self) -> None:
        """Connects to the next machine that has a server."""
        self.turn += 1
        number = self.places[self.turn % len(self.places)]
        door = self.house.door(number, self.name)
        if door is None:
            time.sleep(0.05)
            raise EOFError
        try:
            with door.network.inside():
                self.connection = socket.create_connection(door.address, timeout=self.patience)
        finally:
            door.network.close()
        self.connection.setsockopt(socket.IPPROTO_TCP, socket.TCP_NODELAY, 1)
        self.era = door.era
        if door.greeting:
            self.connection.sendall(door.greeting.encode())
            greeted = self.read()
            if not greeted.startswith("WELCOME"):
                raise EOFError(greeted)

    def read(self) -> str:
        assert self.connection
        while b"\n" not in self.received:
            part = self.connection.recv(65_536)
            if not part:
                raise EOFError
            self.received += part
        line, _, self.received = self.received.partition(b"\n")
        return line.decode()

    def leave(self) -> None:
        """Ends its connection. Its line waits for another one."""
        if self.connection:
            with suppress(OSError):
                self.connection.close()
        self.connection, self.era, self.received = None, None, b""
