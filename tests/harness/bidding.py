"""Bidders who bid at the same time, each in its own name, and the answers that they got."""

from __future__ import annotations

import json
import threading
from collections.abc import Callable, Sequence
from dataclasses import dataclass, field
from typing import Protocol

LICENCES = 64
JOIN_SECONDS = 60


def bidders_definition(bidders: int) -> bytes:
    """A definition with bidders b0, b1, .. and 64 licences l0, l1, ... Each bidder may bid 100 dollars on each licence at any time."""
    fields = {
        "step": 10,
        "percent": 10,
        "stages": [80],
        "nodes": [{"name": f"l{place}", "parent": None, "units": 1, "opening": 100} for place in range(LICENCES)],
        "bidders": [{"name": f"b{place}", "units": LICENCES} for place in range(bidders)],
    }
    return json.dumps(fields, separators=(",", ":")).encode() + b"\n"


class Connection(Protocol):
    """The part of a client that bidders need."""

    def send(self, data: bytes) -> None:
        """Sends these bytes."""

    def line(self) -> str:
        """The next answer."""


@dataclass
class Bidder:
    """A bidder: how much it has sent and, by its ticket from 1 to 64, the number of each bid that was answered OK."""

    place: int
    sent: int = 0
    numbers: dict[int, int] = field(default_factory=dict)
    # Its answers that aren't OK, and the reason if it got none.
    refused: list[str] = field(default_factory=list)

    @property
    def name(self) -> str:
        """Its name in the definition."""
        return f"b{self.place}"

    @property
    def ticket(self) -> int:
        """The ticket of its last bid that was answered OK, or 0."""
        return max(self.numbers, default=0)

    def bid(self, ticket: int) -> str:
        """Its bid with this ticket. Each ticket goes to the next licence."""
        return f"BID {self.name} {ticket} l{ticket - 1} 100"

    def attend(self, connection: Connection, bids: int, ahead: int = 1) -> None:
        """Sends `bids` bids after the last accepted one, up to `ahead` at once without an answer. Stops at the first one that isn't
        answered OK.
        """
        self.refused.clear()
        first = self.ticket + 1
        last = min(first + bids, LICENCES + 1) - 1
        self.sent = self.ticket
        try:
            for ticket in range(first, last + 1):
                self._send_up_to(connection, min(last, ticket + ahead - 1))
                answer = connection.line()
                if not answer.startswith("OK "):
                    self.refused.append(answer)
                    return
                self.numbers[ticket] = int(answer.removeprefix("OK "))
        except OSError as fault:
            self.refused.append(repr(fault))

    def _send_up_to(self, connection: Connection, ticket: int) -> None:
        while self.sent < ticket:
            self.sent += 1
            connection.send(f"{self.bid(self.sent)}\n".encode())


def attend_all(pairs: Sequence[tuple[Bidder, Connection]], bids: int, ahead: int, meanwhile: Callable[[], None]) -> None:
    """Lets each bidder bid over its connection in a thread of its own, while this thread does something else."""
    threads = [threading.Thread(target=bidder.attend, args=(connection, bids, ahead)) for bidder, connection in pairs]
    for thread in threads:
        thread.start()
    meanwhile()
    for thread in threads:
        thread.join(JOIN_SECONDS)
        assert not thread.is_alive(), "a bidder has no answer"
