"""Bidders who bid at the same time, and go on as PROTOCOL says once a bid is answered by 93."""

from __future__ import annotations

import threading
import time
from collections.abc import Callable, Sequence
from concurrent.futures import ThreadPoolExecutor
from dataclasses import dataclass, field

from harness.bidding import LICENCES, Bidder
from harness.serving import Client

FAILED = "ERR 93 failed"
# How many seconds the last session stays open after a 93. People are informed of a failed disk only while a session is open.
STAYS = 0.05


class Crowd:
    """Those who bid at the same time. After so many answers to all of them, something is done."""

    def __init__(self, size: int, after: int = 0, action: Callable[[], None] = lambda: None) -> None:
        self._going, self._after, self._action = size, after, action
        self._answers, self._lock = 0, threading.Lock()

    def hears(self) -> None:
        """One of them was answered."""
        with self._lock:
            self._answers += 1
            is_due = self._answers == self._after
        if is_due:
            self._action()

    def is_last(self) -> bool:
        """Whether the one who ends now is the last of them."""
        with self._lock:
            self._going -= 1
            return self._going == 0


@dataclass(kw_only=True)
class FacedBidder(Bidder):
    """A bidder with a connection, and how many bids it makes at most. After the first answer 93 it asks for the auction, bids once more,
    and ends.
    """

    client: Client
    bids: int = LICENCES
    # The tickets of the bids that were answered by 93, the number of commands that was shown then, and the faults.
    failed: list[int] = field(default_factory=list)
    counts: list[int] = field(default_factory=list)
    wrong: list[str] = field(default_factory=list)

    def face(self, crowd: Crowd) -> None:
        """Bids to the end."""
        self._crowd = crowd
        try:
            self.attend(self, self.bids)
            if self.refused == [FAILED]:
                self._goes_on(self.ticket + 1)
            elif self.refused:
                self.wrong += self.refused
            if crowd.is_last() and self.failed:
                time.sleep(STAYS)
            self.wrong += self.client.finish()
        except OSError as fault:
            self.wrong.append(repr(fault))

    def _goes_on(self, ticket: int) -> None:
        self.failed.append(ticket)
        word, *_, count = self._ask("SHOW").split(" ")
        if word == "ROUND":
            self.counts.append(int(count))
        else:
            self.wrong.append(f"SHOW was answered {word} {count}")
        if ticket < self.bids:
            answer = self._ask(self.bid(ticket + 1))
            if answer == FAILED:
                self.failed.append(ticket + 1)
            else:
                self.wrong.append(f"{self.bid(ticket + 1)} was answered {answer}")

    def _ask(self, line: str) -> str:
        self.send(f"{line}\n".encode())
        return self.line()

    def send(self, data: bytes) -> None:
        """Sends these bytes."""
        self.client.send(data)

    def line(self) -> str:
        """The next answer."""
        answer = self.client.line()
        self._crowd.hears()
        return answer

    def lines(self) -> list[str]:
        """The bids that were accepted, and then those that were answered by 93."""
        return [self.bid(ticket) for ticket in (*self.numbers, *self.failed)]


def attend(bidders: Sequence[FacedBidder], after: int = 0, action: Callable[[], None] = lambda: None) -> None:
    """Lets them bid to the end, each in a thread of its own. After so many answers the action is called."""
    crowd = Crowd(len(bidders), after, action)
    with ThreadPoolExecutor(len(bidders)) as pool:
        list(pool.map(FacedBidder.face, bidders, [crowd] * len(bidders)))


def wrong_of(bidders: Sequence[FacedBidder]) -> list[str]:
    """All faults of their answers."""
    return [f"{bidder.name}: {fault}" for bidder in bidders for fault in bidder.wrong]
