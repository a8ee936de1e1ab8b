"""The bytes of a file while runs go on, worked out from docs/FORMATS.md apart from the program."""

from __future__ import annotations

from collections.abc import Sequence

from harness.auctions import PAGE
from outside.encoder import OPEN, SLOTS, Auction, Image

CLOSED = b"\0"
QUESTIONS = ("SHOW", "NODE", "WHO")


class Kept:
    """A file that keeps an auction: its bytes, and what a run knows of them. At first its journal has these batches, and no run goes on."""

    def __init__(self, image: Image, waivers: int = 0, batches: Sequence[Sequence[str]] = ()) -> None:
        self.image, self.auction = image, Auction(waivers)
        # The state after each number of batches.
        self.states = {0: self.auction.state(0)}
        for count, lines in enumerate(batches, 1):
            self._take(lines, count)
        # The slot of the newer checkpoint, and how many batches it covers.
        self.newest, self.covered = 0, 0
        # The number of the next batch. The frames of batches from the first unclean one to the last that is covered aren't clean.
        self.next, self.first_unclean, self.since_due = 0, 0, 0

    def _take(self, lines: Sequence[str], count: int) -> None:
        for line in lines:
            self.auction.take(line)
        self.states[count] = self.auction.state(count)

    def _is_open(self, gate: int) -> bool:
        return self.image.bytes[gate : gate + 1] == OPEN

    def _number_at(self, at: int) -> int:
        return int.from_bytes(self.image.bytes[at : at + 8], "big")

    def _close(self, gate: int) -> None:
        if self._is_open(gate):
            self.image.put(gate, CLOSED)

    def run(self, lines: Sequence[str], answers: Sequence[str], batch: int, every: int) -> None:
        """A run of these lines, which are there at once, with their answers. A question ends a batch."""
        self._open()
        self.since_due = 0
        queue: list[tuple[str, str]] = []
        for line, answer in zip(lines, answers):
            if not line.startswith(QUESTIONS):
                queue.append((line, answer))
            if line.startswith(QUESTIONS) or len(queue) == batch:
                self._answer(queue, every)
        self._answer(queue, every)
        self._make_due(every)

    def _open(self) -> None:
        journal = self.image.journal
        covers = [self._number_at(slot + PAGE + 16) if self._is_open(slot) else -1 for slot in SLOTS]
        self.newest = covers.index(max(covers))
        self.covered = self.next = covers[self.newest]
        while self.next < self.covered + journal and self._has_batch(self.next):
            self.next += 1
        clean = 0
        while self.next + clean < self.covered + journal and not self._is_open(self.image.frame(self.next + clean)):
            clean += 1
        self.first_unclean = self.next + clean - journal

    def _has_batch(self, index: int) -> bool:
        frame = self.image.frame(index)
        return self._is_open(frame) and self._number_at(frame + 16) == index

    def _answer(self, queue: list[tuple[str, str]], every: int) -> None:
        """A batch: the new commands of it are made durable. A full journal takes a checkpoint before."""
        if not queue:
            return
        self._make_due(every)
        new = [line for line, answer in queue if answer.startswith("OK ")]
        if new:
            if self.first_unclean + self.image.journal == self.next:
                self._checkpoint()
            self.image.put_batch(self.next, self.auction.count + 1, new)
            self.next += 1
            self.since_due += 1
            self._take(new, self.next)
        queue.clear()

    def _make_due(self, every: int) -> None:
        """A checkpoint after each so many batches, whether or not a full journal took one."""
        if every and self.since_due >= every:
            self._checkpoint()
            self.since_due = 0

    def _checkpoint(self) -> None:
        """One that covers all batches. Then the frames that were covered before are clean."""
        if self.next > self.covered:
            other = 1 - self.newest
            self.image.put_state(other, self.states[self.next])
            self.newest, self.covered = other, self.next
        for index in range(self.first_unclean, self.covered):
            self._close(self.image.frame(index))
        self.first_unclean = self.covered
