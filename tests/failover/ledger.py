"""The answers that bidders keep, and the servers that gave them: what they say together must be true of one auction."""

from __future__ import annotations

import threading
import time
from dataclasses import dataclass, field


class Wrong(Exception):
    """Something that no volume that keeps its promises lets happen. The text names it."""


@dataclass
class Era:
    """A server from its start to its end: its machine, when it began, and how many commands it had then. Times are those of `time.monotonic`."""

    machine: int
    began: float
    count: int


@dataclass
class Ledger:
    """The accepted commands by the answers alone. All calls may come from several threads."""

    line: dict[int, str] = field(default_factory=dict)
    number: dict[str, int] = field(default_factory=dict)
    eras: list[Era] = field(default_factory=list)
    faults: list[str] = field(default_factory=list)
    # When answers came, by the machine of the server, and when none could be had.
    answers: list[tuple[float, int]] = field(default_factory=list)
    lock: threading.Lock = field(default_factory=threading.Lock)

    def begin(self, era: Era) -> None:
        """A server has begun. No command that was acknowledged may be missing in it."""
        with self.lock:
            greatest = max(self.line, default=0)
            if era.count < greatest:
                self.faults.append(f"lost: machine {era.machine} began with {era.count} commands, and {greatest} had an OK")
            self.eras.append(era)

    def take(self, era: Era, line: str, number: int) -> None:
        """A command was answered by OK."""
        with self.lock:
            self.answers.append((time.monotonic(), era.machine))
            known, other = self.number.setdefault(line, number), self.line.setdefault(number, line)
            if known != number:
                self.faults.append(f"twice: {line!r} was answered OK {known}, and OK {number}")
            if other != line:
                self.faults.append(f"lost: {other!r} and {line!r} were both answered OK {number}")
            later = [one for one in self.eras[self.eras.index(era) + 1 :] if number > one.count]
            if later:
                self.faults.append(f"two writers: machine {era.machine} answered OK {number}, and machine {later[0].machine} had begun with {later[0].count}")

    def history(self, count: int) -> list[str]:
        """The lines of all accepted commands in order. `count` is that of the file at the end; the last line of each bidder is settled by then."""
        with self.lock:
            if count != len(self.line) or set(self.line) != set(range(1, count + 1)):
                self.faults.append(f"lost: the file has {count} commands, and the answers speak of {len(self.line)}, up to {max(self.line, default=0)}")
            return [self.line[number] for number in sorted(self.line)]

    def first_after(self, moment: float, but: int = 0) -> float | None:
        """How many seconds after a moment the first OK of another machine than this came; None if none came."""
        times = [when for when, machine in self.answers if when > moment and machine != but]
        return min(times) - moment if times else None

    def between(self, begin: float, end: float) -> int:
        """How many OKs came between two moments."""
        return sum(begin < when < end for when, _ in self.answers)
