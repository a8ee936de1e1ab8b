"""A server in memory for the core: an auction by the package's rules, and connections whose lines are judged when a test says so.

Lines written to a connection stay there when the client leaves it, and may be judged at any later time. So a server does that
doesn't notice that its client has gone.
"""
from collections import deque
from dataclasses import dataclass, field

from hpb.client.core import Core, Done, Drop, Send
from hpb.lines import QUESTIONS, Accepted, Answer, Line, format_answer, numbered, parse_line
from hpb.refusals import HpbError
from hpb.rules import Auction, answer


@dataclass
class Wire:
    """A connection: its lines that aren't judged yet, and its answers that aren't read yet."""

    lines: deque[str] = field(default_factory=deque)
    answers: deque[str] = field(default_factory=deque)


@dataclass
class World:
    """A client's core, its present connection, the connections that it left, and the auction."""

    core: Core
    auction: Auction
    wire: Wire | None = None
    left: list[Wire] = field(default_factory=list)
    outcomes: dict[int, Answer | HpbError] = field(default_factory=dict)
    accepted: list[Line] = field(default_factory=list)
    most_in_flight: int = 0

    def perform(self) -> None:
        """Carries out the core's effects."""
        while effects := self.core.effects():
            for effect in effects:
                if isinstance(effect, Send) and self.wire:
                    self.wire.lines.extend(effect.data.decode().split("\n")[:-1])
                    self.most_in_flight = max(self.most_in_flight, len(self.wire.lines) + len(self.wire.answers))
                elif isinstance(effect, Done):
                    assert effect.number not in self.outcomes
                    self.outcomes[effect.number] = effect.outcome
                elif isinstance(effect, Drop):
                    self.leave()

    def connect(self) -> None:
        """A new connection."""
        self.wire = Wire()
        self.core.connected()
        self.perform()

    def leave(self) -> None:
        """Gives the connection up. Lines that were sent over it may still be judged."""
        if self.wire:
            self.left.append(self.wire)
        self.wire = None
        self.core.lost()
        self.perform()

    def judge(self, wire: Wire) -> None:
        """The server judges the next line of a connection."""
        line = wire.lines.popleft()
        before = self.auction.count
        self.auction, answered = answer(self.auction, line)
        if answered == Accepted(before + 1) and self.auction.count > before:
            self.accepted.append(parse_line(line))
        wire.answers.append(format_answer(answered))

    def read(self, count: int = 1) -> None:
        """This number of answers reaches the client."""
        assert self.wire
        answers = [self.wire.answers.popleft() for _ in range(min(count, len(self.wire.answers)))]
        self.core.received("".join(f"{text}\n" for text in answers).encode())
        self.perform()

    def settle(self) -> None:
        """From here on nothing fails, until each line has its outcome."""
        for _ in range(10_000):
            self.perform()
            if not self.core.wants_connection:
                return
            if self.wire is None:
                self.connect()
            while self.wire and self.wire.lines:
                self.judge(self.wire)
            if self.wire:
                self.read(len(self.wire.answers))
        raise AssertionError("it doesn't come to an end")


def is_same(first: Line, second: Line) -> bool:
    """Whether two commands ask for the same thing, whatever their tickets are."""
    if isinstance(first, QUESTIONS) or isinstance(second, QUESTIONS):
        return False
    return numbered(first, 0) == numbered(second, 0)
