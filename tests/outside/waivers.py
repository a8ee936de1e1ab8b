"""Auctions by dice, whose bidders have waivers: a script is asked line by line, beside an auction that is worked out apart from it."""

from __future__ import annotations

import random
import select
import subprocess
from collections.abc import Iterator

from harness.auctions import definition, text_of
from harness.programs import Program, TookTooLong, shown
from outside.encoder import BIDDERS, NODES, RULES, Auction

# So many lines has an auction, and so many behind its end.
LINES, BEHIND = 80, 3


def with_waivers(number: int) -> bytes:
    """The definition with so many waivers for each bidder; without the field if there are none."""
    field = b'"waivers":%d,' % number if number else b""
    return definition().replace(b'"nodes"', field + b'"nodes"', 1)


class Asked:
    """An auction of a script, and the same one worked out from the commands that it accepts. The script ends with `with`."""

    def __init__(self, program: Program, seed: str) -> None:
        self._dice, self._seconds = random.Random(seed), program.seconds
        self.known = Auction(self._dice.choice([1, 2, 5]))
        self._process = program.start(input=subprocess.PIPE, errors=subprocess.DEVNULL)
        self._send(with_waivers(self.known.waivers))

    def _send(self, text: bytes) -> None:
        assert self._process.stdin is not None
        self._process.stdin.write(text)
        self._process.stdin.flush()

    def ask(self, line: str) -> str:
        """Sends a line, and gives its answer. TookTooLong if none comes in time."""
        self._send(text_of([line]))
        assert self._process.stdout is not None
        if not select.select([self._process.stdout], [], [], self._seconds)[0]:
            raise TookTooLong(line)
        return shown(self._process.stdout.readline()).rstrip("\n")

    def answers(self) -> Iterator[str]:
        """Asks line by line up to the end. AssertionError if an answer that can be known is another one."""
        behind = 0
        for _ in range(LINES):
            behind += self.known.is_over
            yield self._go_on()
            if behind == BEHIND:
                return

    def _next_ticket(self, sender: str) -> int:
        return int.from_bytes(self.known.last[sender][:4], "big") + 1

    def _line(self) -> str:
        """A bid mostly, which may be refused; a waiver; or a command of the auctioneer."""
        chance, bidder = self._dice.random(), self._dice.choice(BIDDERS)
        if chance < 0.75:
            amount = 10 * self._dice.randrange(10, 40 * self.known.round)
            return f"BID {bidder} {self._next_ticket(bidder)} {self._dice.choice(NODES)} {amount}"
        if chance < 0.86:
            return f"WAIVE {bidder} {self._next_ticket(bidder)}"
        return f"{'STAGE' if chance < 0.89 else 'CLOSE'} {self._next_ticket('')}"

    def _expected(self, line: str) -> str:
        """The answer to a line that isn't a bid."""
        kind, bidder, *_ = line.split()
        if self.known.is_over:
            return "ERR 20 closed"
        if kind == "WAIVE" and (not self.known.left[bidder] or bidder in self.known.waived):
            return "ERR 29 waived" if self.known.left[bidder] else "ERR 28 waiver"
        if kind == "STAGE" and self.known.stage == len(RULES["stages"]):
            return "ERR 27 stage"
        return f"OK {self.known.count + 1}"

    def _go_on(self) -> str:
        """One line, and after a close the auction and each bidder."""
        line = self._line()
        answer = self.ask(line)
        if not line.startswith("BID") or self.known.is_over:
            assert answer == self._expected(line), line
        if answer == f"OK {self.known.count + 1}":
            self.known.take(line)
        for question, told in self._known_answers() if line.startswith("CLOSE") else ():
            assert self.ask(question) == told, line
        return answer

    def _known_answers(self) -> Iterator[tuple[str, str]]:
        known = self.known
        how = "CLOSED" if known.is_over else "OPEN"
        revenue = sum(known.high[node][0] for node, _ in known.winners())
        yield "SHOW", f"ROUND {known.round} STAGE {known.stage} {how} REVENUE {revenue} COUNT {known.count}"
        for bidder in BIDDERS:
            ticket = self._next_ticket(bidder) - 1
            who = f"WHO {bidder} ELIGIBILITY {known.eligible[bidder]} ACTIVITY {known.active(bidder)} TICKET {ticket}"
            yield f"WHO {bidder}", f"{who} WAIVERS {known.left[bidder]}"

    def __enter__(self) -> Asked:
        return self

    def __exit__(self, *_: object) -> None:
        self._process.kill()
        self._process.communicate()
