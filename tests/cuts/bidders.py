"""Bidders who bid at the same time: a cut may not take any bid that was answered OK."""

from __future__ import annotations

import random
import time
from collections.abc import Callable, Sequence
from pathlib import Path

from cuts.setting import Setting
from harness.auctions import text_of
from harness.bidding import Bidder
from harness.programs import Program

BIDDERS = 4
BIDS = 12
# How many bids each sends ahead of their answers.
AHEAD = (1, 1, 4)
MOST_CALLS = 60
# How many seconds a load lasts at most before it is cut by the clock.
MOST_SECONDS = 0.02


def new_bidders() -> list[Bidder]:
    """One for each bidder of the definition."""
    return [Bidder(place) for place in range(BIDDERS)]


def cutting(setting: Setting, dice: random.Random) -> Callable[[], None]:
    """A function that cuts the power at some moment. Or the disk is set now to cut it at some call, and the function does nothing."""
    if dice.randrange(2):
        setting.disk.arm(dice.randint(1, MOST_CALLS))
        return lambda: None
    seconds = dice.uniform(0, MOST_SECONDS)

    def cuts() -> None:
        time.sleep(seconds)
        setting.disk.cut()

    return cuts


def hold(program: Program, file: Path, bidders: Sequence[Bidder], left: str) -> None:
    """Checks that each bid answered OK is kept with its number, in its order, and that each bidder's last one gets the same answer
    again.
    """
    ran = program.run_lines(file, text_of(["SHOW", *(f"WHO {bidder.name}" for bidder in bidders)]))
    assert ran.status == 0, f"{ran}: {left}"
    count, *tickets = (int(line.rsplit(" ", 1)[1]) for line in ran.lines())
    assert count == sum(tickets), f"{count} commands, of tickets {tickets}: {left}"
    for bidder, ticket in zip(bidders, tickets):
        assert bidder.ticket <= ticket <= bidder.sent, f"{bidder} has ticket {ticket}: {left}"
    again = [(bidder, ticket) for bidder, ticket in zip(bidders, tickets) if ticket]
    ran = program.run_lines(file, text_of(bidder.bid(ticket) for bidder, ticket in again))
    for (bidder, ticket), answer in zip(again, ran.lines(), strict=True):
        number = int(answer.removeprefix("OK "))
        assert bidder.numbers.setdefault(ticket, number) == number, f"{bidder} is answered {answer}: {left}"
    given = sorted(number for bidder in bidders for number in bidder.numbers.values())
    assert len(set(given)) == len(given), f"one number of two bids: {given}"
    assert not given or given[-1] <= count, f"{count} commands, and an OK {given[-1]}: {left}"
