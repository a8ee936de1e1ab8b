"""The effect of a close now: on activity, waivers and eligibility of each bidder, on the revenue, and on the auction, which may end.

Unlike `what_if`, it counts the bids of the open round, so it is for the auctioneer alone. Money is in whole dollars, units are
bidding units.
"""
from collections.abc import Iterable, Mapping
from dataclasses import dataclass

from hpb.lines import Accepted, Bid, Close, Command, Stage, Waive, numbered
from hpb.rules.activity import activity_needed, settle
from hpb.rules.auction import Auction, BidderState, HighBid, apply
from hpb.rules.mock import MARK
from hpb.rules.standing import standing_of
from hpb.rules.told import NotTold, Told
from hpb.rules.tree import Tree

OWN, AUTOMATIC, NONE = "own", "auto", "none"


@dataclass(frozen=True, slots=True)
class Prospect:
    """What a close would do to a bidder. `short` is how many units it lacks, and 0 if it is active enough. `waiver` says whether its own
    waiver counts, or the close takes one. `after` is its eligibility after the close.
    """

    bidder: str
    eligibility: int
    activity: int
    short: int
    waiver: str
    after: int


@dataclass(frozen=True)
class Preview:
    """What a close would do. `revenue` is that after it."""

    round: int
    revenue: int
    ends: bool
    bidders: Mapping[str, Prospect]

    @property
    def short(self) -> list[str]:
        """The bidders that lack activity."""
        return [one.bidder for one in self.bidders.values() if one.short]

    @property
    def waivers(self) -> list[str]:
        """The bidders of whom the close would take a waiver."""
        return [one.bidder for one in self.bidders.values() if one.waiver == AUTOMATIC]

    @property
    def losing(self) -> list[str]:
        """The bidders that would lose eligibility."""
        return [one.bidder for one in self.bidders.values() if one.after < one.eligibility]


def preview(auction: Auction) -> Preview:
    """What a close of an open auction would do now. The bidder that marks a mock isn't counted."""
    after = taken(auction, Close())
    bidders = {bidder: _prospect(auction, bidder) for bidder in auction.bidders if bidder != MARK}
    return Preview(auction.round, after.standing.revenue, after.is_over, bidders)


def _prospect(auction: Auction, bidder: str) -> Prospect:
    state, activity = auction.bidders[bidder], auction.activity(bidder)
    left = settle(auction.percentage, activity, state.eligibility, state.waivers, state.has_waived)
    waiver = OWN if state.has_waived else AUTOMATIC if left.took_waiver else NONE
    short = max(0, activity_needed(auction.percentage, state.eligibility) - activity)
    return Prospect(bidder, state.eligibility, activity, short, waiver, left.eligibility)


def taken(auction: Auction, command: Command) -> Auction:
    """The auction after a command that is known to be accepted, whatever its ticket. Else `NotTold` is raised."""
    last = auction.auctioneer if isinstance(command, Close | Stage) else auction.bidders[command.bidder].last
    after, answered = apply(auction, numbered(command, (last.command.ticket if last else 0) + 1))
    if not isinstance(answered, Accepted):
        raise NotTold(f"{command} was accepted, and by the answers it is refused: {answered}")
    return after


def at_begin_of_round(tree: Tree, told: Told, commands: Iterable[Command]) -> Auction:
    """The auction when its open round began, by the answers of now and the commands that were accepted in the round. `NotTold` is raised if
    they don't fit together. Tickets and numbers of commands aren't known in it.
    """
    known = list(commands)
    for command in known:
        if isinstance(command, Bid | Waive) and command.bidder not in told.whos:
            raise NotTold(f"no answer to WHO {command.bidder}")
    waived = [command.bidder for command in known if isinstance(command, Waive)]
    stages = sum(isinstance(command, Stage) for command in known)
    bidders = {name: BidderState(who.eligibility, who.waivers_left + waived.count(name)) for name, who in told.whos.items()}
    high = {name: HighBid(node.high, node.bidder) for name, node in told.nodes.items() if node.bidder}
    standing = standing_of(tree, {name: bid.amount for name, bid in high.items()})
    if standing.revenue != told.shown.revenue or standing.winners != frozenset(told.winners):
        raise NotTold("the answers don't agree with one another")
    shown = told.shown
    return Auction(tree, bidders, high, {}, standing, shown.round, shown.stage - stages, shown.is_over)


def after_round_so_far(auction: Auction, commands: Iterable[Command]) -> Auction:
    """The auction after the commands of its open round, in their order."""
    for command in commands:
        auction = taken(auction, command)
    return auction
