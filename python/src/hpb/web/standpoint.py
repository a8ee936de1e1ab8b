"""A bidder's standpoint: what it holds, what a bid would do, what it needs, and whether a basket of bids would be accepted. No input or
output. Money is in whole dollars, units are bidding units.
"""
import csv
import io
from collections.abc import Iterable, Mapping, Sequence
from dataclasses import dataclass
from typing import Final

from hpb.limits import MOST_AMOUNT, NAME
from hpb.lines import Accepted, Bid, NodeShown, WhoShown
from hpb.refusals import Refused, UnknownNode
from hpb.rules.activity import activity_needed
from hpb.rules.auction import Auction, BidderState, HighBid, apply, refusal_of_bid
from hpb.rules.standing import standing_of
from hpb.rules.tree import Tree
from hpb.rules.what_if import Keeping, Rise, keep_eligibility, rise_to_win
from hpb.web.links import Standing

MOST_ROWS: Final = 127


@dataclass(frozen=True)
class Standpoint:
    """A bidder now. `bid_on` are the nodes on which it is known to have bid in this round."""

    tree: Tree
    standing: Standing
    who: WhoShown
    bid_on: frozenset[str]

    @property
    def percentage(self) -> int:
        """That of the stage in force."""
        return self.tree.definition.stages[self.standing.shown.stage - 1]

    @property
    def needed(self) -> int:
        """The least activity that keeps the eligibility at a close."""
        return activity_needed(self.percentage, self.who.eligibility)

    @property
    def short(self) -> int:
        """How much activity it lacks of that."""
        return max(0, self.needed - self.who.activity)

    @property
    def won(self) -> frozenset[str]:
        """The nodes that it won at the last close."""
        return frozenset(name for name, node in self.standing.nodes.items() if node.wins and node.bidder == self.who.bidder)

    @property
    def held(self) -> list[str]:
        """The nodes that are its own: it has the high bid, or has bid in this round. Those that it wins come first."""
        high = {name for name, node in self.standing.nodes.items() if node.bidder == self.who.bidder}
        return sorted(high | self.bid_on, key=lambda name: (name not in self.won, list(self.tree.nodes).index(name)))

    @property
    def has_others(self) -> bool:
        """Whether it has bid in this round on nodes that aren't known here."""
        return self.tree.units_of(self.won | self.bid_on) != self.who.activity

    def activity_with(self, node: str) -> int:
        """Its activity with a bid on this node; at least that, if it has bid on nodes that aren't known here."""
        return max(self.who.activity, self.tree.units_of(self.won | self.bid_on | {node}))

    def keeping(self) -> Keeping | None:
        """The bids of least spending that keep its eligibility, or None if no bids can."""
        minima = {name: node.minimum for name, node in self.standing.nodes.items()}
        return keep_eligibility(self.tree, minima, self.percentage, self.who.eligibility, self.won, self.bid_on)

    def rise(self, node: str) -> Rise:
        """By how much a node, or its parts, must rise to win."""
        return rise_to_win(self.tree, standing_of(self.tree, high_of(self.standing.nodes)), node)

    def auction(self) -> Auction:
        """The auction as far as it decides on this bidder's bids."""
        high = {name: HighBid(node.high, node.bidder or "") for name, node in self.standing.nodes.items() if node.high}
        state = BidderState(self.who.eligibility, self.who.waivers_left, False, self.bid_on)
        found = standing_of(self.tree, high_of(self.standing.nodes))
        shown = self.standing.shown
        return Auction(self.tree, {self.who.bidder: state}, high, {}, found, shown.round, shown.stage, shown.is_over)


def high_of(nodes: Mapping[str, NodeShown]) -> dict[str, int]:
    """The high bid of each node."""
    return {name: node.high for name, node in nodes.items()}


@dataclass(frozen=True)
class Wish:
    """A bid that somebody wants to make."""

    node: str
    amount: int


@dataclass(frozen=True)
class Judged:
    """A wish, the refusal that it would get now, if any, and the activity after it."""

    wish: Wish
    refusal: Refused | None
    activity: int


def judged(standpoint: Standpoint, wishes: Iterable[Wish]) -> list[Judged]:
    """What a basket would be answered now, if its bids came one after the other."""
    auction, found, ticket = standpoint.auction(), list[Judged](), 0
    bidder = standpoint.who.bidder
    for wish in wishes:
        bid = Bid(bidder, wish.node, wish.amount, ticket + 1)
        refusal = UnknownNode() if wish.node not in auction.tree.nodes else refusal_of_bid(auction, bid)
        if refusal is None:
            auction, answered = apply(auction, bid)
            ticket += isinstance(answered, Accepted)
        found.append(Judged(wish, refusal, auction.activity(bidder)))
    return found


class Unread(Exception):
    """A text is no list of bids. It says which line, and why."""


def read_wishes(text: str) -> list[Wish]:
    """The bids in CSV of node and amount, a line for each. A first line `node,amount` may stand before them."""
    rows = [row for row in csv.reader(io.StringIO(text)) if any(cell.strip() for cell in row)]
    if rows and [cell.strip().lower() for cell in rows[0]] == ["node", "amount"]:
        rows = rows[1:]
    if len(rows) > MOST_ROWS:
        raise Unread(f"{len(rows)} bids are more than {MOST_ROWS}")
    return [_wish_in(number, row) for number, row in enumerate(rows, 1)]


def _wish_in(number: int, row: Sequence[str]) -> Wish:
    if len(row) != 2:
        raise Unread(f"bid {number}: it has {len(row)} cells, and not a node and an amount")
    return read_wish(row[0], row[1], f"bid {number}")


def read_wish(node: str, amount: str, place: str) -> Wish:
    """A bid by its texts. The node may be unknown, but has to be a name."""
    if not NAME.fullmatch(node.strip()):
        raise Unread(f"{place}: no name of a node")
    return Wish(node.strip(), read_amount(amount, place))


def read_amount(text: str, place: str) -> int:
    """Whole dollars. Commas may stand between groups of three digits."""
    digits = text.strip().replace(",", "")
    if not (digits.isascii() and digits.isdigit()) or len(digits) > 20 or int(digits) > MOST_AMOUNT:
        raise Unread(f"{place}: {text.strip()[:30]!r} is no amount in whole dollars")
    return int(digits)
