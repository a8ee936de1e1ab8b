"""An auction as a value, and the answer to each command and question, by docs/RULES.md.

    auction = begin(read_definition(text))
    auction, answered = apply(auction, Bid("x", "a", 100, ticket=1))

`apply` changes nothing: it returns a new value. A refusal is an answer too, and leaves the auction as it was.
"""
from collections.abc import Mapping
from dataclasses import dataclass, replace

from hpb.limits import MOST_BID, MOST_COMMANDS
from hpb.lines import (
    Accepted,
    Answer,
    AskNode,
    AskWho,
    Bid,
    Close,
    Command,
    NodeShown,
    Show,
    Shown,
    Stage,
    Waive,
    WhoShown,
    parse_line,
)
from hpb.refusals import (
    AuctionOver,
    BeyondEligibility,
    BidAgain,
    NoFurtherStage,
    NotAStep,
    NoWaiverLeft,
    OldTicket,
    Refused,
    TicketGap,
    TicketTaken,
    TooHigh,
    TooLow,
    TooManyCommands,
    UnknownBidder,
    UnknownNode,
    WaivedAlready,
)
from hpb.rules.activity import settle
from hpb.rules.definition import Definition
from hpb.rules.standing import Standing, standing_of
from hpb.rules.tree import Tree, tree_of


@dataclass(frozen=True, slots=True)
class HighBid:
    """A high bid: whole dollars, and the bidder's name."""

    amount: int
    bidder: str


@dataclass(frozen=True, slots=True)
class LastCommand:
    """A sender's last accepted command, with its ticket, and its number among all accepted commands, from 1."""

    command: Command
    number: int


@dataclass(frozen=True, slots=True)
class BidderState:
    """A bidder in the open round: eligibility in bidding units, waivers left, nodes that it bid on, and its last command."""

    eligibility: int
    waivers: int
    has_waived: bool = False
    bid_on: frozenset[str] = frozenset()
    last: LastCommand | None = None


@dataclass(frozen=True)
class Auction:
    """An auction after some commands. `high` are the high bids of closed rounds by node, and `incoming` those of the open round.
    `standing` follows from `high`: winners, prices and minima.
    """

    tree: Tree
    bidders: Mapping[str, BidderState]
    high: Mapping[str, HighBid]
    incoming: Mapping[str, HighBid]
    standing: Standing
    round: int = 1
    stage: int = 1
    is_over: bool = False
    count: int = 0
    auctioneer: LastCommand | None = None

    @property
    def percentage(self) -> int:
        """The percentage of the stage in force."""
        return self.tree.definition.stages[self.stage - 1]

    def won_by(self, bidder: str) -> frozenset[str]:
        """The nodes that a bidder won at the last close."""
        return frozenset(name for name in self.standing.winners if self.high[name].bidder == bidder)

    def active_on(self, bidder: str) -> frozenset[str]:
        """The nodes that count towards a bidder's activity: those that it bid on in the open round, and those that it won."""
        return self.bidders[bidder].bid_on | self.won_by(bidder)

    def activity(self, bidder: str) -> int:
        """A bidder's activity now, in bidding units."""
        return self.tree.units_of(self.active_on(bidder))


def begin(definition: Definition) -> Auction:
    """The auction of a definition before its first command."""
    bidders = {bidder.name: BidderState(bidder.units, definition.waivers) for bidder in definition.bidders}
    tree = tree_of(definition)
    return Auction(tree, bidders, {}, {}, standing_of(tree, {}))


def sender_of(command: Command) -> str | None:
    """The bidder of a bid or a waiver; None is the auctioneer, who sends closes and stages."""
    return command.bidder if isinstance(command, Bid | Waive) else None


# Answers to commands.


def apply(auction: Auction, command: Command) -> tuple[Auction, Accepted | Refused]:
    """The auction after a command, and its answer: the first refusal of docs/RULES.md that holds, the old number if it is a repeat,
    or else a new one.
    """
    if refused := refusal_of(auction, command):
        return auction, refused
    last = _last_of(auction, command)
    if last and last.command == command:
        return auction, Accepted(last.number)
    count = auction.count + 1
    return _numbered(_taken(auction, command), command, count), Accepted(count)


def refusal_of(auction: Auction, command: Command) -> Refused | None:
    """The first refusal that holds. If the command is accepted, or is a repeat, None."""
    sender = sender_of(command)
    if sender is not None and sender not in auction.bidders:
        return UnknownBidder()
    if isinstance(command, Bid) and command.node not in auction.tree.nodes:
        return UnknownNode()
    last = _last_of(auction, command)
    used = last.command.ticket if last else 0
    if command.ticket == 0 or command.ticket < used:
        return OldTicket()
    if last and command.ticket == used:
        return None if last.command == command else TicketTaken()
    if command.ticket > used + 1:
        return TicketGap()
    if auction.count == MOST_COMMANDS:
        return TooManyCommands()
    return AuctionOver() if auction.is_over else _refusal_of_kind(auction, command)


def _last_of(auction: Auction, command: Command) -> LastCommand | None:
    sender = sender_of(command)
    return auction.auctioneer if sender is None else auction.bidders[sender].last


def _refusal_of_kind(auction: Auction, command: Command) -> Refused | None:
    match command:
        case Bid():
            return refusal_of_bid(auction, command)
        case Waive(bidder):
            state = auction.bidders[bidder]
            return NoWaiverLeft() if not state.waivers else WaivedAlready() if state.has_waived else None
        case Stage():
            return NoFurtherStage() if auction.stage == len(auction.tree.definition.stages) else None
        case Close():
            return None


def refusal_of_bid(auction: Auction, bid: Bid) -> Refused | None:
    """The refusal of a bid in an open auction, 21 to 25, whatever its ticket; None if it is accepted. Bidder and node have to be
    the definition's.
    """
    state = auction.bidders[bid.bidder]
    if bid.amount % auction.tree.definition.step:
        return NotAStep()
    if bid.amount < auction.standing.minima[bid.node]:
        return TooLow()
    if bid.amount > MOST_BID:
        return TooHigh()
    if bid.node in state.bid_on:
        return BidAgain()
    if auction.tree.units_of(auction.active_on(bid.bidder) | {bid.node}) > state.eligibility:
        return BeyondEligibility()
    return None


# The auction after an accepted command.


def _taken(auction: Auction, command: Command) -> Auction:
    match command:
        case Bid(bidder, node, amount):
            state = auction.bidders[bidder]
            found = auction.incoming.get(node)
            is_higher = found is None or amount > found.amount
            incoming = {**auction.incoming, node: HighBid(amount, bidder)} if is_higher else auction.incoming
            return replace(_with(auction, bidder, replace(state, bid_on=state.bid_on | {node})), incoming=incoming)
        case Waive(bidder):
            state = auction.bidders[bidder]
            return _with(auction, bidder, replace(state, waivers=state.waivers - 1, has_waived=True))
        case Stage():
            return replace(auction, stage=auction.stage + 1)
        case Close():
            return _closed(auction)


def _with(auction: Auction, bidder: str, state: BidderState) -> Auction:
    return replace(auction, bidders={**auction.bidders, bidder: state})


def _closed(auction: Auction) -> Auction:
    """After a close. If the round had a bid or a bidder's own waiver, the next round opens; otherwise the auction ends."""
    goes_on = bool(auction.incoming) or any(state.has_waived for state in auction.bidders.values())
    high = {**auction.high, **auction.incoming}
    return replace(
        auction,
        bidders={bidder: _settled(auction, bidder) for bidder in auction.bidders},
        high=high,
        incoming={},
        standing=standing_of(auction.tree, {name: bid.amount for name, bid in high.items()}),
        round=auction.round + goes_on,
        is_over=not goes_on,
    )


def _settled(auction: Auction, bidder: str) -> BidderState:
    state = auction.bidders[bidder]
    left = settle(auction.percentage, auction.activity(bidder), state.eligibility, state.waivers, state.has_waived)
    return BidderState(left.eligibility, left.waivers, last=state.last)


def _numbered(auction: Auction, command: Command, number: int) -> Auction:
    sender, last = sender_of(command), LastCommand(command, number)
    counted = replace(auction, count=number)
    return replace(counted, auctioneer=last) if sender is None else _with(counted, sender, replace(counted.bidders[sender], last=last))


# Answers to questions.


def answer(auction: Auction, line: str) -> tuple[Auction, Answer]:
    """The auction after a line without its LF, and its answer. If the line isn't of the grammar, the answer is 10."""
    try:
        asked = parse_line(line)
    except Refused as refused:
        return auction, refused
    match asked:
        case Show():
            return auction, show(auction)
        case AskNode(node):
            return auction, show_node(auction, node) if node in auction.tree.nodes else UnknownNode()
        case AskWho(bidder):
            return auction, show_bidder(auction, bidder) if bidder in auction.bidders else UnknownBidder()
    return apply(auction, asked)


def show(auction: Auction) -> Shown:
    """The answer to `SHOW`."""
    return Shown(auction.round, auction.stage, auction.is_over, auction.standing.revenue, auction.count)


def show_node(auction: Auction, node: str) -> NodeShown:
    """The answer to `NODE`, for a node of the definition."""
    found, bid = auction.standing, auction.high.get(node)
    told = (bid.amount, bid.bidder) if bid else (0, None)
    return NodeShown(node, *told, found.prices[node], found.minima[node], node in found.winners)


def show_bidder(auction: Auction, bidder: str) -> WhoShown:
    """The answer to `WHO`, for a bidder of the definition."""
    state = auction.bidders[bidder]
    ticket = state.last.command.ticket if state.last else 0
    waivers = state.waivers if auction.tree.definition.waivers else None
    return WhoShown(bidder, state.eligibility, auction.activity(bidder), ticket, waivers)
