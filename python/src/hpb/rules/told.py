"""The state of an auction by its answers: to `SHOW`, to `NODE` for each node, and to `WHO` for some bidders."""
from collections.abc import Iterable, Mapping
from dataclasses import dataclass

from hpb.lines import NoAnswer, NodeShown, Shown, WhoShown, parse_answer
from hpb.refusals import HpbError
from hpb.rules.auction import Auction, BidderState, HighBid, LastCommand
from hpb.rules.prices import minimum
from hpb.rules.standing import standing_of
from hpb.rules.tree import Tree

_BEGINNINGS = ("ROUND ", "NODE ", "WHO ")


class NotTold(HpbError):
    """The answers don't give the state of an auction with this definition: one is missing or isn't whole."""


@dataclass(frozen=True)
class Told:
    """The answers, in dollars and bidding units. `nodes` has each node, in the definition's order; `whos` has the bidders that were
    asked about.
    """

    shown: Shown
    nodes: Mapping[str, NodeShown]
    whos: Mapping[str, WhoShown]

    @property
    def winners(self) -> list[str]:
        """The nodes that win, in the definition's order."""
        return [name for name, node in self.nodes.items() if node.wins]

    @property
    def high(self) -> dict[str, int]:
        """The high bid of each node in dollars; 0 if it has none."""
        return {name: node.high for name, node in self.nodes.items()}


def read_told(tree: Tree, lines: Iterable[str]) -> Told:
    """The answers in some lines without LF. Of several answers to one question the last counts; other lines are ignored. If an
    answer is missing, isn't whole, or names a node that the definition lacks, `NotTold` is raised.
    """
    shown: Shown | None = None
    nodes: dict[str, NodeShown] = {}
    whos: dict[str, WhoShown] = {}
    for line in lines:
        match read_standing(line):
            case Shown() as answer:
                shown = answer
            case NodeShown() as answer:
                nodes[answer.name] = answer
            case WhoShown() as answer:
                whos[answer.bidder] = answer
    if shown is None:
        raise NotTold("no answer to SHOW")
    for name in tree.nodes:
        if name not in nodes:
            raise NotTold(f"no answer to NODE {name}")
    for name in nodes:
        if name not in tree.nodes:
            raise NotTold(f"the definition has no node {name}")
    return Told(shown, {name: nodes[name] for name in tree.nodes}, whos)


def read_standing(line: str) -> Shown | NodeShown | WhoShown | None:
    """The answer to SHOW, NODE or WHO in a line; None for any other line. If the line begins like one but isn't whole, `NotTold` is
    raised.
    """
    if not line.startswith(_BEGINNINGS):
        return None
    try:
        answer = parse_answer(line)
    except NoAnswer:
        raise NotTold(f"this is no whole answer: {line!a}") from None
    assert isinstance(answer, Shown | NodeShown | WhoShown)
    return answer


def look_whose(tree: Tree, told: Told, has_pseudonyms: bool = False) -> None:
    """Returns if the answers may be those of an auction with this definition. Otherwise raises `NotTold`. Pseudonyms are names of high
    bidders that the definition lacks.
    """
    for name, node in told.nodes.items():
        least = minimum(tree, name, node.price)
        if node.minimum != least:
            raise NotTold(f"another definition: the minimum of {name} is {node.minimum:,}, and by this one {least:,}")
        if node.bidder is not None and node.bidder not in tree.bidders and not has_pseudonyms:
            raise NotTold(f"another definition: it has no bidder {node.bidder}")
    for name, who in told.whos.items():
        if name not in tree.bidders:
            raise NotTold(f"another definition: it has no bidder {name}")
        if who.eligibility > tree.bidders[name].units or who.waivers_left > tree.definition.waivers:
            raise NotTold(f"another definition: {name} has an eligibility of {who.eligibility:,} and {who.waivers_left} waivers")
    if told.shown.stage > len(tree.definition.stages):
        raise NotTold(f"another definition: it has no stage {told.shown.stage}")


def auction_of(tree: Tree, told: Told, lasts: Mapping[str | None, LastCommand]) -> Auction:
    """The auction after a close, before any later command, by the answers and by the last command of each sender (None is the auctioneer). If
    the answers aren't those of such an auction, `NotTold` is raised: a bidder is missing, or a sender has another ticket than its last command.
    """
    look_whose(tree, told)
    tickets: dict[str | None, int] = {None: told.shown.next_ticket - 1, **{name: who.ticket for name, who in told.whos.items()}}
    for sender in (None, *tree.bidders):
        last = lasts.get(sender)
        if tickets.get(sender) != (last.command.ticket if last else 0):
            raise NotTold(f"the last command of {sender or 'the auctioneer'} isn't known")
    bidders = {name: BidderState(told.whos[name].eligibility, told.whos[name].waivers_left, last=lasts.get(name)) for name in tree.bidders}
    high = {name: HighBid(node.high, node.bidder) for name, node in told.nodes.items() if node.bidder is not None}
    shown, standing = told.shown, standing_of(tree, told.high)
    return Auction(tree, bidders, high, {}, standing, shown.round, shown.stage, shown.is_over, shown.count, lasts.get(None))
