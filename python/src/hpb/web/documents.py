"""Answers as documents: what a front says becomes objects of JSON. No input or output.

Money is in whole dollars, units are bidding units, times are UTC. What a name may not know is null.
"""
from collections.abc import Iterable, Mapping, Sequence
from typing import Any, TypeAlias

from hpb.lines import NodeShown, Shown, WhoShown
from hpb.rounds import InformationShown, News, Previewed, Prospect, Schedule
from hpb.rules.activity import activity_needed
from hpb.rules.mock import MARK, is_mock
from hpb.rules.tree import Tree
from hpb.rules.writing import fields_of

Document: TypeAlias = dict[str, Any]
# What a front without rules on information shows.
ALL_SHOWN = InformationShown("running", "all", True, True)


def auction_of(tree: Tree, shown: Shown, information: InformationShown = ALL_SHOWN, title: str = "", of_mock: bool = False) -> Document:
    """The auction as it stands. `count` is that of the last close if `count_of` is `closes`."""
    return {
        "title": title,
        "is_mock": of_mock,
        "round": shown.round,
        "stage": shown.stage,
        "percentage": tree.definition.stages[shown.stage - 1],
        "is_over": shown.is_over,
        "revenue": shown.revenue if information.has_revenue else None,
        "count": shown.count,
        "count_of": "now" if information.is_count_exact else "closes",
        "next_ticket": shown.next_ticket,
    }


def bidders_of(tree: Tree) -> list[str]:
    """All bidders but the one that marks a mock, for whom nobody bids."""
    return [bidder for bidder in tree.bidders if bidder != MARK]


def definition_of(tree: Tree) -> Document:
    """The auction's definition, as docs/PROTOCOL.md has it."""
    return fields_of(tree.definition)


def node_of(tree: Tree, node: NodeShown) -> Document:
    """A node as of the last close. `bidder` is null if nobody has bid, or if it isn't shown."""
    return {
        "node": node.name,
        "parent": tree.nodes[node.name].parent,
        "units": tree.units[node.name],
        "high": node.high,
        "bidder": node.bidder,
        "price": node.price,
        "minimum": node.minimum,
        "wins": node.wins,
    }


def nodes_of(tree: Tree, shown: Shown, nodes: Mapping[str, NodeShown]) -> Document:
    """All nodes as of one close, in the order of the definition."""
    return {"round": shown.round, "is_over": shown.is_over, "nodes": [node_of(tree, node) for node in nodes.values()]}


def bidder_of(tree: Tree, shown: Shown, who: WhoShown) -> Document:
    """A bidder as of now. `needed` is the least activity that keeps its eligibility at a close, and `short` how much it lacks of that."""
    needed = activity_needed(tree.definition.stages[shown.stage - 1], who.eligibility)
    return {
        "bidder": who.bidder,
        "units": tree.bidders[who.bidder].units,
        "eligibility": who.eligibility,
        "activity": who.activity,
        "needed": needed,
        "short": max(0, needed - who.activity),
        "waivers": who.waivers_left,
        "next_ticket": who.ticket + 1,
    }


def me_of(tree: Tree, name: str, kind: str, shown: Shown, whos: Iterable[WhoShown]) -> Document:
    """A name with the bidders about whom it may ask."""
    return {"name": name, "role": kind, "round": shown.round, "bidders": [bidder_of(tree, shown, who) for who in whos]}


def results_of(tree: Tree, shown: Shown, nodes: Mapping[str, NodeShown], information: InformationShown = ALL_SHOWN) -> Document:
    """The winners of the last close, and what each bidder wins in all. A bidder that isn't shown has no sum."""
    won = [node for node in nodes.values() if node.wins]
    bidders = dict.fromkeys(node.bidder for node in won if node.bidder)
    return {
        "rounds_closed": shown.round - (not shown.is_over),
        "is_over": shown.is_over,
        "revenue": shown.revenue if information.has_revenue else None,
        "winners": [{"node": node.name, "bidder": node.bidder, "amount": node.high} for node in won],
        "bidders": [sum_of(tree, bidder, [node for node in won if node.bidder == bidder]) for bidder in bidders],
    }


def sum_of(tree: Tree, bidder: str, won: Sequence[NodeShown]) -> Document:
    """What a bidder wins: how many licences, and for how much in all."""
    licences = sum(len(tree.licences[node.name]) for node in won)
    return {"bidder": bidder, "licences": licences, "amount": sum(node.high for node in won)}


def round_of(tree: Tree, number: int, seen_at: str, shown: Shown, nodes: Mapping[str, NodeShown], information: InformationShown) -> Document:
    """A closed round: its results, and all nodes after its close."""
    results = results_of(tree, shown, nodes, information)
    return {"round": number, "is_mock": is_mock(tree.definition), "seen_at": seen_at, **results, "nodes": [node_of(tree, node) for node in nodes.values()]}


def schedule_of(schedule: Schedule) -> Document:
    """The round clock. `left` is in seconds."""
    known = {"round": schedule.round, "state": schedule.state, "opens": schedule.opens, "until": schedule.until}
    return {**known, "left": schedule.left, "now": schedule.now}


def news_of(news: News) -> Document:
    """News. `said` is the text of an announcement, and null for other news."""
    return {"number": news.number, "time": news.time, "text": news.text, "said": news.said}


def preview_of(found: Previewed, bidders: Iterable[Prospect]) -> Document:
    """What a close would do now, in sum and to each bidder."""
    sums = {"short": found.short, "waivers": found.waivers, "losing": found.losing}
    return {"round": found.round, "revenue": found.revenue, **sums, "ends": found.ends, "bidders": [prospect_of(one) for one in bidders]}


def prospect_of(one: Prospect) -> Document:
    """What a close would do to a bidder."""
    known = {"bidder": one.bidder, "eligibility": one.eligibility, "activity": one.activity}
    return {**known, "short": one.short, "waiver": one.waiver, "after": one.after}
