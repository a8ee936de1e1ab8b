"""Everything that follows from the high bids of closed rounds: winners, revenue, prices and minima."""
from collections.abc import Mapping
from dataclasses import dataclass

from hpb.rules.prices import minima_of, prices_of
from hpb.rules.tree import Tree
from hpb.rules.winners import Values, revenue_of, values_of, winners_of


@dataclass(frozen=True)
class Standing:
    """The state of all nodes after a close, in dollars. Each mapping has all nodes."""

    values: Values
    revenue: int
    winners: frozenset[str]
    prices: Mapping[str, int]
    minima: Mapping[str, int]


def standing_of(tree: Tree, high: Mapping[str, int]) -> Standing:
    """The standing for these high bids in dollars. A node that is missing, or has 0, has no bid."""
    found = values_of(tree, high)
    of_nodes = prices_of(tree, found)
    return Standing(found, revenue_of(tree, found), winners_of(tree, found), of_nodes, minima_of(tree, of_nodes))
