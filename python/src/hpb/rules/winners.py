"""The winners, by docs/RULES.md: the best choice of the high bids. On a tie the parts win."""
from collections.abc import Mapping
from dataclasses import dataclass

from hpb.rules.tree import Tree


@dataclass(frozen=True)
class Values:
    """The values of the high bids, in dollars: of each node (`value`), and inside each package (`inside`). Both have all nodes."""

    high: Mapping[str, int]
    inside: Mapping[str, int]
    value: Mapping[str, int]


def values_of(tree: Tree, high: Mapping[str, int]) -> Values:
    """The values of these high bids in dollars. A node that is missing, or has 0, has no bid."""
    inside: dict[str, int] = {}
    value: dict[str, int] = {}
    for name in tree.from_the_bottom():
        inside[name] = sum(value[child] for child in tree.children[name])
        value[name] = max(high.get(name, 0), inside[name])
    return Values({name: high.get(name, 0) for name in tree.nodes}, inside, value)


def revenue_of(tree: Tree, found: Values) -> int:
    """The sum of the winning bids in dollars, which is the sum of the top nodes' values."""
    return sum(found.value[name] for name in tree.tops)


def winners_of(tree: Tree, found: Values) -> frozenset[str]:
    """The nodes that win. A package wins if its bid is more than the value inside it, and then nothing under it wins."""
    won: set[str] = set()
    looked_at = list(tree.tops)
    while looked_at:
        name = looked_at.pop()
        if found.high[name] > found.inside[name]:
            won.add(name)
        else:
            looked_at += tree.children[name]
    return frozenset(won)
