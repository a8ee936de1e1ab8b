"""The tree of a definition's nodes, by name."""
from collections.abc import Iterable, Iterator
from dataclasses import dataclass
from functools import lru_cache

from hpb.rules.definition import Bidder, Definition, Node


@dataclass(frozen=True)
class Tree:
    """A definition that `check` accepts, and for each node what follows: children, licences, bidding units, opening and level.

    Each mapping has all nodes, in the definition's order. A licence's own licence is itself. A package's units and opening are the
    sums over its licences. Don't change the mappings.
    """

    definition: Definition
    nodes: dict[str, Node]
    bidders: dict[str, Bidder]
    tops: tuple[str, ...]
    children: dict[str, tuple[str, ...]]
    licences: dict[str, frozenset[str]]
    units: dict[str, int]
    opening: dict[str, int]
    level: dict[str, int]

    @property
    def all_licences(self) -> tuple[str, ...]:
        """The names of all licences, in the order of the definition."""
        return tuple(name for name, node in self.nodes.items() if node.is_licence)

    def licences_of(self, name: str) -> tuple[str, ...]:
        """The licences at or under a node, in the order of the definition."""
        return tuple(licence for licence in self.all_licences if licence in self.licences[name])

    def above(self, name: str) -> Iterator[str]:
        """The packages around a node, from the nearest one up."""
        parent = self.nodes[name].parent
        while parent is not None:
            yield parent
            parent = self.nodes[parent].parent

    def from_the_bottom(self) -> Iterator[str]:
        """All nodes, each after its children."""
        return reversed(self.nodes)

    def units_of(self, names: Iterable[str]) -> int:
        """The bidding units of all licences at or under these nodes, each licence counted once."""
        covered = frozenset[str]().union(*(self.licences[name] for name in names))
        return sum(self.units[licence] for licence in covered)


@lru_cache(maxsize=64)
def tree_of(definition: Definition) -> Tree:
    """The tree of a definition that `check` accepts."""
    nodes = {node.name: node for node in definition.nodes}
    children = {name: tuple(other.name for other in definition.nodes if other.parent == name) for name in nodes}
    licences: dict[str, frozenset[str]] = {}
    for name in reversed(nodes):
        licences[name] = frozenset([name]) if nodes[name].is_licence else frozenset().union(*(licences[child] for child in children[name]))
    terms = {node.name: node.terms for node in definition.nodes if node.terms}
    level: dict[str, int] = {}
    for name, node in nodes.items():
        level[name] = 1 if node.parent is None else level[node.parent] + 1
    return Tree(
        definition=definition,
        nodes=nodes,
        bidders={bidder.name: bidder for bidder in definition.bidders},
        tops=tuple(node.name for node in definition.nodes if node.parent is None),
        children=children,
        licences=licences,
        units={name: sum(terms[licence].units for licence in licences[name]) for name in nodes},
        opening={name: sum(terms[licence].opening for licence in licences[name]) for name in nodes},
        level=level,
    )
