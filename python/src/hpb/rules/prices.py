"""Prices and minima, by docs/RULES.md: how far the parts have to rise, how that is shared among them, and the least next bids."""
from collections.abc import Mapping

from hpb.rules.tree import Tree
from hpb.rules.winners import Values


def surplus(tree: Tree, found: Values, name: str) -> int:
    """By how much a package's high bid exceeds the value inside it, in dollars. If it doesn't, or for a licence, 0."""
    return 0 if tree.nodes[name].is_licence else found.value[name] - found.inside[name]


def shares(dollars: int, count: int) -> list[int]:
    """Dollars shared among `count` children. All get the same, but the first ones may get a dollar more."""
    share, more = divmod(dollars, count)
    return [share + (place < more) for place in range(count)]


def passed_down(tree: Tree, found: Values) -> dict[str, int]:
    """How many dollars of surpluses each node gets from above. A package's own surplus, and the dollars that it got, are shared
    among its children.
    """
    came = dict.fromkeys(tree.nodes, 0)
    for name, children in tree.children.items():
        if children:
            came.update(zip(children, shares(came[name] + surplus(tree, found, name), len(children))))
    return came


def prices_of(tree: Tree, found: Values) -> dict[str, int]:
    """The price of each node in dollars. The licences' prices add up to the revenue, and no high bid is above its node's price."""
    came = passed_down(tree, found)
    of_licences = {name: found.high[name] + came[name] for name, node in tree.nodes.items() if node.is_licence}
    return {name: sum(of_licences[licence] for licence in tree.licences[name]) for name in tree.nodes}


def minimum(tree: Tree, name: str, price: int) -> int:
    """The least next bid in dollars on a node with this price: a multiple of the step, and at least the node's opening."""
    if price == 0:
        return tree.opening[name]
    definition = tree.definition
    raised = price + -(-price * definition.percent // 100)
    return max(tree.opening[name], -(-raised // definition.step) * definition.step)


def minima_of(tree: Tree, of_nodes: Mapping[str, int]) -> dict[str, int]:
    """The least next bid on each node in dollars, from all prices."""
    return {name: minimum(tree, name, of_nodes[name]) for name in tree.nodes}
