"""Questions that a bidder may ask before it bids: how to keep its eligibility, and by how much a node or its parts must rise to
win.

Everything follows from the last close, whose high bids and minima count until the next one. The other bids of the open round aren't
shown to anyone. Money is in whole dollars, units are bidding units.
"""
from collections.abc import Iterable, Mapping
from dataclasses import dataclass

from hpb.limits import MOST_BID
from hpb.rules.activity import activity_needed
from hpb.rules.prices import minimum
from hpb.rules.standing import Standing
from hpb.rules.tree import Tree


@dataclass(frozen=True, slots=True)
class Keeping:
    """A way to keep an eligibility at the next close.

    `bids` are the nodes to bid on, with the least amounts that are accepted now, in the order of the definition. `spending` is
    their sum. `activity` is the bidder's activity after these bids, and `needed` the least that keeps its eligibility. If `bids` is
    empty, it is active enough already.
    """

    bids: Mapping[str, int]
    spending: int
    activity: int
    needed: int


def keep_eligibility(
    tree: Tree, minima: Mapping[str, int], percentage: int, eligibility: int, won: Iterable[str] = (), bid_on: Iterable[str] = ()
) -> Keeping | None:
    """The bids of least spending that keep an eligibility. If no bids can, None: then only a waiver keeps it.

    - `percentage` is that of the stage in force, 50 to 100.
    - `won` are the nodes that the bidder won at the last close.
    - `bid_on` are the nodes that it bid on in the open round.

    While nothing else changes, each of the bids is accepted, in any order: none takes the activity above the eligibility. Of
    several ways with the least spending it is one of those with the fewest bids.
    """
    has_bid = frozenset(bid_on)
    active = has_bid | frozenset(won)
    base, needed = tree.units_of(active), activity_needed(percentage, eligibility)
    if base >= needed:
        return Keeping({}, 0, base, needed)
    covered = frozenset[str]().union(*(tree.licences[name] for name in active))
    costs = {name: cost for name, cost in minima.items() if cost <= MOST_BID and name not in has_bid}
    best = _Cheapest(tree, costs, covered, needed - base, eligibility - base).best()
    if best is None:
        return None
    spending, _, units, names = best
    chosen = frozenset(names)
    return Keeping({name: minima[name] for name in tree.nodes if name in chosen}, spending, base + units, needed)


# A choice of nodes, none within another: its cost, the number of bids, the units that it adds, and the nodes.
_Choice = tuple[int, int, int, tuple[str, ...]]


class _Cheapest:
    """The cheapest choice of nodes that adds `least` to `most` units to the licences that are covered already.

    From the bottom of the tree up, each node gets its choices: for each number of units up to `most`, the cheapest one. The number
    of steps is at worst the square of the number of sums of units.
    """

    def __init__(self, tree: Tree, costs: Mapping[str, int], covered: frozenset[str], least: int, most: int) -> None:
        self.tree, self.costs, self.covered, self.least, self.most = tree, costs, covered, least, most

    def best(self) -> _Choice | None:
        enough = [choice for units, choice in self._under(self.tree.tops).items() if units >= self.least]
        return min(enough, default=None)

    def _under(self, names: tuple[str, ...]) -> dict[int, _Choice]:
        choices: dict[int, _Choice] = {0: (0, 0, 0, ())}
        for name in names:
            choices = self._joined(choices, self._of(name))
        return choices

    def _of(self, name: str) -> dict[int, _Choice]:
        choices = self._under(self.tree.children[name])
        added = sum(self.tree.units[licence] for licence in self.tree.licences[name] - self.covered)
        if name in self.costs and 0 < added <= self.most:
            choice = (self.costs[name], 1, added, (name,))
            choices[added] = min(choice, choices.get(added, choice))
        return choices

    def _joined(self, first: dict[int, _Choice], second: dict[int, _Choice]) -> dict[int, _Choice]:
        if len(second) == 1:
            return first
        joined: dict[int, _Choice] = {}
        for cost, bids, units, names in first.values():
            for more_cost, more_bids, more_units, more in second.values():
                total = units + more_units
                if total <= self.most:
                    choice = (cost + more_cost, bids + more_bids, total, names + more)
                    joined[total] = min(choice, joined.get(total, choice))
        return joined


@dataclass(frozen=True, slots=True)
class Rise:
    """The ways to make a node win while all other high bids stay, in dollars.

    - `amount` is the least bid on the node itself that wins and isn't refused as too low. It may be above the greatest bid that is
      accepted.
    - `rise` is how far `amount` is above the node's high bid; 0 if the node wins.
    - `parts_rise` is for packages only, and None for a licence. It is how far the values of the children must rise together so that
      parts of the package win, and neither the package nor one above it. If nothing stands in their way, it is 0.
    """

    node: str
    amount: int
    rise: int
    parts_rise: int | None


def rise_to_win(tree: Tree, found: Standing, name: str) -> Rise:
    """By how much a node, or its parts, must rise to win, given the standing after the last close."""
    values, is_licence = found.values, tree.nodes[name].is_licence
    wanted = _wanted_by_those_above(tree, found, name)
    high, inside = values.high[name], values.inside[name]
    parts_rise = None if is_licence else max(0, max(high, wanted) - inside)
    if name in found.winners:
        return Rise(name, high, 0, parts_rise)
    least = max(wanted, inside + 1, minimum(tree, name, found.prices[name]))
    step = tree.definition.step
    amount = -(-least // step) * step
    return Rise(name, amount, amount - high, parts_rise)


def _wanted_by_those_above(tree: Tree, found: Standing, name: str) -> int:
    """The least value of a node with which no package above it wins, while everything else stays."""
    wanted, beside, below = 0, 0, name
    for package in tree.above(name):
        beside += found.values.inside[package] - found.values.value[below]
        wanted, below = max(wanted, found.values.high[package] - beside), package
    return wanted
