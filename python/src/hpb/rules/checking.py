"""The sums that show a result, by docs/RULES.md, "How to check a result". They need only the answers, not the bids."""
from collections.abc import Iterator

from hpb.limits import MOST_BID
from hpb.lines import NodeShown
from hpb.refusals import HpbError
from hpb.rules.prices import minimum
from hpb.rules.told import Told
from hpb.rules.tree import Tree


class Wrong(HpbError):
    """A sum is wrong, or the definition doesn't allow an answer."""


def check_sums(tree: Tree, told: Told) -> Iterator[str]:
    """Names each step that is right. At the first one that isn't, `Wrong` is raised."""
    for check in (_definition, _winners, _licences, _nodes, _bids, _minima):
        yield check(tree, told)


def _definition(tree: Tree, told: Told) -> str:
    """Checks that the definition allows the stage, the bids and the bidders."""
    definition = tree.definition
    if told.shown.stage > len(definition.stages):
        raise Wrong(f"the stage is {told.shown.stage}, and the definition has {len(definition.stages)}")
    for node in told.nodes.values():
        if node.bidder is not None:
            _check_bid(tree, node, node.bidder)
        elif node.high:
            raise Wrong(f"the high bid on {node.name} is {node.high}, and is nobody's")
    for who in told.whos.values():
        if who.bidder not in tree.bidders:
            raise Wrong(f"{who.bidder} is no bidder of the definition")
        if who.eligibility > tree.bidders[who.bidder].units or who.waivers_left > definition.waivers:
            raise Wrong(f"{who.bidder} has more units or waivers than the definition gives it")
    return "Stage, bidders and each high bid are such as the definition allows."


def _check_bid(tree: Tree, node: NodeShown, bidder: str) -> None:
    if bidder not in tree.bidders:
        raise Wrong(f"the high bid on {node.name} is of {bidder}, who is no bidder of the definition")
    wanted, units = tree.units[node.name], tree.bidders[bidder].units
    if wanted > units:
        raise Wrong(f"the high bid on {node.name}, which has {wanted} units, is of {bidder}, who has {units}")
    step = tree.definition.step
    if not tree.opening[node.name] <= node.high <= MOST_BID or node.high % step:
        raise Wrong(f"the high bid on {node.name} is {node.high}, and no multiple of the step {step} from the opening on")


def _winners(tree: Tree, told: Told) -> str:
    for name in told.winners:
        if told.nodes[name].bidder is None:
            raise Wrong(f"{name} wins, and nobody has bid on it")
        for above in tree.above(name):
            if told.nodes[above].wins:
                raise Wrong(f"{name} wins, and so does {above}, in which it lies")
    bids = sum(told.nodes[name].high for name in told.winners)
    if bids != told.shown.revenue:
        raise Wrong(f"the winners bid {bids} together, and the revenue is {told.shown.revenue}")
    return f"The winners bid {bids} together, which is the revenue, and none lies in another."


def _licences(tree: Tree, told: Told) -> str:
    licences = tree.all_licences
    prices = sum(told.nodes[licence].price for licence in licences)
    if prices != told.shown.revenue:
        raise Wrong(f"the licences' prices are {prices} together, and the revenue is {told.shown.revenue}")
    return f"The {len(licences)} licences' prices are {prices} together, which is the revenue."


def _nodes(tree: Tree, told: Told) -> str:
    for name, node in told.nodes.items():
        own = sum(told.nodes[licence].price for licence in tree.licences[name])
        if node.price != own:
            raise Wrong(f"the price of {name} is {node.price}, and its licences' prices are {own} together")
    return f"Each of {len(told.nodes)} nodes has the price that its licences have together."


def _bids(tree: Tree, told: Told) -> str:
    for name, node in told.nodes.items():
        if node.high > node.price:
            raise Wrong(f"the high bid on {name} is {node.high}, above its price {node.price}")
    with_bids = sum(1 for node in told.nodes.values() if node.bidder)
    return f"None of {with_bids} high bids is above its node's price."


def _minima(tree: Tree, told: Told) -> str:
    for name, node in told.nodes.items():
        least = minimum(tree, name, node.price)
        if node.minimum != least:
            raise Wrong(f"the minimum of {name} is {node.minimum}, and by its price it is {least}")
    return "Each minimum follows from its node's price."
