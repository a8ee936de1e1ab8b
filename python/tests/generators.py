"""Auctions from a seed: definitions that are accepted, and lines, many of which are."""
import json
import random
from typing import Any

from hpb.lines import Bid, Close, Command, Stage, Waive, format_line
from hpb.rules import Auction, Definition, apply, begin, read_definition


def definition_of(dice: random.Random) -> bytes:
    """The JSON of a definition with few nodes and bidders, on one line."""
    step = dice.choice([1, 3, 10, 50])
    nodes: list[dict[str, Any]] = []
    for _ in range(dice.randint(1, 3)):
        _add_node(dice, nodes, None, step, dice.randint(0, 3))
    value: dict[str, Any] = {
        "step": step,
        "percent": dice.choice([1, 5, 10, 33, 50]),
        "stages": [dice.choice([50, 80, 95, 100]) for _ in range(dice.randint(1, 4))],
        "nodes": nodes,
        "bidders": [{"name": f"b{place}", "units": dice.randint(1, 60)} for place in range(dice.randint(1, 4))],
    }
    if dice.random() < 0.6:
        value["waivers"] = dice.randint(0, 3)
    return json.dumps(value, separators=(",", ":")).encode()


def _add_node(dice: random.Random, nodes: list[dict[str, Any]], parent: str | None, step: int, depth: int) -> None:
    node: dict[str, Any] = {"name": f"n{len(nodes)}", "parent": parent}
    nodes.append(node)
    if depth == 0:
        node.update(units=dice.randint(1, 20), opening=step * dice.randint(1, 40))
        return
    for _ in range(dice.randint(2, 3)):
        _add_node(dice, nodes, node["name"], step, dice.choice([0, 0, depth - 1]))


def command_of(dice: random.Random, auction: Auction) -> Command:
    """A command that is often accepted. Mostly it has the next ticket."""
    definition = auction.tree.definition
    ticket_shift = dice.choice([0] * 12 + [-1, -2, 1])
    kind = dice.random()
    if kind < 0.14:
        return Close(_next(auction, None, ticket_shift))
    if kind < 0.18:
        return Stage(_next(auction, None, ticket_shift))
    bidder = dice.choice(definition.bidders).name
    ticket = _next(auction, bidder, ticket_shift)
    if kind < 0.26:
        return Waive(bidder, ticket)
    node = dice.choice(definition.nodes).name
    amount = auction.standing.minima[node] + definition.step * dice.choice([0, 0, 1, 5, 40, -1]) + dice.choice([0] * 9 + [1])
    return Bid(bidder, node, max(0, amount), ticket)


def _next(auction: Auction, bidder: str | None, shift: int) -> int:
    last = auction.auctioneer if bidder is None else auction.bidders[bidder].last
    return max(0, (last.command.ticket if last else 0) + 1 + shift)


def auction_of(seed: int, commands: int = 60) -> tuple[bytes, list[Command], Auction]:
    """A definition, commands of which some are refused, and the auction after them by the package's rules."""
    dice = random.Random(seed)
    text = definition_of(dice)
    auction, told = begin(read_definition(text)), []
    for _ in range(commands):
        command = command_of(dice, auction)
        auction, _ = apply(auction, command)
        told.append(command)
    return text, told, auction


def questions_of(definition: Definition) -> list[str]:
    """SHOW, NODE for each node and WHO for each bidder."""
    return ["SHOW", *(f"NODE {node.name}" for node in definition.nodes), *(f"WHO {bidder.name}" for bidder in definition.bidders)]


def lines_of(commands: list[Command]) -> list[str]:
    """The lines of commands."""
    return [format_line(command) for command in commands]
