"""The slots of an auction's file: checkpoints, each a whole auction (docs/FORMATS.md, the two formats of states)."""
import struct
from dataclasses import dataclass
from typing import Final

from hpb.file.frames import NoRecord, read_record
from hpb.file.layout import PAGE, SLOT_BODY, SLOTS, gate_is_open
from hpb.limits import MOST_BID, MOST_COMMANDS
from hpb.lines import Bid, Close, Command, Stage
from hpb.refusals import NoCheckpoint
from hpb.rules.auction import Auction, BidderState, HighBid, LastCommand
from hpb.rules.definition import Definition
from hpb.rules.standing import standing_of
from hpb.rules.tree import Tree, tree_of

FRONT: Final = struct.Struct(">4BII4sQII16s")
NODE: Final = struct.Struct(">QQBB6s")
BIDDER: Final = struct.Struct(">III2B2s16s16s")
NODES_AT, BIDDERS_AT, END_AT = 48, 3096, 6168
FIRST_FORMAT, WAIVERS_FORMAT = 1, 2


class NoState(ValueError):
    """These bytes aren't the state of an auction under the definition."""


@dataclass(frozen=True, slots=True)
class Checkpoint:
    """An auction as a slot keeps it, the number of batches that it covers, and the format of the state, 1 or 2."""

    auction: Auction
    batches: int
    state_format: int


def read_newest(image: bytes, definition: Definition) -> Checkpoint:
    """Of the slots that hold a state, the one that covers more batches; if both cover as many, the first. If neither does, refused
    by `NoCheckpoint` (44).
    """
    found, faults = read_slots(image, definition)
    if not found:
        raise NoCheckpoint("; ".join(faults))
    return max(found, key=lambda checkpoint: checkpoint.batches)


def read_slots(image: bytes, definition: Definition) -> tuple[list[Checkpoint], list[str]]:
    """The states of both slots, and for each slot that holds none the reason."""
    found, faults = [], []
    for number, at in enumerate(SLOTS, 1):
        if not gate_is_open(image, at):
            faults.append(f"slot {number} is closed")
            continue
        try:
            found.append(read_state(image[at + PAGE : at + PAGE + SLOT_BODY], definition))
        except NoState as fault:
            faults.append(f"slot {number}: {fault}")
    return found, faults


def read_state(body: bytes, definition: Definition) -> Checkpoint:
    """The auction in a slot's body of 16,384 bytes, in either format. If the bytes hold none, `NoState` is raised."""
    form, stage, over, spare, round_, count, zero, batches, ticket, number, record = FRONT.unpack_from(body)
    _look(form == WAIVERS_FORMAT or (form == FIRST_FORMAT and not definition.waivers), f"its format is {form}")
    _look(1 <= stage <= len(definition.stages) and over <= 1 and not spare and not any(zero), "its front isn't of its format")
    _look(count <= MOST_COMMANDS and 1 <= round_ <= count + 1 and batches <= count, "its round, count or batches are out of range")
    _look(not any(body[END_AT:]), "what stands behind its bidders isn't zero")
    tree = tree_of(definition)
    high, incoming = _read_bids(body[NODES_AT:BIDDERS_AT], tree)
    auctioneer = _read_last(definition, ticket, number, record, count)
    _look(auctioneer is None or isinstance(auctioneer.command, Close | Stage), "the auctioneer's last command isn't its own")
    bidders = _read_bidders(body[BIDDERS_AT:END_AT], definition, count, form)
    _look_at_bid_on(bidders, incoming, bool(over))
    found = standing_of(tree, {name: bid.amount for name, bid in high.items()})
    auction = Auction(tree, bidders, high, incoming, found, round_, stage, bool(over), count, auctioneer)
    return Checkpoint(auction, batches, form)


def _look(is_right: bool, fault: str) -> None:
    if not is_right:
        raise NoState(fault)


def _read_bids(part: bytes, tree: Tree) -> tuple[dict[str, HighBid], dict[str, HighBid]]:
    """The high bids of closed rounds and of the open one."""
    entries = list(NODE.iter_unpack(part))
    _look(not any(part[len(tree.nodes) * NODE.size :]), "what stands behind its nodes isn't zero")
    high: dict[str, HighBid] = {}
    incoming: dict[str, HighBid] = {}
    for name, (first, second, bidder, other, zero) in zip(tree.nodes, entries):
        _look(not any(zero), f"{name} has a byte that isn't of its format")
        for amount, place, bids in ((first, bidder, high), (second, other, incoming)):
            if amount:
                bids[name] = _read_bid(tree, name, amount, place)
            else:
                _look(place == 0, f"{name} has a bidder and no bid")
    return high, incoming


def _read_bid(tree: Tree, name: str, amount: int, place: int) -> HighBid:
    definition = tree.definition
    _look(amount % definition.step == 0 and tree.opening[name] <= amount <= MOST_BID, f"{name} has a bid of {amount}")
    _look(place < len(definition.bidders), f"{name} has a bid of no bidder")
    return HighBid(amount, definition.bidders[place].name)


def _read_last(definition: Definition, ticket: int, number: int, record: bytes, count: int) -> LastCommand | None:
    if ticket == 0:
        _look(number == 0 and not any(record), "a last command has no ticket")
        return None
    try:
        command: Command = read_record(definition, record)
    except NoRecord as fault:
        raise NoState(str(fault)) from None
    _look(command.ticket == ticket and ticket <= count and 1 <= number <= count, "a last command's ticket or number is out of range")
    return LastCommand(command, number)


def _read_bidders(part: bytes, definition: Definition, count: int, form: int) -> dict[str, BidderState]:
    _look(not any(part[len(definition.bidders) * BIDDER.size :]), "what stands behind its bidders isn't zero")
    bidders = {}
    for bidder, fields in zip(definition.bidders, BIDDER.iter_unpack(part)):
        eligibility, ticket, number, waivers, waived, zero, record, bits = fields
        _look(not any(zero) and waived <= 1 and eligibility <= bidder.units, f"{bidder.name} has a byte that isn't of its format")
        _look(waivers + waived <= definition.waivers, f"{bidder.name} has {waivers} waivers")
        last = _read_last(definition, ticket, number, record, count)
        if last:
            is_own = not isinstance(last.command, Close | Stage) and last.command.bidder == bidder.name
            _look(is_own and (form == WAIVERS_FORMAT or isinstance(last.command, Bid)), f"the last command of {bidder.name} isn't its own")
        bid_on = _read_nodes(definition, int.from_bytes(bits, "big"))
        bidders[bidder.name] = BidderState(eligibility, waivers, bool(waived), bid_on, last)
    return bidders


def _read_nodes(definition: Definition, bits: int) -> frozenset[str]:
    _look(bits >> len(definition.nodes) == 0, "a bit names no node of the definition")
    return frozenset(node.name for place, node in enumerate(definition.nodes) if bits >> place & 1)


def _look_at_bid_on(bidders: dict[str, BidderState], incoming: dict[str, HighBid], is_over: bool) -> None:
    for state in bidders.values():
        _look(state.bid_on <= incoming.keys(), "a bidder bid on a node that has no bid of the open round")
        _look(not (is_over and state.has_waived), "a bidder waived in an auction that is over")
    _look(not (is_over and incoming), "an auction that is over has a bid of the open round")
