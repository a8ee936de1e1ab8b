"""The bytes of an auction, as a slot of a file has them (docs/FORMATS.md, a state). No file is written here: seals have the SHA-256 of a state."""
from typing import Final

from hpb.file.frames import RECORD, write_record
from hpb.file.layout import SLOT_BODY
from hpb.file.slots import BIDDER, BIDDERS_AT, FRONT, NODE, NODES_AT, WAIVERS_FORMAT
from hpb.rules.auction import Auction, HighBid, LastCommand

_NONE: Final = HighBid(0, "")


def state_of(auction: Auction) -> bytes:
    """The state of an auction: 16,384 bytes in format 2, with the batch index 0. So it depends on the accepted commands alone, and not on how a
    file has them in batches."""
    front = FRONT.pack(
        WAIVERS_FORMAT, auction.stage, auction.is_over, 0, auction.round, auction.count, bytes(4), 0, *_last(auction, auction.auctioneer),
    )
    return front + _nodes(auction).ljust(BIDDERS_AT - NODES_AT, b"\0") + _bidders(auction).ljust(SLOT_BODY - BIDDERS_AT, b"\0")


def _last(auction: Auction, last: LastCommand | None) -> tuple[int, int, bytes]:
    """The ticket, the number and the record of a sender's last command."""
    return (last.command.ticket, last.number, write_record(auction.tree.definition, last.command)) if last else (0, 0, bytes(RECORD.size))


def _nodes(auction: Auction) -> bytes:
    places = {"": 0, **{bidder: place for place, bidder in enumerate(auction.tree.bidders)}}
    parts = []
    for name in auction.tree.nodes:
        high, incoming = auction.high.get(name, _NONE), auction.incoming.get(name, _NONE)
        parts.append(NODE.pack(high.amount, incoming.amount, places[high.bidder], places[incoming.bidder], bytes(6)))
    return b"".join(parts)


def _bidders(auction: Auction) -> bytes:
    parts = []
    for bidder in auction.tree.bidders:
        state = auction.bidders[bidder]
        ticket, number, record = _last(auction, state.last)
        bits = sum(1 << place for place, node in enumerate(auction.tree.nodes) if node in state.bid_on)
        parts.append(BIDDER.pack(state.eligibility, ticket, number, state.waivers, state.has_waived, bytes(2), record, bits.to_bytes(16, "big")))
    return b"".join(parts)
