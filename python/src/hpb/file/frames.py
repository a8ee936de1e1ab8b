"""The frames of an auction's journal. Each holds a batch: commands that were accepted together (docs/FORMATS.md)."""
import struct
from collections.abc import Iterator
from dataclasses import dataclass
from typing import Final

from hpb.file.head import Head
from hpb.file.layout import BODY, CELL, Layout, gate_is_open
from hpb.lines import Bid, Close, Command, Stage, Waive
from hpb.refusals import BadFrame
from hpb.rules.definition import Definition

RECORD: Final = struct.Struct(">4BIQ")
_BATCH: Final = struct.Struct(">QQH6s")
_NEXT_CELL: Final = struct.Struct(">QB7s")
_MOST_RECORDS: Final = 64
_BID, _CLOSE, _STAGE, _WAIVE = 1, 2, 3, 4


class NoRecord(ValueError):
    """These bytes aren't the record of a command under the definition."""


@dataclass(frozen=True, slots=True)
class Batch:
    """Commands that were accepted together, with the batch's index from 0 and the number of its first command from 1."""

    index: int
    first: int
    commands: tuple[Command, ...]


def read_record(definition: Definition, record: bytes) -> Command:
    """The command in a record of 16 bytes. If it holds none, `NoRecord` is raised. Whether the command is accepted isn't checked here."""
    kind, bidder, node, zero, ticket, amount = RECORD.unpack(record)
    is_bid, has_bidder = kind == _BID, kind in (_BID, _WAIVE)
    if zero or not ticket or (not is_bid and (node or amount)) or (not has_bidder and bidder):
        raise NoRecord(f"a record has a byte that isn't of its format: {record.hex()}")
    if bidder >= len(definition.bidders) or node >= len(definition.nodes):
        raise NoRecord(f"a record names no bidder or no node of the definition: {record.hex()}")
    name = definition.bidders[bidder].name
    match kind:
        case 1:
            return Bid(name, definition.nodes[node].name, amount, ticket)
        case 2:
            return Close(ticket)
        case 3:
            return Stage(ticket)
        case 4:
            return Waive(name, ticket)
    raise NoRecord(f"a record is of kind {kind}")


def write_record(definition: Definition, command: Command) -> bytes:
    """The record of a command. Its bidder and its node have to be the definition's."""
    bidders, nodes = [bidder.name for bidder in definition.bidders], [node.name for node in definition.nodes]
    match command:
        case Bid(bidder, node, amount, ticket):
            return RECORD.pack(_BID, bidders.index(bidder), nodes.index(node), 0, ticket, amount)
        case Close(ticket):
            return RECORD.pack(_CLOSE, 0, 0, 0, ticket, 0)
        case Stage(ticket):
            return RECORD.pack(_STAGE, 0, 0, 0, ticket, 0)
        case Waive(bidder, ticket):
            return RECORD.pack(_WAIVE, bidders.index(bidder), 0, 0, ticket, 0)


def index_in(image: bytes, head: Head, batch: int) -> int | None:
    """The index in the frame of a batch, or None if the frame's gate is closed."""
    at = head.layout.frame_at(head.frames, batch)
    return int.from_bytes(image[at + BODY : at + BODY + 8], "big") if gate_is_open(image, at) else None


def read_batch(image: bytes, head: Head, batch: int) -> Batch:
    """The batch in its frame. The frame's gate has to be open, and its index that of the batch. Else refused by `BadFrame` (45)."""
    at = head.layout.frame_at(head.frames, batch)
    index, first, count, zero = _BATCH.unpack_from(image, at + BODY)
    if not 1 <= count <= _MOST_RECORDS or any(zero):
        raise BadFrame(f"batch {batch}: its head isn't of its format")
    try:
        read = _in_a_page if head.layout is Layout.PAGES else _in_cells
        commands = tuple(read_record(head.definition, record) for record in read(image[at : at + head.layout.frame], index, count))
    except NoRecord as fault:
        raise BadFrame(f"batch {batch}: {fault}") from None
    return Batch(index, first, commands)


def _in_a_page(frame: bytes, index: int, count: int) -> Iterator[bytes]:
    start = BODY + _BATCH.size
    return _records(frame[start:], count)


def _in_cells(frame: bytes, index: int, count: int) -> Iterator[bytes]:
    """Records in cells: 29 in the first, 31 in each further one. The bytes of unused cells don't matter."""
    room = (CELL - BODY - _BATCH.size) // RECORD.size
    yield from _records(frame[BODY + _BATCH.size : CELL], min(count, room))
    left, cell = count - room, 1
    while left > 0:
        front = _NEXT_CELL.unpack_from(frame, cell * CELL)
        if front != (index, cell, bytes(7)):
            raise NoRecord(f"cell {cell} isn't of its format")
        room = (CELL - _NEXT_CELL.size) // RECORD.size
        yield from _records(frame[cell * CELL + _NEXT_CELL.size : (cell + 1) * CELL], min(left, room))
        left, cell = left - room, cell + 1


def _records(part: bytes, count: int) -> Iterator[bytes]:
    """The first `count` records of a part. The rest of the part has to be zero."""
    end = count * RECORD.size
    if any(part[end:]):
        raise NoRecord("what stands behind the last record isn't zero")
    return (part[place : place + RECORD.size] for place in range(0, end, RECORD.size))
