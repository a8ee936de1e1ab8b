"""Reads a whole auction's file, as `hpb` opens it, and never writes it (docs/DEVICE.md, how a device is opened)."""
from collections.abc import Iterator
from dataclasses import dataclass

from hpb.file.frames import Batch, index_in, read_batch
from hpb.file.head import Head, read_head
from hpb.file.slots import Checkpoint, read_newest, read_slots
from hpb.lines import Accepted
from hpb.refusals import BadFrame
from hpb.rules.auction import Auction, apply


@dataclass(frozen=True, slots=True)
class AuctionFile:
    """The contents of a file: its head, its newest checkpoint, the batches after that, and the auction after all of them."""

    head: Head
    checkpoint: Checkpoint
    batches: tuple[Batch, ...]
    auction: Auction


def read_auction(image: bytes) -> AuctionFile:
    """The contents of a file, from all its bytes. Refused as `hpb` refuses them: by `Unformatted` (40), `BadHead` (42),
    `NoCheckpoint` (44) or `BadFrame` (45).

    Use a copy that was made while nothing wrote to the file. Otherwise a batch that was just being written may give `BadFrame`.
    """
    head = read_head(image)
    checkpoint = read_newest(image, head.definition)
    auction, batches = checkpoint.auction, list[Batch]()
    index = checkpoint.batches
    while len(batches) < head.frames and index_in(image, head, index) == index:
        batch = read_batch(image, head, index)
        auction = _taken(auction, batch)
        batches.append(batch)
        index += 1
    for behind in range(index, checkpoint.batches + head.frames):
        if index_in(image, head, behind) == behind:
            raise BadFrame(f"batch {behind} stands behind a gap")
    return AuctionFile(head, checkpoint, tuple(batches), auction)


def auctions_in(image: bytes) -> Iterator[Auction]:
    """Each auction that a file still shows: those of both slots, and those after each later command up to the first batch that isn't there any more.

    An auction may come twice. The newest one is that of `read_auction`. The head is refused as there.
    """
    head = read_head(image)
    for checkpoint in read_slots(image, head.definition)[0]:
        auction = checkpoint.auction
        yield auction
        for index in range(checkpoint.batches, checkpoint.batches + head.frames):
            if index_in(image, head, index) != index:
                break
            try:
                for auction in _after_each(auction, read_batch(image, head, index)):
                    yield auction
            except BadFrame:
                break


def _taken(auction: Auction, batch: Batch) -> Auction:
    *_, auction = _after_each(auction, batch)
    return auction


def _after_each(auction: Auction, batch: Batch) -> Iterator[Auction]:
    """The auction after each command of a batch, which has at least one."""
    if batch.first != auction.count + 1:
        raise BadFrame(f"batch {batch.index}: its first command is number {batch.first}, behind {auction.count}")
    for command in batch.commands:
        before = auction.count
        auction, answered = apply(auction, command)
        if answered != Accepted(before + 1):
            raise BadFrame(f"batch {batch.index}: {command} isn't newly accepted")
        yield auction
