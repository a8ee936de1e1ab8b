"""Bytes of a state, each changed alone: whether they are still one, and which of two states is taken. By docs/FORMATS.md alone."""

from __future__ import annotations

from pathlib import Path

import pytest

from harness.auctions import FIRST_ROUND, PAGE, Layout
from harness.programs import Program
from outside.encoder import SLOTS, Auction, Image
from outside.jobs import first_shown

NO_CHECKPOINT = "ERR 44 checkpoint"
# Bytes of a state's body by their offsets.
Parts = dict[int, bytes]
# Changes of the state after the first round. In it x bid 100 on a, y 150 on b, z 500 on all and w 100 on c, and the round was
# closed. By each condition, those that keep it beside those that break it.
KEPT: dict[str, list[Parts]] = {
    "nothing": [{}],
    "the format is 1 or 2": [{0: b"\1"}],
    "the stage is 1 or 2, and the flag 0 or 1": [{1: b"\2"}, {2: b"\1"}],
    "the round is from 1 to 6": [{7: b"\6"}],
    "the count is at most 1,000,000": [{8: b"\x00\x0f\x42\x40"}],
    "the batch index is at most the count": [{23: b"\0"}, {23: b"\5"}],
    "the auctioneer's ticket is that of the record, or all is zero": [{24: bytes(24)}, {27: b"\5", 39: b"\5"}],
    "the auctioneer's number is from 1 to 5": [{31: b"\1"}],
    "the auctioneer's record is a close or a stage": [{32: b"\3"}],
    "an amount is a multiple of 10, from 100 on a and 300 on all": [{103: b"\x6e"}, {54: b"\x01\x2c"}, {96: b"\0\0\0\xe8\xd4\xa5\x10\0"}],
    "the bidder of an amount is one of four": [{112: b"\3"}, {103: b"\0"}, {111: b"\x64", 113: b"\3"}],
    "the eligibility is at most the units": [{3099: b"\0"}],
    "a bidder's last command is its bid, or all is zero": [{3100: bytes(28)}, {3103: b"\5", 3119: b"\5"}, {3107: b"\5"}, {3114: b"\5"}],
    "a bit names a node that has an incoming bid": [{111: b"\x64", 3143: b"\4"}],
    "there is an incoming bid, and the auction isn't over": [{111: b"\x64"}],
}
BROKEN: dict[str, list[Parts]] = {
    "the format is 1 or 2": [{0: b"\0"}, {0: b"\3"}],
    "the stage is 1 or 2, and the flag 0 or 1": [{1: b"\0"}, {1: b"\3"}, {2: b"\2"}],
    "the round is from 1 to 6": [{7: b"\0"}, {7: b"\7"}],
    "the count is at most 1,000,000, and no number is above it": [{8: b"\x00\x0f\x42\x41"}, {11: b"\4"}],
    "the batch index is at most the count": [{23: b"\6"}, {16: b"\xff" * 8}],
    "the auctioneer's ticket is that of the record, from 1 to 5": [
        {27: b"\0"}, {27: b"\0", 31: b"\0"}, {27: b"\0", 32: bytes(16)}, {27: b"\6", 39: b"\6"}, {27: b"\2"}, {39: b"\2"},
    ],
    "the auctioneer's number is from 1 to 5": [{31: b"\0"}, {31: b"\6"}],
    "the auctioneer's record is a close or a stage": [{32: b"\4"}, {32: bytes.fromhex("01000200000000010000000000000064")}, {35: b"\1"}],
    "the entries behind those of the definition are empty": [{199: b"\x64"}, {208: b"\1"}, {3291: b"\1"}],
    "an amount is a multiple of 10, from 100 on a and 300 on all": [
        {103: b"\x69"}, {103: b"\x5a"}, {54: b"\x01\x22"}, {96: b"\0\0\0\xe8\xd4\xa5\x10\x0a"},
    ],
    "the bidder of an amount is one of four, and 0 without an amount": [
        {112: b"\4"}, {103: b"\0", 112: b"\1"}, {111: b"\x64", 113: b"\4"}, {113: b"\1"},
    ],
    "the eligibility is at most the units": [{3099: b"\x0b"}],
    "a bidder's ticket is that of its record, from 1 to 5": [{3103: b"\0"}, {3103: b"\6", 3119: b"\6"}],
    "a bidder's number is from 1 to 5": [{3107: b"\0"}, {3107: b"\6"}],
    "a bidder's last command is its bid, on one of six nodes": [
        {3112: bytes.fromhex("02000000000000010000000000000000")}, {3113: b"\1"}, {3114: b"\6"},
    ],
    "a bit names a node that has an incoming bid": [{3143: b"\4"}, {3143: b"\x40"}, {3128: b"\x80"}],
    "an auction that is over has no incoming bid": [{2: b"\1", 111: b"\x64"}],
    "a last byte that is zero": [{16_383: b"\1"}],
}


def after_first_round() -> bytes:
    """The state after the first round, which one batch had."""
    auction = Auction()
    for line in FIRST_ROUND:
        auction.take(line)
    return auction.state(1)


def with_parts(body: bytes, parts: Parts) -> bytes:
    """These bytes with others at some offsets."""
    changed = bytearray(body)
    for at, part in parts.items():
        changed[at : at + len(part)] = part
    return bytes(changed)


def is_state(program: Program, room: Path, layout: Layout, parts: Parts) -> bool:
    """Whether a file opens whose only state is that after the first round, with these parts."""
    image = Image(layout, layout.least_journal)
    image.put_state(0, with_parts(after_first_round(), parts))
    (room / "F").write_bytes(image.bytes)
    shown = first_shown(program, room / "F")
    assert shown == NO_CHECKPOINT or shown.startswith("ROUND "), shown
    return shown != NO_CHECKPOINT


@pytest.mark.parametrize("condition", KEPT)
def test_a_state_that_keeps_a_condition_is_read(program: Program, room: Path, layout: Layout, condition: str) -> None:
    for parts in KEPT[condition]:
        assert is_state(program, room, layout, parts), parts


@pytest.mark.parametrize("condition", BROKEN)
def test_a_state_that_breaks_a_condition_is_none(program: Program, room: Path, layout: Layout, condition: str) -> None:
    for parts in BROKEN[condition]:
        assert not is_state(program, room, layout, parts), parts


def quiet(count: int, batches: int) -> bytes:
    """A state without a bid that has so many commands: states differ by that."""
    auction = Auction()
    auction.count = count
    return auction.state(batches)


def count_of(program: Program, room: Path, first: bytes, second: bytes, parts: Parts) -> str:
    """The count that is shown of a file with these states in its slots, and then with these bytes; or the refusal."""
    image = Image(Layout.PAGES, Layout.PAGES.least_journal)
    for slot, body in enumerate((first, second)):
        image.put_state(slot, body)
    (room / "F").write_bytes(with_parts(image.bytes, parts))
    return first_shown(program, room / "F").rpartition("COUNT ")[2]


@pytest.mark.parametrize(("index", "wanted"), [(3, "20"), (4, "10"), (5, "10")])
def test_the_state_with_the_greater_index_is_taken(program: Program, room: Path, index: int, wanted: str) -> None:
    """The second has the index 4. Of two with the same index the first is taken."""
    assert count_of(program, room, quiet(10, index), quiet(20, 4), {}) == wanted


BODY = SLOTS[0] + PAGE
# Damages of the first slot, which is the newer one. Its gate is neither open nor 0; its format is unknown; x has one unit more than it
# began with; its last byte isn't zero.
DAMAGES: list[Parts] = [{SLOTS[0]: b"\xa4"}, {BODY: b"\3"}, {BODY + 3099: b"\x0b"}, {BODY + 16_383: b"\1"}]


@pytest.mark.parametrize("damage", DAMAGES, ids=["gate", "format", "units", "last byte"])
def test_a_damaged_state_is_passed_over(program: Program, room: Path, damage: Parts) -> None:
    """Once the gate of the other one is closed too, there is none."""
    first, second = quiet(10, 5), quiet(20, 4)
    assert count_of(program, room, first, second, {}) == "10"
    assert count_of(program, room, first, second, damage) == "20"
    assert count_of(program, room, first, second, {**damage, SLOTS[1]: b"\0"}) == NO_CHECKPOINT
