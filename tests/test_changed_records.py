"""Records that are changed in each way: both checkers find it, and name it with its entry. Nothing that a seal binds is changed unseen."""

from __future__ import annotations

import functools
import json
import random
import re
import tempfile
from collections.abc import Callable, Iterator, Sequence
from pathlib import Path
from typing import Any

import pytest
from checkers import by_both, lay_out
from harness.programs import Program
from sealed_days import DAY, Writer, at, entry_of, file_of, rewritten, text_of

from hpb.lines import Accepted
from hpb.record import Entry
from hpb.rules import Auction, answer, begin, read_definition
from hpb.seals.signing import Signer, make_key

OTHER_DAY = ["BID x 1 a 100", "BID y 1 all 240", "CLOSE 1", "BID x 2 b 200", "CLOSE 2"]
SHORT_DAY = ["BID y 1 all 220", "CLOSE 1", "BID y 2 all 250", "CLOSE 2"]
DICE, MORE_DICE = 60, 2_000
END = b"\n"
Lines = list[str]


class Sealed:
    """A record of two rounds with the key and the file, and others of the same key."""

    def __init__(self, program: Path, folder: Path) -> None:
        self.program, self.folder, self.count = program, folder, 0
        self.signer: Signer = make_key(str(folder / "key"))
        self.day = self.written(DAY)
        self.lines = self.day.lines
        self.entries = [entry_of(line) for line in self.lines]
        self.seals = [entry["entry"] for entry in self.entries if entry["kind"] == "seal"]
        self.files: dict[str, str | bytes] = {
            "auction.hpb": file_of(program, folder, DAY), "key.txt": self.signer.public + "\n", "definition.json": text_of(self.day_definition),
        }

    @property
    def day_definition(self) -> object:
        return self.entries[0]["definition"]

    def written(self, lines: Sequence[str]) -> Writer:
        self.count += 1
        return Writer(self.folder / f"record-{self.count}", self.signer).day(lines)

    def found(self, *records: Sequence[str], **files: str | bytes) -> list[list[str]]:
        """The findings on each of these records, by both checkers."""
        with tempfile.TemporaryDirectory(dir="/dev/shm") as room:
            folders = [Path(room) / str(number) for number in range(len(records))]
            for folder, lines in zip(folders, records):
                lay_out(folder, [lines], {**self.files, **{name.replace("__", "/").replace("_", "."): data for name, data in files.items()}})
            return by_both(folders)


@functools.cache
def made(program: Path) -> Sealed:
    return Sealed(program, Path(tempfile.mkdtemp(dir="/dev/shm")))


@pytest.fixture
def sealed(program: Program) -> Iterator[Sealed]:
    yield made(Path(program.path))


# Each entry.

WAYS: dict[str, Callable[[Lines, int, int], tuple[Lines, str]]] = {
    "changed": lambda lines, place, _: ([*lines[:place], lines[place].replace("2026", "2027"), *lines[place + 1 :]], f"changed {place + 1}"),
    "left out": lambda lines, place, last: ([*lines[:place], *lines[place + 1 :]], f"order {place + 1}" if place < last else f"cut {place + 1}"),
    "doubled": lambda lines, place, _: ([*lines[: place + 1], *lines[place:]], f"order {place + 2}"),
    "moved": lambda lines, place, _: ([*lines[:place], *lines[place + 1 :], lines[place]], f"order {place + 1}"),
}


@pytest.mark.parametrize("way", WAYS)
def test_each_entry_that_is_changed_left_out_doubled_or_moved_is_named(sealed: Sealed, way: str) -> None:
    last = len(sealed.lines) - 1
    pairs = [WAYS[way](sealed.lines, place, last) for place in range(last + (way != "moved"))]
    for (_, wanted), found in zip(pairs, sealed.found(*(lines for lines, _ in pairs)), strict=True):
        assert found == [wanted]


def test_each_pair_of_entries_that_change_places_is_named(sealed: Sealed) -> None:
    records, wanted = [], []
    for one in range(len(sealed.lines)):
        for other in range(one + 1, len(sealed.lines)):
            lines = list(sealed.lines)
            lines[one], lines[other] = lines[other], lines[one]
            records.append(lines)
            wanted.append([f"order {one + 1}"])
    assert sealed.found(*records) == wanted


def others_of(value: Any) -> Any:
    """Another value of the same kind."""
    if isinstance(value, str):
        return value[:-1] + ("1" if value.endswith("0") else "0")
    if isinstance(value, int):
        return value + 1
    return [others_of(value[0]), *value[1:]] if isinstance(value, list) and value else {**value, "eve": ["x"]} if isinstance(value, dict) else ["eve"]


def test_each_field_of_each_entry_that_is_changed_with_new_hashes_from_there_on_is_found(sealed: Sealed) -> None:
    """By each seal behind it, and by its own seal if it is one."""
    records, wanted = [], []
    for number, entry in enumerate(sealed.entries, 1):
        for name in entry.keys() - {"entry", "before", "kind"}:
            entries = [dict(one) for one in sealed.entries]
            entries[number - 1][name] = others_of(entry[name])
            records.append(rewritten(entries))
            wanted.append((number, name))
    for (number, name), found in zip(wanted, sealed.found(*records), strict=True):
        if (number, name) == (len(sealed.lines), "synced"):
            # No seal binds this one field of the last one's entry: how much was on the disk when it was written.
            assert found == []
            continue
        behind = {f"{'other' if number == 1 else 'seal'} {seal}" for seal in sealed.seals if seal > number}
        own = {f"{word} {number}" for word in ("seal", "key", "signature", "answers", "state")} if number in sealed.seals else set()
        rest = {"file 0", "definition 1", "segment 0", "unsealed 0", f"cut {len(sealed.lines) + 1}"}
        assert behind <= set(found) <= behind | own | rest and (behind or own & set(found) or "cut" in str(found)), (number, name, found)


def test_each_entry_that_is_left_out_with_new_numbers_and_hashes_is_found(sealed: Sealed) -> None:
    """By each seal behind it. If a seal itself is left out, by the next one."""
    count = len(sealed.entries)
    records = [rewritten([*sealed.entries[:place], *sealed.entries[place + 1 :]]) for place in range(1, count)]
    for number, found in enumerate(sealed.found(*records), 2):
        behind = {f"seal {seal - 1}" for seal in sealed.seals if seal > number}
        assert behind <= set(found) and (behind or found == [f"cut {count}"]), (number, found)


def test_each_end_that_is_cut_off_is_found(sealed: Sealed) -> None:
    """At each entry, and within one."""
    records = [sealed.lines[:count] for count in range(1, len(sealed.lines))]
    for count, found in enumerate(sealed.found(*records), 1):
        close = at(sealed.entries, "accepted", 2), at(sealed.entries, "accepted", 4)
        wanted = {f"cut {count + 1}"} | ({"file 0"} if count < close[1] else set())
        wanted |= {f"unsealed {count}"} if count in close else {"unsealed 0"} if count < sealed.seals[0] else set()
        assert set(found) == wanted, (count, found)


# By dice.


def thrown(dice: random.Random, sealed: Sealed, other: Lines) -> bytes:
    """A record with one to four edits: entries left out, doubled, moved, changed by a byte, or taken from another record."""
    lines = list(sealed.lines)
    for _ in range(dice.randint(1, 4)):
        one, two = dice.randrange(len(lines)), dice.randrange(len(lines))
        match dice.randrange(6):
            case 0 if len(lines) > 1:
                del lines[one]
            case 1:
                lines.insert(two, lines[one])
            case 2:
                lines.insert(two, lines.pop(one))
            case 3:
                place = dice.randrange(len(lines[one]))
                lines[one] = lines[one][:place] + chr(dice.randrange(256)) + lines[one][place + 1 :]
            case 4:
                lines[one] = dice.choice(other)
            case 5:
                lines = with_new_hashes(dice, lines)
    data = "".join(f"{line}\n" for line in lines).encode("latin-1")
    return data[: -dice.randint(1, 40)] if dice.random() < 0.1 else data


def with_new_hashes(dice: random.Random, lines: Lines) -> Lines:
    """The same entries, with right numbers and hashes, if they still are entries."""
    try:
        entries: list[Entry] = [entry_of(line) for line in lines]
        return rewritten([{**entry, "at": str(entry["at"]), "kind": str(entry["kind"])} for entry in entries])
    except (ValueError, KeyError, TypeError):
        return lines


def bound(record: bytes) -> bytes:
    """The bytes that the last seal binds: all but what its own entry says of the disk, and its hash."""
    before, last = record[:-1].rsplit(END, 1) if record.count(END) > 1 else (b"", record)
    return before + re.sub(rb'"synced":[0-9]+', b"", last[65:])


def look_at_dice(sealed: Sealed, seeds: range) -> None:
    other = sealed.written(OTHER_DAY).lines
    records = [thrown(random.Random(seed), sealed, other) for seed in seeds]
    right = bound("".join(f"{line}\n" for line in sealed.lines).encode())
    with tempfile.TemporaryDirectory(dir="/dev/shm") as room:
        folders = [Path(room) / str(seed) for seed in seeds]
        for folder, record in zip(folders, records):
            lay_out(folder, [], {**sealed.files, "auction.record": record})
        for seed, record, found in zip(seeds, records, by_both(folders), strict=True):
            assert bool(found) == (bound(record) != right), (seed, found)


def test_no_edit_by_dice_goes_unseen(sealed: Sealed) -> None:
    look_at_dice(sealed, range(DICE))


@pytest.mark.slow
@pytest.mark.timeout(1_800)
@pytest.mark.parametrize("part", range(4))
def test_no_edit_of_many_by_dice_goes_unseen(sealed: Sealed, part: int) -> None:
    look_at_dice(sealed, range(DICE + part * MORE_DICE // 4, DICE + (part + 1) * MORE_DICE // 4))


def test_each_byte_by_dice_that_is_another_is_named_with_its_entry(sealed: Sealed) -> None:
    dice, data = random.Random(1), "".join(f"{line}\n" for line in sealed.lines).encode()
    places = [*dice.sample(range(len(data)), DICE), len(data) - 1]
    with tempfile.TemporaryDirectory(dir="/dev/shm") as room:
        folders = [Path(room) / str(place) for place in places]
        for folder, place in zip(folders, places):
            lay_out(folder, [], {**sealed.files, "auction.record": data[:place] + bytes([data[place] ^ 1]) + data[place + 1 :]})
        for place, found in zip(places, by_both(folders), strict=True):
            entry = 1 + data.count(END, 0, place)
            assert found == [f"cut {entry}" if place == len(data) - 1 else f"changed {entry}"], place


# Other things than the record's own.


def test_another_file_is_named(sealed: Sealed) -> None:
    states = [f"state {seal}" for seal in sealed.seals[:2]]
    (found,) = sealed.found(sealed.lines, auction_hpb=file_of(sealed.program, sealed.folder, OTHER_DAY))
    assert found == sorted(["file 0", *states])
    # The state of the first close is right in a file that went on otherwise behind it.
    (found,) = sealed.found(sealed.lines, auction_hpb=file_of(sealed.program, sealed.folder, [*DAY[:3], "BID x 2 b 210", "CLOSE 2"]))
    assert found == sorted(["file 0", states[1]])


def test_another_definition_is_named(sealed: Sealed) -> None:
    assert isinstance(sealed.day_definition, dict)
    (found,) = sealed.found(sealed.lines, definition_json=text_of({**sealed.day_definition, "percent": 20}))
    assert found == ["definition 1"]


def test_a_seal_of_another_auction_is_named(sealed: Sealed) -> None:
    """With the key of this one, and in each place of a seal."""
    other = [entry_of(line) for line in sealed.written(OTHER_DAY).lines]
    for seal in sealed.seals:
        entries = [dict(entry) for entry in sealed.entries]
        entries[seal - 1].update(seal=other[seal - 1]["seal"], signature=other[seal - 1]["signature"])
        (found,) = sealed.found(rewritten(entries))
        behind = [f"seal {one}" for one in sealed.seals if one > seal]
        assert found == sorted([f"other {seal}", *behind]), found


def test_a_receipt_of_an_entry_that_was_left_out_proves_it(sealed: Sealed) -> None:
    """Though the key's owner sealed all anew. Without the receipt nothing shows it."""
    bids = [number for number, line in enumerate(DAY, 1) if line not in SHORT_DAY]
    short, file = sealed.written(SHORT_DAY).lines, file_of(sealed.program, sealed.folder, SHORT_DAY)
    assert sealed.found(short, auction_hpb=file) == [[]]
    for number in bids:
        receipt = sealed.day.book.receipt(number)
        assert receipt
        entry = json.loads(json.loads(receipt.receipt)["entry"])["entry"]
        (found,) = sealed.found(short, auction_hpb=file, receipts__ann=receipt.receipt + "\n")
        assert found == [f"receipt {entry}"] * 2
        (found,) = sealed.found(sealed.lines, receipts__ann=receipt.receipt + "\n")
        assert found == []


def test_a_seal_that_a_bidder_kept_shows_that_there_were_two_records(sealed: Sealed) -> None:
    """Both of one key, from the same beginning."""
    kept = sealed.day.book.seals[0].signed.line
    twin = Writer(sealed.folder / f"twin-{sealed.count}", sealed.signer)
    twin.record.close()
    path = sealed.folder / f"twin-{sealed.count}"
    path.write_text(sealed.lines[0] + "\n")
    Path(f"{path}.asked").unlink(missing_ok=True)
    twin.record = type(twin.record)(str(path))
    twin.record.open()
    twin.take_key(sealed.signer)
    lines = twin.day(SHORT_DAY).lines
    (found,) = sealed.found(lines, auction_hpb=file_of(sealed.program, sealed.folder, SHORT_DAY), seals_txt=kept + "\n")
    assert found == ["kept 0"]


# Auctions by dice.


def some_definition(dice: random.Random) -> dict[str, Any]:
    """Packages in a package, stages, and perhaps waivers."""
    step = dice.choice([1, 10, 50])
    tree = [("all", None), ("east", "all"), ("a", "east"), ("b", "east"), ("c", "all"), ("d", None)]
    licence = {name: {"units": dice.randint(1, 20), "opening": step * dice.randint(1, 40)} for name in "abcd"}
    return {
        "step": step, "percent": dice.choice([1, 10, 50]), "stages": [dice.choice([50, 80, 100]) for _ in range(dice.randint(1, 3))],
        "waivers": dice.randint(0, 2), "nodes": [{"name": name, "parent": parent, **licence.get(name, {})} for name, parent in tree],
        "bidders": [{"name": f"b{place}", "units": dice.randint(10, 60)} for place in range(dice.randint(2, 4))],
    }


def some_commands(dice: random.Random, definition: object, tries: int = 60) -> list[str]:
    """Accepted commands, of which the last one is a close."""
    auction: Auction = begin(read_definition(json.dumps(definition).encode()))
    lines, nodes = list[str](), list(auction.tree.nodes)
    for number in range(tries):
        bidder, ticket = dice.choice(list(auction.bidders)), (auction.auctioneer.command.ticket if auction.auctioneer else 0) + 1
        last = auction.bidders[bidder].last
        own, node = (last.command.ticket if last else 0) + 1, dice.choice(nodes)
        amount = auction.standing.minima[node] + auction.tree.definition.step * dice.randint(0, 9)
        bid, close = f"BID {bidder} {own} {node} {amount}", [f"CLOSE {ticket}"] * 2
        # A close behind no bid would end the auction too early.
        line = dice.choice([bid] * 8 + [f"WAIVE {bidder} {own}", f"STAGE {ticket}", *(close if auction.incoming else [])]) if number < tries - 1 else close[0]
        auction, told = answer(auction, line)
        lines += [line] if isinstance(told, Accepted) else []
    return lines


def test_auctions_by_dice_are_right_by_both_checkers_and_by_the_file_of_the_program(sealed: Sealed, tmp_path: Path) -> None:
    folders = []
    for seed in range(12):
        dice = random.Random(seed)
        definition = some_definition(dice)
        lines = some_commands(dice, definition)
        writer = Writer(tmp_path / f"R-{seed}", sealed.signer, definition=definition).day(lines)
        file = file_of(sealed.program, tmp_path, lines, definition)
        receipts = {f"receipts/{number}": found.receipt for number in range(1, len(lines) + 1) if (found := writer.book.receipt(number))}
        folders.append(tmp_path / f"bundle-{seed}")
        lay_out(folders[-1], [writer.lines], {"auction.hpb": file, "key.txt": sealed.signer.public, "definition.json": text_of(definition), **receipts})
        assert len(receipts) == len(lines) >= 10
    assert by_both(folders) == [[]] * len(folders)
