"""A record after power cuts: it is opened with everything that was synced, and refused if anything synced was changed.

    /usr/bin/python3 -m pytest tests/test_record_cuts.py            2,000 seeds; with those that are marked `long` 50,000
"""

from __future__ import annotations

import itertools
import os
import random
import tempfile
from collections.abc import Iterator
from contextlib import ExitStack
from dataclasses import dataclass, field
from pathlib import Path
from typing import Any

import pytest

from hpb.record import Damaged, read_record
from hpb.record.asked import Asked
from hpb.record.entries import New
from hpb.record.file import RecordFile
from hpb.record.segments import segment_paths
from record.cutting import PAGE, SECTOR, Cut, Disk

SEEDS, LONG_SEEDS, PER_TEST = 2_000, 50_000, 100
AT = "2026-11-30T12:00:00.000000Z"
DEFINITION = {"step": 10, "nodes": ["n" * 40] * 20}
NAMES = {"ann": ["x"], "desk": "auctioneer"}
KINDS = ("started", "accepted", "lapsed", "foreign", "stopped")
SMALL_SEGMENT = 6_000


@pytest.fixture
def room() -> Iterator[Path]:
    """A folder in memory: a sync of it takes no time."""
    with tempfile.TemporaryDirectory(dir="/dev/shm" if os.access("/dev/shm", os.W_OK) else None) as folder:
        yield Path(folder)


@dataclass
class Told:
    """The writes of a front's day: `known` and `asked` are on the disk, and `tried` may be."""

    known: list[list[New]] = field(default_factory=list)
    tried: list[New] = field(default_factory=list)
    asked: dict[int, Asked] = field(default_factory=dict)


def bid(number: int, dice: random.Random) -> bytes:
    return b"BID x %d a %d" % (number, dice.randrange(10 ** dice.randrange(1, 60)))


def new_entries(told: Told, dice: random.Random) -> list[New]:
    """Some entries that may come next."""
    number, made = sum(entry.kind == "accepted" for entry in told.tried), []
    for _ in range(dice.choice([1, 1, 2, 3, 40])):
        number += 1
        made.append(New("accepted", {"name": "ann", "line": bid(number, dice).decode(), "answer": f"OK {number}"}, AT))
    return made


def day(record: RecordFile, told: Told, dice: random.Random) -> None:
    """A front's day: commands are written beside the record, and answers into it."""
    record.open()
    found = [New(kind, fields, AT) for kind, fields in commands(Path(record.path))] if record.place.number else []
    assert plain(found)[: sum(map(len, told.known))] == plain([entry for entries in told.known for entry in entries])
    # If a killed front left an entry, and the next front read it, it is on the disk from then on.
    told.tried, told.known = list(found), [found] if found else []
    if not record.place.number:
        record.begin(DEFINITION)
        record.write([New("started", {"names": NAMES, "count": 0}, AT)])
    for number in range(dice.randrange(1, 12)):
        if dice.random() < 0.05:
            told.asked.clear()
            record.asked.clear()
        if dice.random() < 0.5:
            places: dict[int, Asked | None] = {dice.randrange(6): Asked("ann", bid(number, dice)) for _ in range(dice.randrange(1, 4))}
            for place in places:
                told.asked.pop(place, None)
            record.asked.put(places)
            told.asked.update({place: asked for place, asked in places.items() if asked})
        entries = new_entries(told, dice)
        told.tried += entries
        record.write(entries)
        told.known.append(entries)


def cut_day(room: Path, patch: pytest.MonkeyPatch, dice: random.Random) -> tuple[Disk, Told]:
    """Days of a front. On each day but the last it is killed at some call; on the last its power is cut at some call, or at the end."""
    folder, told = room / "R", Told()
    folder.mkdir()
    with patch.context() as watching:
        disk = Disk(folder, watching)
        for _ in range(dice.choice([1, 1, 2, 3])):
            at = dice.randrange(8, 60)
            disk.changes_left, disk.syncs_left = dice.choice([(at, at), (3 * at, at // 2), (3 * at, at // 2)])
            record = RecordFile(str(folder / "R"), SMALL_SEGMENT)
            try:
                day(record, told, dice)
            except Cut:
                pass
            disk.changes_left = disk.syncs_left = 1 << 30
            record.close()
    return disk, told


def put(files: dict[str, bytes], folder: Path) -> Path:
    folder.mkdir()
    for name, data in files.items():
        (folder / name).write_bytes(data)
    return folder / "R"


def commands(path: Path) -> list[tuple[str, dict[str, Any]]]:
    """The commands in a record, all of whose segments are whole."""
    return [("accepted", {field: entry[field] for field in ("name", "line", "answer")}) for entry in read_record(path)[0]
            if entry["kind"] == "accepted"]


def plain(entries: list[New]) -> list[tuple[str, dict[str, Any]]]:
    return [(entry.kind, entry.fields) for entry in entries]


LONG = [pytest.param(first, marks=pytest.mark.long) for first in range(SEEDS, LONG_SEEDS, PER_TEST)]


@pytest.mark.parametrize("first", [*range(0, SEEDS, PER_TEST), *LONG])
def test_what_a_cut_leaves_is_opened(first: int, room: Path, monkeypatch: pytest.MonkeyPatch) -> None:
    """Each image has everything that was synced, and nothing that wasn't written. The record can be continued."""
    torn = kept = 0
    for seed in range(first, first + PER_TEST):
        dice, here = random.Random(seed), room / str(seed)
        here.mkdir()
        disk, told = cut_day(here, monkeypatch, dice)
        path = put(disk.image(dice, dice.choice([PAGE, SECTOR])), here / "image")
        record = RecordFile(str(path), SMALL_SEGMENT)
        aside = record.open()
        synced = [entry for entries in told.known for entry in entries]
        assert {asked for asked in told.asked.values()} <= set(record.asked.left()), seed
        if not record.place.number:
            record.begin(DEFINITION)
        found = commands(path)
        assert found[: len(synced)] == plain(synced), seed
        assert found == plain(told.tried)[: len(found)], seed
        torn, kept = torn + (aside is not None), kept + (len(found) > len(synced))
        if aside:
            assert (path.parent / aside["aside"]).stat().st_size == aside["bytes"], seed
        more = New("accepted", {"name": "ann", "line": "CLOSE 1", "answer": "OK"}, AT)
        record.write([more])
        record.close()
        assert commands(path) == [*found, *plain([more])], seed
    assert torn and kept


@pytest.mark.parametrize("first", range(0, SEEDS // 10, PER_TEST))
def test_what_was_synced_and_is_changed_is_refused(first: int, room: Path, monkeypatch: pytest.MonkeyPatch) -> None:
    """Even after a cut: if a byte of an earlier write than the last synced one is changed, the record is refused."""
    tried = 0
    for seed in range(first, first + PER_TEST):
        dice, here = random.Random(seed), room / str(seed)
        here.mkdir()
        disk, told = cut_day(here, monkeypatch, dice)
        files = disk.image(dice, dice.choice([PAGE, SECTOR]))
        path = put(files, here / "image")
        last = segment_paths(str(path))[-1]
        data = Path(last).read_bytes()
        if len(told.known) < 2 or (at := data.find(told.known[-2][0].fields["line"].encode())) < 0:
            continue
        place = dice.randrange(at)
        Path(last).write_bytes(data[:place] + bytes([data[place] ^ 1 << dice.randrange(8)]) + data[place + 1 :])
        look_refused(path)
        tried += 1
        assert not list(path.parent.glob("*torn*")), seed
    assert tried > PER_TEST // 4


def look_refused(path: Path) -> None:
    """Checks that a record isn't continued."""
    with ExitStack() as stack, pytest.raises(Damaged):
        record = RecordFile(str(path), SMALL_SEGMENT)
        stack.callback(record.close)
        record.open()


def stopped(room: Path, writes: int = 4) -> tuple[Path, list[bytes]]:
    """A record that was closed in good order, and its contents after each write."""
    path = room / "R"
    record = RecordFile(str(path))
    record.open()
    record.begin(DEFINITION)
    told, dice, states = Told(), random.Random(1), []
    for _ in range(writes):
        entries = new_entries(told, dice)
        told.tried += entries
        record.write(entries)
        states.append(path.read_bytes())
    record.close()
    return path, states


def test_each_changed_byte_of_a_record_left_in_order_is_refused(room: Path) -> None:
    """The last write is known to be on the disk too, from the file beside the record."""
    path, states = stopped(room)
    whole, beside = states[-1], (room / "R.asked").read_bytes()
    for at in range(0, len(whole), 7):
        path.write_bytes(whole[:at] + bytes([whole[at] ^ 1 << at % 8]) + whole[at + 1 :])
        record = RecordFile(str(path))
        with pytest.raises(Damaged):
            record.open()
        record.close()
    assert (room / "R.asked").read_bytes() == beside
    for cut in range(0, len(whole), 7):
        path.write_bytes(whole[:cut])
        record = RecordFile(str(path))
        with pytest.raises(Damaged):
            record.open()
        record.close()


def subsets(old: bytes, new: bytes, part: int) -> Iterator[bytes]:
    """All contents that a write may leave after the synced bytes: each part of it kept or lost, with each length."""
    parts = range(len(old) // part * part, len(new), part)
    for kept in itertools.product([False, True], repeat=len(parts)):
        data = bytearray(old.ljust(len(new), b"\0"))
        for at, is_kept in zip(parts, kept):
            if is_kept:
                data[at : at + part] = new[at : at + part]
        yield bytes(data)
        yield bytes(data[: max(len(old), (len(new) - 1) // part * part)])


@pytest.mark.parametrize("part, entries", [(PAGE, 100), (SECTOR, 12)])
def test_each_part_of_one_write_kept_or_lost(part: int, entries: int, room: Path) -> None:
    """All subsets. Everything synced before is there, and so are the whole entries of the write before its first lost part."""
    path = room / "R"
    record = RecordFile(str(path))
    record.open()
    record.begin(DEFINITION)
    for length in (3, entries):
        old, before = path.read_bytes(), (room / "R.asked").read_bytes()
        new = [New("accepted", {"name": "ann", "line": f"BID x {number} a 100", "answer": "OK"}, AT) for number in range(length)]
        record.write(new)
    record.close()
    written, tried = path.read_bytes(), 0
    for image in set(subsets(old, written, part)):
        path.write_bytes(image)
        (room / "R.asked").write_bytes(before)
        opened = RecordFile(str(path))
        opened.open()
        opened.close()
        assert path.read_bytes() == written[: path.stat().st_size], "what is kept is what was written"
        assert path.stat().st_size >= len(old), "what was synced is kept"
        assert path.stat().st_size == whole_before_difference(image, written), "no whole entry in front of what is lost is set aside"
        for aside in room.glob("*torn*"):
            aside.unlink()
        tried += 1
    assert tried > 128


def whole_before_difference(image: bytes, written: bytes) -> int:
    """The end of the last whole entry before the first lost byte."""
    same = next((at for at, (one, other) in enumerate(zip(image, written)) if one != other), min(len(image), len(written)))
    return written.rfind(b"\n", 0, same) + 1


def test_an_entry_behind_says_that_the_one_before_was_synced(room: Path) -> None:
    """Without the file beside the record, a later write shows that an entry was synced. If there is none, a changed entry may be a
    torn one.
    """
    path, states = stopped(room)
    (room / "R.asked").unlink()
    *_, before, whole = states
    for at in (len(before) - 10, len(before) - 1):
        path.write_bytes(whole[:at] + b"?" + whole[at + 1 :])
        record = RecordFile(str(path))
        with pytest.raises(Damaged, match="it was on the disk"):
            record.open()
        record.close()
    path.write_bytes(whole[:-10] + b"?" + whole[-9:])
    record = RecordFile(str(path))
    aside = record.open()
    record.close()
    assert aside and aside["bytes"] == len(whole) - len(whole[: whole.rfind(b"\n", 0, -1) + 1])


def test_entries_of_another_place_are_no_torn_write(room: Path) -> None:
    """Whole entries with smaller numbers, or an entry missing before a later write, can't come from a crash."""
    path, states = stopped(room)
    whole = states[-1]
    lines = whole.splitlines(keepends=True)
    for changed in (whole + b"\n" + whole, whole + lines[1], b"".join([*lines[:2], *lines[3:]])):
        (room / "R.asked").unlink(missing_ok=True)
        path.write_bytes(changed)
        record = RecordFile(str(path))
        with pytest.raises(Damaged):
            record.open()
        record.close()
