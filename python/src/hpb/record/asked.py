"""The file beside a record, `auction.record.asked` (docs/FRONT.md).

It has the commands without an answer that may have been sent to the server. It also says how far the record is known to be on the disk.

The file is made of places of 1,024 bytes, each a sealed line filled up with spaces. The first place names the last entry that was synced.
Each other place holds a command, and is free again once that command is answered. So the file needs only as many places as commands wait at
one time.
"""
import os
from typing import NamedTuple

from hpb.own_files import open_own
from hpb.record.entries import HASH_BYTES, NO_HASH, Damaged, Entry, Place, content_of, is_sealed, json_of, sealed, text_of, time_now

PLACE_BYTES = 1_024
FORM = 1
EMPTY = bytes(PLACE_BYTES)


class Mark(NamedTuple):
    """The last entry that is known to be on the disk, and the hash of the record's first entry."""

    synced: Place
    first: str = NO_HASH


class Asked(NamedTuple):
    """A command that may have been sent to the server."""

    name: str
    line: bytes


def filled(fields: Entry) -> bytes:
    """The bytes of a place with these fields. A ValueError says that they are too long."""
    line = sealed(json_of(fields))
    if len(line) > PLACE_BYTES:
        raise ValueError(f"{len(line)} bytes don't go into a place of {PLACE_BYTES}")
    return line[:-1].ljust(PLACE_BYTES - 1) + b"\n"


def fields_of(place: bytes) -> Entry:
    """The fields of a place. There are none if it was never written, or if a crash tore its last write."""
    line = place.rstrip(b" \n") + b"\n"
    if len(line) <= HASH_BYTES or not is_sealed(line):
        return {}
    try:
        fields: Entry = content_of(line)
    except Damaged:
        return {}
    return fields


class AskedFile:
    """The file beside a record. The record's lock protects this file, too."""

    def __init__(self, record: str) -> None:
        self.path = f"{record}.asked"
        self.file = open_own(self.path, os.O_RDWR)
        self.first = NO_HASH

    def places(self) -> list[Entry]:
        data = self.data()
        return [fields_of(data[at : at + PLACE_BYTES]) for at in range(0, len(data), PLACE_BYTES)]

    def mark(self) -> Mark:
        """How far the record is known to be on the disk."""
        places = self.places()
        fields = places[0] if places else {}
        try:
            return Mark(Place(int(fields["entry"]), str(fields["hash"])), str(fields["first"]))
        except (LookupError, TypeError, ValueError):
            return Mark(Place())

    def left(self) -> list[Asked]:
        """The commands in the file. Some of them may be in the record already, or may have been refused."""
        return [Asked(fields["name"], fields["line"].encode("latin-1")) for fields in self.places()[1:] if "line" in fields]

    def note(self, synced: Place) -> None:
        """Notes that this entry is on the disk. The note itself is there after the next sync. Until then the file says less than is true,
        but nothing wrong."""
        if synced.number == 1:
            self.first = synced.hash
        fields = {"form": FORM, "entry": synced.number, "hash": synced.hash, "first": self.first}
        write_at(self.file, filled(fields), 0)

    def put(self, places: dict[int, Asked | None]) -> None:
        """Fills these places, counted from 0, or empties them. Filled places are on the disk when this returns."""
        now = time_now()
        for first, run in runs_of(places):
            data = b"".join(filled({"name": one.name, "line": text_of(one.line), "at": now}) if one else EMPTY for one in run)
            write_at(self.file, data, (1 + first) * PLACE_BYTES)
        if any(places.values()):
            self.sync()

    def clear(self) -> None:
        """Empties all places, after each command is in the record or is known not to be in the auction's file."""
        if os.fstat(self.file).st_size > PLACE_BYTES:
            os.ftruncate(self.file, PLACE_BYTES)
            self.sync()

    def forget(self) -> None:
        """Empties the file."""
        os.ftruncate(self.file, 0)

    def sync(self) -> None:
        os.fdatasync(self.file)

    def data(self) -> bytes:
        """The whole file, place by place."""
        return os.pread(self.file, os.fstat(self.file).st_size, 0)

    def close(self) -> None:
        os.close(self.file)


def runs_of(places: dict[int, Asked | None]) -> list[tuple[int, list[Asked | None]]]:
    """Places that stand side by side, together: the number of the first one of each run, and the run."""
    runs: list[tuple[int, list[Asked | None]]] = []
    for number in sorted(places):
        if not runs or number != runs[-1][0] + len(runs[-1][1]):
            runs.append((number, []))
        runs[-1][1].append(places[number])
    return runs


def write_at(file: int, data: bytes, at: int) -> None:
    while data:
        written = os.pwrite(file, data, at)
        data, at = data[written:], at + written
