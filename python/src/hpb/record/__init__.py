"""The record of a front: entries of one line each, each of which names the hash of the one before, in segments (docs/FRONT.md).

`read_record` and `record_entries` read a record, all its segments in order. They raise `Damaged` if it isn't as a front wrote it.
`RecordFile` is the record to which a running front adds entries.
"""
from collections.abc import Iterator
from os import PathLike

from hpb.record.entries import (
    FIRST_FORM, FORM, HASH_BYTES, OK, CutShort, Damaged, Entry, InTheWay, InUse, New, Place, WrongSegment, entries_of, entry_line, sealed, text_of,
    time_now,
)
from hpb.record.file import RecordFile
from hpb.record.segments import Reader
from hpb.record.state import State

__all__ = [
    "FIRST_FORM", "FORM", "HASH_BYTES", "OK", "CutShort", "Damaged", "Entry", "InTheWay", "InUse", "New", "Place", "RecordFile", "State",
    "WrongSegment", "entries_of", "entry_line", "read_record", "record_entries", "sealed", "text_of", "time_now",
]


def record_entries(path: str | PathLike[str]) -> Iterator[tuple[Entry, Place]]:
    """Reads each entry of a record, with the place behind it."""
    return Reader(str(path)).entries()


def read_record(path: str | PathLike[str]) -> tuple[list[Entry], Place]:
    """Reads all entries of a record, and gives the place behind the last one."""
    entries, place = [], Place()
    for entry, place in record_entries(path):
        entries.append(entry)
    return entries, place
