"""Tells the torn end of a record from a changed one: a crash may tear one write (docs/FRONT.md).

A crash may keep any part of the last write before its sync, and lose the rest. So whole entries may come after the first one that isn't
whole, but none that was written after a sync of that entry. In the second form, each entry says how far the record was synced when it was
written. The first form says less: an answer was written after the entry with its question was synced.
"""
import re
from collections.abc import Iterator
from typing import BinaryIO

from hpb.record.entries import FIRST, FIRST_FORM, HASH_BYTES, MOST_ENTRY, MOST_WRITE, Entry, content_of, is_sealed

START = re.compile(rb'[0-9a-f]{64} \{"entry":')


def may_be_first(data: bytes) -> bool:
    """Whether a crash may have left this of a record's first entry: the beginning of one, with zeros in the parts that weren't written."""
    data = data[: HASH_BYTES + len(FIRST)].rstrip(b"\0")
    return re.fullmatch(rb"[0-9a-f]*", data[:HASH_BYTES]) is not None and FIRST.startswith(data[HASH_BYTES:])


def may_be_one_write(file: BinaryIO, first: int, form: int) -> bool:
    """Whether everything from here on may be one write before its sync. The entry with the number `first` is the first one that isn't
    whole."""
    begin, last, told = file.tell(), first - 1, set()
    for entry in whole_entries(file):
        number, synced = entry.get("entry"), entry.get("asked", 0) if form == FIRST_FORM else entry.get("synced")
        if type(number) is not int or type(synced) is not int or number <= last or synced >= first:
            return False
        last = number
        told.add(synced)
    if form == FIRST_FORM:
        return not told or file.tell() - begin <= MOST_WRITE
    return len(told) <= 1


def whole_entries(file: BinaryIO) -> Iterator[Entry]:
    """The whole entries from here on. Each may begin in the middle of a line, since the end of the line before may be lost or changed."""
    while line := file.readline(MOST_ENTRY):
        starts = [found.start() for found in START.finditer(line)]
        ends = [start - 1 for start in starts[1:]] + [len(line) - 1]
        for start, end in zip(starts, ends):
            entry = line[start:end] + b"\n"
            if is_sealed(entry):
                yield content_of(entry)
