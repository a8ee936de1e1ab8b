"""The segments of a record: `auction.record`, and behind it `auction.record.2`, `auction.record.3`, .. (docs/FRONT.md).

A full segment ends with an entry `sealed`, which has the SHA-256 of everything before that entry. The next segment begins with the length
and the SHA-256 of the whole file before it, and with the state after that file's entries. So a start reads only the last segment.
"""
import hashlib
import itertools
import os
import re
import stat
from collections.abc import Iterable, Iterator
from dataclasses import dataclass
from typing import Any

from hpb.own_files import MODE, give_name, open_own
from hpb.record.entries import (
    FIRST_FORM, FORM, HASH_BYTES, MEGABYTE, MOST_ENTRY, CutShort, Damaged, Entry, InTheWay, Place, WrongSegment, content_of, entries_of, entry_line,
    is_sealed,
)
from hpb.record.state import State

# A segment with so many bytes is sealed.
MOST_SEGMENT = 4 * MEGABYTE
# The kind of the first entry in each segment but the first.
HEAD = re.compile(rb'[0-9a-f]{64} \{"entry":(?!1,)[0-9]+,"before":"')


@dataclass(frozen=True)
class Behind:
    """The length and the SHA-256 of the segment before this one."""

    bytes: int
    sha256: str

    def fields(self) -> Entry:
        return {"bytes": self.bytes, "sha256": self.sha256}


def segment_path(path: str, number: int) -> str:
    """The name of a segment of the record at this path, counted from 1."""
    return path if number == 1 else f"{path}.{number}"


def segment_paths(path: str) -> list[str]:
    """The existing segments, in order. Another file may have such a name, for example a copy with a date at its end: it is skipped, even if
    it can't be read.

    A WrongSegment says that a segment is missing. An InTheWay says that another file has its name, or the name of the next one. A
    PermissionError says that the file with that name can't be read.
    """
    folder, name = os.path.split(os.path.abspath(path))
    try:
        there = {number for found in os.listdir(folder) if (number := number_of(found, name))}
    except FileNotFoundError:
        return []
    known = {number for number in there if number == 1 or begins_segment(segment_path(path, number), number)}
    last = max(known, default=0)
    for number in range(1, max(last, 1) + 2):
        if number in there - known:
            look_whether_readable(segment_path(path, number))
            raise InTheWay(segment_path(name, number))
        if number <= last and number not in known:
            raise WrongSegment(f"its segment {segment_path(name, number)} is missing")
    return [segment_path(path, number) for number in sorted(known)]


def begins_segment(path: str, number: int) -> bool:
    """Whether a file begins like the segment with this number. Copies and other files begin differently."""
    # Opening a pipe would wait for a writer.
    if not stat.S_ISREG(os.lstat(path).st_mode):
        return False
    try:
        head, _ = head_of(path)
    except (Damaged, PermissionError):
        return False
    return bool(head["kind"] == "begin" and head["segment"] == number)


def look_whether_readable(path: str) -> None:
    """Opens a file to see whether it can be read. A PermissionError says that it can't: it may be a segment."""
    if stat.S_ISREG(os.lstat(path).st_mode):
        with open(path, "rb"):
            pass


def number_of(found: str, name: str) -> int:
    """The number of the segment that a file is, in the record of this name; or 0."""
    if found == name:
        return 1
    tail = found.removeprefix(f"{name}.")
    return int(tail) if tail != found and tail.isascii() and tail.isdigit() and tail[0] != "0" and tail != "1" else 0


def first_line(path: str) -> bytes:
    with open(path, "rb") as file:
        return file.readline(MOST_ENTRY)


def definition_in(path: str) -> Any:
    """The definition in the first entry of a record; None if there is no whole one."""
    try:
        # Opening a pipe would wait for a writer.
        line = first_line(path) if stat.S_ISREG(os.stat(path).st_mode) else b""
        return content_of(line).get("definition") if is_sealed(line) else None
    except (OSError, Damaged):
        return None


def last_hash(path: str) -> str:
    """The hash of a segment's last entry, or an empty text if the last line isn't whole."""
    with open(path, "rb") as file:
        length = file.seek(0, os.SEEK_END)
        file.seek(max(0, length - MOST_ENTRY))
        tail = file.read()
    line = tail[tail.rfind(b"\n", 0, -1) + 1 :]
    return line[:HASH_BYTES].decode("latin-1") if is_sealed(line) else ""


def head_of(path: str) -> tuple[Entry, Place]:
    """The first entry of a segment after the first, and the place before it. A WrongSegment says that there is no such entry."""
    line, name = first_line(path), os.path.basename(path)
    if not line.endswith(b"\n") or not is_sealed(line):
        raise WrongSegment(f"{name}: its first entry isn't as it was written")
    head: Entry = content_of(line)
    try:
        place = Place(int(head["entry"]) - 1, str(head["before"]))
        Behind(int(head["behind"]["bytes"]), str(head["behind"]["sha256"]))
        int(head["segment"])
        str(head["kind"])
    except (LookupError, TypeError, ValueError):
        raise WrongSegment(f"{name}: it doesn't begin as a segment does") from None
    return head, place


def look_at_seals(paths: list[str]) -> None:
    """Checks that each segment but the last is the one that the next names, by its length and the hash of its last entry. No segment is
    read whole. A WrongSegment names one that isn't."""
    for path, next_path in zip(paths, paths[1:]):
        head, before = head_of(next_path)
        if os.stat(path).st_size != head["behind"]["bytes"] or last_hash(path) != before.hash:
            raise WrongSegment(f"{os.path.basename(path)} isn't the segment that {os.path.basename(next_path)} goes on from")


class Reader:
    """Reads all segments whole, and checks each seal against the file."""

    def __init__(self, path: str) -> None:
        self.paths = segment_paths(path) or [path]
        self.place, self.state = Place(), State()

    def entries(self) -> Iterator[tuple[Entry, Place]]:
        """Reads each entry, with the place behind it. A Damaged says which one isn't as a front wrote it. It is a CutShort if the record
        ends within that one."""
        for number, path in enumerate(self.paths, 1):
            try:
                yield from self.entries_in(number, path)
            except CutShort as fault:
                raise fault if number == len(self.paths) else Damaged(str(fault)) from None

    def entries_in(self, number: int, path: str) -> Iterator[tuple[Entry, Place]]:
        """The same of one segment."""
        first = self.place.number + 1
        with open(path, "rb") as file:
            for entry, self.place in entries_of(file, self.place):
                if number > 1 and entry["entry"] == first:
                    self.look_at_head(entry, number)
                if entry["kind"] == "sealed":
                    look_at_seal(entry, path)
                self.state.take(entry)
                yield entry, self.place

    def look_at_head(self, entry: Entry, number: int) -> None:
        """Checks a segment's first entry: it has to name the file before it, and the state after that file."""
        before = self.paths[number - 2]
        if entry["kind"] != "begin" or entry.get("form") != FORM or entry.get("segment") != number:
            raise Damaged(f"entry {entry['entry']}: it doesn't begin segment {number}")
        if not self.state.is_sealed and self.state.form != FIRST_FORM:
            raise Damaged(f"entry {entry['entry']}: {os.path.basename(before)}, before it, has no seal")
        if entry.get("behind") != file_behind(before).fields():
            raise Damaged(f"entry {entry['entry']}: {os.path.basename(before)}, before it, isn't the segment that it names")
        if entry.get("definition") != self.state.definition or not is_head(entry.get("state"), self.state.head()):
            raise Damaged(f"entry {entry['entry']}: what it says of the segments before it isn't so")


def is_head(found: object, head: Entry) -> bool:
    """Whether this is the state of a segment's first entry. Those of before December 2026 lack the commands of the open round."""
    return found == head or ("rounds" not in head and found == {name: value for name, value in head.items() if name != "lines"})


def lines_of_round(path: str) -> list[bytes] | None:
    """The commands of the open round, by all segments; None if they can't all be read."""
    reader = Reader(path)
    try:
        for _ in reader.entries():
            pass
    except (Damaged, OSError):
        return None
    return reader.state.lines


def look_at_seal(entry: Entry, path: str) -> None:
    length = entry.get("bytes")
    if type(length) is not int or digest_of(path, length).hexdigest() != entry.get("sha256"):
        raise Damaged(f"entry {entry['entry']}: its seal isn't that of {os.path.basename(path)}")
    with open(path, "rb") as file:
        file.seek(length)
        if file.readline(MOST_ENTRY)[HASH_BYTES + 1 :].startswith(b'{"entry":%d,' % entry["entry"]) and not file.read(1):
            return
    raise Damaged(f"entry {entry['entry']}: it doesn't end {os.path.basename(path)}")


def digest_of(path: str, length: int) -> "hashlib._Hash":
    """The SHA-256 of a file's first bytes, up to this length."""
    digest, left = hashlib.sha256(), length
    with open(path, "rb") as file:
        while left > 0 and (piece := file.read(min(left, MEGABYTE))):
            digest.update(piece)
            left -= len(piece)
    return digest


def file_behind(path: str) -> Behind:
    length = os.stat(path).st_size
    return Behind(length, digest_of(path, length).hexdigest())


def head_line(place: Place, state: State, segment: int, behind: Behind) -> tuple[bytes, Place]:
    """The line of the first entry of the segment with this number, after a state that is on the disk; and the place behind that entry."""
    fields = {"form": FORM, "segment": segment, "behind": behind.fields(), "definition": state.definition, "state": state.head()}
    return entry_line(place, "begin", fields, synced=place.number)


def write_segment(record: str, number: int, line: bytes) -> str:
    """Makes a new segment, and returns its name. The segment gets that name once its first entry is on the disk, so the first entry is
    always whole. An InTheWay says that another file has the name."""
    path, new = segment_path(record, number), free_name(record, number)
    write_new(new, [line])
    try:
        give_name(new, path)
    except FileExistsError:
        os.unlink(new)
        raise InTheWay(os.path.basename(path)) from None
    sync_folder(path)
    return path


def free_name(record: str, number: int) -> str:
    """The name of a new segment before it gets its own. If a killed front left a file of that name, it is removed; any other file stays."""
    for place in itertools.count(1):
        new = f"{record}.new" if place == 1 else f"{record}.new-{place}"
        if os.path.lexists(new) and is_rest(new, segment_path(record, number - 1)):
            os.unlink(new)
        if not os.path.lexists(new):
            return new
    raise AssertionError("names don't end")


def is_rest(new: str, last: str) -> bool:
    """Whether a front left this file when it was killed while it made a segment. It is a second name of the last segment, or a part of a
    first entry."""
    try:
        with open(open_own(new, os.O_RDONLY, may_make=False), "rb") as begun:
            return os.path.samefile(new, last) or may_be_head(begun.read(MOST_ENTRY + 1))
    except OSError:
        return False


def may_be_head(data: bytes) -> bool:
    """Whether this may be the first entry of a segment after the first, or a beginning of one, and nothing after it."""
    line, _, more = data.rstrip(b"\0").partition(b"\n")
    is_front = re.fullmatch(rb"[0-9a-f]*", line[:HASH_BYTES]) is not None and (len(line) <= HASH_BYTES or HEAD.match(line) is not None)
    return not more and is_front


def sync_folder(path: str) -> None:
    """Waits until the names in the folder of this file are on the disk."""
    folder = os.open(os.path.dirname(os.path.abspath(path)), os.O_RDONLY | os.O_DIRECTORY | os.O_CLOEXEC)
    try:
        os.fsync(folder)
    finally:
        os.close(folder)


def write_new(path: str, pieces: Iterable[bytes]) -> None:
    """Makes a file that wasn't there, of these pieces. It is on the disk when this returns. If that fails, there is no file."""
    file = os.open(path, os.O_WRONLY | os.O_CREAT | os.O_EXCL | os.O_CLOEXEC, MODE)
    try:
        with open(file, "wb") as out:
            out.writelines(pieces)
            out.flush()
            os.fsync(out.fileno())
    except OSError:
        os.unlink(path)
        raise


def write_aside(path: str, pieces: Iterable[bytes]) -> str:
    """Writes these pieces into a new file beside a record, and returns its name."""
    number = 1
    while os.path.lexists(aside := f"{path}.torn-{number}"):
        number += 1
    write_new(aside, pieces)
    sync_folder(aside)
    return aside
