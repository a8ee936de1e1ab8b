"""Entries of a record: each is a line that begins with its hash and names the hash of the entry before (docs/FRONT.md)."""
import hashlib
import json
import time
from collections.abc import Iterator
from json.encoder import encode_basestring_ascii as quoted  # type: ignore[attr-defined]
from typing import Any, BinaryIO, NamedTuple

# The first form has all entries in one file, with questions among them. The second form has segments.
FIRST_FORM, FORM = 1, 2
NO_HASH = "0" * 64
HASH_BYTES = len(NO_HASH)
OK = "OK "
MEGABYTE = 1_000_000
# No entry is longer, in bytes. Of a longer line only so much is read into memory.
MOST_ENTRY = 2 * MEGABYTE
# No write has more bytes, unless it has a single entry.
MOST_WRITE = 65_536
# The beginning of a record's first entry, after the hash.
FIRST = b' {"entry":1,"before":"' + NO_HASH.encode()
ENCODER = json.JSONEncoder(separators=(",", ":"))

Entry = dict[str, Any]


class Damaged(Exception):
    """The record isn't as a front wrote it."""


class CutShort(Damaged):
    """The record ends within an entry, as a copy may that was made while a front wrote."""


class WrongSegment(Damaged):
    """A segment before the last is missing, or differs from the one that the next segment names."""


class InTheWay(WrongSegment):
    """Another file has the name of a segment."""

    def __init__(self, name: str) -> None:
        super().__init__(f"{name} has the name of a segment of the record, and isn't it")


class InUse(Exception):
    """Another front has the record."""


class Place(NamedTuple):
    """A place in a record: the number of the entry before it, and that entry's hash."""

    number: int = 0
    hash: str = NO_HASH


class New(NamedTuple):
    """An entry that isn't written yet, and the time at which it came."""

    kind: str
    fields: Entry
    at: str


def sealed(content: bytes) -> bytes:
    """The line of an entry."""
    return hashlib.sha256(content).hexdigest().encode() + b" " + content + b"\n"


def is_sealed(line: bytes) -> bool:
    return len(line) > HASH_BYTES + 1 and sealed(line[HASH_BYTES + 1 : -1]) == line


def content_of(line: bytes) -> Any:
    """The object in a sealed line. A Damaged says that it isn't an object of JSON."""
    try:
        content = json.loads(line[HASH_BYTES + 1 :])
    except (ValueError, RecursionError):
        raise Damaged("it is no entry of a record") from None
    if not isinstance(content, dict):
        raise Damaged("it is no entry of a record")
    return content


def json_of(fields: Entry) -> bytes:
    return text_of_json(fields).encode()


def text_of_json(fields: Entry) -> str:
    """Fields as JSON. If they are texts and whole numbers, as those of a command, this costs less than the encoder and gives the same."""
    parts = []
    for name, value in fields.items():
        if type(value) is str:
            parts.append(f"{quoted(name)}:{quoted(value)}")
        elif type(value) is int:
            parts.append(f"{quoted(name)}:{value}")
        else:
            return ENCODER.encode(fields)
    return f"{{{','.join(parts)}}}"


def entry_line(place: Place, kind: str, fields: Entry, at: str | None = None, synced: int | None = None) -> tuple[bytes, Place]:
    """The line of the next entry after `place`, and the place behind it. `synced` is the number of the last entry on the disk at that time.
    Entries of the first form don't have it."""
    number = place.number + 1
    on_disk = "" if synced is None else f'"synced":{synced},'
    head = f'{{"entry":{number},"before":"{place.hash}",{on_disk}"at":"{at or time_now()}","kind":"{kind}"'
    line = sealed(f"{head},{text_of_json(fields)[1:]}".encode() if fields else f"{head}}}".encode())
    return line, Place(number, line[:HASH_BYTES].decode())


def time_now() -> str:
    """UTC, to the microsecond."""
    seconds, nanoseconds = divmod(time.time_ns(), 1_000_000_000)
    return time.strftime("%Y-%m-%dT%H:%M:%S", time.gmtime(seconds)) + f".{nanoseconds // 1000:06}Z"


def text_of(line: bytes) -> str:
    """The bytes of a line as a text, with a character for each byte."""
    return line.decode("latin-1")


def read_entry(line: bytes, place: Place) -> Entry:
    """Reads the line of the next entry after `place`. A Damaged says why the line isn't that entry."""
    if not line.endswith(b"\n"):
        raise Damaged("it is cut short")
    if not is_sealed(line):
        raise Damaged("its hash isn't that of its text")
    entry: Entry = content_of(line)
    if not {"entry", "before", "kind"} <= entry.keys():
        raise Damaged("it is no entry of a record")
    if entry["entry"] != place.number + 1:
        raise Damaged(f"it has the number {entry['entry']}")
    if entry["before"] != place.hash:
        raise Damaged("the hash that it names isn't that of the entry before it")
    return entry


def place_of(line: bytes, entry: Entry) -> Place:
    return Place(entry["entry"], line[:HASH_BYTES].decode())


def entries_of(file: BinaryIO, place: Place = Place()) -> Iterator[tuple[Entry, Place]]:
    """Reads each entry of an open file, with the place behind it. A Damaged names the first one that isn't as a front wrote it. It is a
    CutShort if the file ends within that one."""
    while line := file.readline(MOST_ENTRY):
        try:
            entry = read_entry(line, place)
        except Damaged as fault:
            is_cut = not line.endswith(b"\n") and len(line) < MOST_ENTRY
            raise (CutShort if is_cut else Damaged)(f"entry {place.number + 1}: {fault}") from None
        place = place_of(line, entry)
        yield entry, place
