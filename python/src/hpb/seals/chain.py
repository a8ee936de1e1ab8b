"""Reads a record as it stands: each entry with its hash, up to the first one that isn't as a front wrote it."""
import json
import os
from dataclasses import dataclass, field
from typing import Any

from hpb.record import Damaged, WrongSegment
from hpb.record.entries import HASH_BYTES, MOST_ENTRY, NO_HASH, Entry, is_sealed
from hpb.record.segments import Reader, segment_paths
from hpb.seals.findings import Findings
from hpb.seals.statement import SEAL

_NEEDED = {"entry", "before", "at", "kind"}
# An accepted command has these besides, each a text.
_OF_COMMAND = ("name", "line", "answer")


@dataclass
class Chain:
    """The entries of a record, and the hash of each. `is_whole` says whether all that stands there was read."""

    entries: list[Entry] = field(default_factory=list)
    hashes: list[str] = field(default_factory=list)
    segments: int = 0
    is_whole: bool = False

    @property
    def first(self) -> str:
        """The hash of the first entry: the record's name."""
        return self.hashes[0] if self.hashes else NO_HASH

    @property
    def definition(self) -> Any:
        """The definition's fields, as the first entry has them."""
        return self.entries[0].get("definition") if self.entries else None

    def of_kind(self, kind: str) -> list[Entry]:
        return [entry for entry in self.entries if entry["kind"] == kind]


def ends_in_order(chain: Chain) -> bool:
    """Whether the last entry is the one by which a front ends: `stopped`, or the seal behind it. A segment may end, and the next one begin, behind
    each entry."""
    entries = [entry for entry in chain.entries[1:] if entry["kind"] not in ("sealed", "begin")]
    last = entries[-1] if entries else {"kind": ""}
    if chain.of_kind(SEAL):
        return len(entries) > 1 and last["kind"] == SEAL and " ROUND 0 " in str(last.get("seal")) and entries[-2]["kind"] == "stopped"
    return bool(last["kind"] == "stopped")


def read_chain(path: str, findings: Findings) -> Chain:
    """Reads all segments of the record at this path. The first fault ends it."""
    chain = Chain()
    try:
        paths = segment_paths(path)
    except WrongSegment as fault:
        findings.add("segment", 0, str(fault))
        return chain
    if not paths:
        findings.add("record", 0, f"there is no {os.path.basename(path)}")
        return chain
    chain.segments = len(paths)
    if not all(_read_segment(one, chain, findings) for one in paths):
        return chain
    if not chain.entries or chain.entries[0]["kind"] != "begin" or "definition" not in chain.entries[0]:
        findings.add("record", 0, "it doesn't begin as a record does")
        return Chain()
    try:
        for _ in Reader(path).entries():
            pass
    except (Damaged, LookupError, TypeError, ValueError, AttributeError) as fault:
        findings.add("segment", 0, str(fault) if isinstance(fault, Damaged) else "it has an entry that no front writes")
        return chain
    chain.is_whole = True
    plural = "segment" if chain.segments == 1 else "segments"
    findings.say(
        f"Record: {len(chain.entries)} entries in {chain.segments} {plural}. Each hash is that of its entry, and each entry names the one before: "
        "so none was changed, left out, doubled or moved without new hashes from there on."
    )
    return chain


def _read_segment(path: str, chain: Chain, findings: Findings) -> bool:
    """Reads a segment. Returns whether all of it is as a front writes it."""
    with open(path, "rb") as file:
        while line := file.readline(MOST_ENTRY):
            if fault := _fault_of(line, chain):
                findings.add(*fault)
                return False
            chain.entries.append(_entry_in(line))
            chain.hashes.append(line[:HASH_BYTES].decode())
    return True


def _fault_of(line: bytes, chain: Chain) -> tuple[str, int, str] | None:
    number, before = len(chain.entries) + 1, chain.hashes[-1] if chain.hashes else NO_HASH
    if not line.endswith(b"\n") and len(line) < MOST_ENTRY:
        return "cut", number, "the record ends within it"
    if not is_sealed(line):
        return "changed", number, "its hash isn't that of its text"
    entry = _entry_in(line)
    if not _NEEDED <= entry.keys() or entry["kind"] == "accepted" and not all(isinstance(entry.get(name), str) for name in _OF_COMMAND):
        return "changed", number, "it is no entry of a record"
    if isinstance(entry["entry"], bool) or entry["entry"] != number:
        return "order", number, f"entry {entry['entry']} stands in its place: one was left out, doubled or moved"
    if entry["before"] != before:
        return "before", number, "the hash that it names isn't that of the entry before it"
    return None


def _entry_in(line: bytes) -> Entry:
    """The entry in a line, as all checkers read it: ASCII, and an object of JSON with no more numbers than JSON has. Else nothing."""
    try:
        found = json.loads(line[HASH_BYTES + 1 :].decode("ascii"), parse_constant=_no_number)
    except (ValueError, RecursionError):
        return {}
    return found if isinstance(found, dict) else {}


def _no_number(text: str) -> None:
    raise ValueError(text)
