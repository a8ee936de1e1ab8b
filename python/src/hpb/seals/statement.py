"""The statement of a seal: one line of words and values, which is signed and stamped, and its answers in the record (docs/VERIFY.md)."""
import hashlib
import json
import re
from collections.abc import Sequence
from dataclasses import astuple, dataclass
from typing import Any, Final, NamedTuple

from hpb.record.entries import Entry

# Kinds of entries: a seal, and the stamp of one.
SEAL: Final = "seal"
STAMP: Final = "stamp"
_HASH, _NUMBER, _COUNT, _TIME = "[0-9a-f]{64}", "[1-9][0-9]{0,9}", "0|[1-9][0-9]{0,9}", "[0-9]{4}-[0-9]{2}-[0-9]{2}T[0-9:.]{15}Z"
_WORDS: Final = {
    "SEAL": _NUMBER, "AT": _TIME, "RECORD": _HASH, "ENTRIES": _NUMBER, "ROOT": _HASH, "LAST": _HASH, "ROUND": _COUNT, "COUNT": _COUNT,
    "DEFINITION": _HASH, "STATE": _HASH, "RESULTS": _HASH, "KEY": _HASH,
}
_STATEMENT: Final = re.compile(" ".join(f"{word} ({value})" for word, value in _WORDS.items()))
_SIGNED: Final = re.compile("(.*) SIGNED ([0-9a-f]{128})")


class NoSeal(ValueError):
    """A text isn't the statement of a seal."""


@dataclass(frozen=True, slots=True)
class Seal:
    """A seal's statement. `number` counts the seals of a record from 1. `record` is the hash of its first entry, and `entries` how many there
    are before the seal's own. `root` is the root of their Merkle tree, and `last` the hash of the last of them. `round` is the round that was
    closed, or 0 at the end of a front, and `count` how many commands were accepted by then. `definition`, `state` and `results` are SHA-256 sums,
    and `key` is the public key.
    """

    number: int
    at: str
    record: str
    entries: int
    root: str
    last: str
    round: int
    count: int
    definition: str
    state: str
    results: str
    key: str

    @property
    def text(self) -> str:
        """The statement: the line that is signed, in ASCII and without an LF."""
        return " ".join(f"{word} {value}" for word, value in zip(_WORDS, astuple(self)))


def read_seal(text: str) -> Seal:
    """The seal in a statement. A NoSeal says that it is none."""
    if not (found := _STATEMENT.fullmatch(text)):
        raise NoSeal("it isn't the statement of a seal")
    number, at, record, entries, root, last, round_, count, *sums = found.groups()
    return Seal(int(number), at, record, int(entries), root, last, int(round_), int(count), *sums)


class SignedSeal(NamedTuple):
    """A seal with its signature, 128 hexadecimal digits."""

    seal: Seal
    signature: str

    @property
    def line(self) -> str:
        """The seal in one line, as the front gives it out."""
        return f"{self.seal.text} SIGNED {self.signature}"

    @property
    def stamped(self) -> bytes:
        """The bytes that are stamped."""
        return f"{self.line}\n".encode()


def read_signed(line: str) -> SignedSeal:
    """The seal in a line with its signature. A NoSeal says that it is none."""
    if not (found := _SIGNED.fullmatch(line)):
        raise NoSeal("it isn't a signed seal")
    return SignedSeal(read_seal(found[1]), found[2])


def signed_seal_of(entry: Entry) -> SignedSeal:
    """The seal in an entry of the record. A NoSeal says that there is none."""
    return read_signed(f"{entry.get('seal')} SIGNED {entry.get('signature')}")


def sum_of(salt: str, data: bytes) -> str:
    """The SHA-256 of some bytes behind the line of a salt. Without the salt nobody can try contents one after the other."""
    return hashlib.sha256(salt.encode("ascii") + b"\n" + data).hexdigest()


def results_sum(salt: str, answers: Sequence[str]) -> str:
    """That of the answers after a close, each with an LF. Salt and answers have to be ASCII."""
    return sum_of(salt, "".join(f"{line}\n" for line in answers).encode("ascii"))


def definition_sum(definition: Any) -> str:
    """The SHA-256 of a definition's line, with its LF, from its fields in the first entry of a record."""
    return hashlib.sha256(json.dumps(definition, separators=(",", ":")).encode() + b"\n").hexdigest()
