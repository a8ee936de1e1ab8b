"""The seals of a record that a front writes: the Merkle tree over its entries, the seals so far, and each command's place (docs/VERIFY.md).

The thread of the record adds, and another one may ask. Each answer is about entries that are on the disk already, and never changes.
"""
import re
import secrets
from array import array
from typing import Final, NamedTuple

from hpb.file import state_of
from hpb.front.rights import sender_and_ticket
from hpb.lines import Bid, Close, Command, Stage, Waive, parse_line
from hpb.record.entries import HASH_BYTES, Damaged, Entry, New, Place, content_of, is_sealed, text_of
from hpb.record.segments import segment_path, segment_paths
from hpb.rules.auction import LastCommand
from hpb.rules.told import NotTold, auction_of, read_told
from hpb.rules.tree import tree_of
from hpb.rules.writing import read_fields
from hpb.seals.merkle import MerkleTree
from hpb.seals.receipt import Receipt
from hpb.seals.signing import Signer, is_signed
from hpb.seals.statement import SEAL, STAMP, NoSeal, Seal, SignedSeal, definition_sum, results_sum, signed_seal_of, sum_of

_SALT_BYTES: Final = 16
_ACCEPTED: Final = re.compile(rb'"kind":"accepted",.*"line":"(.*)","answer":"OK ([0-9]+)"')
_KINDS: Final = tuple(b'"kind":"%s"' % kind.encode() for kind in (SEAL, STAMP))


class Sealed(NamedTuple):
    """A seal in the record, and when it was stamped, if it was."""

    signed: SignedSeal
    stamped_at: str = ""

    @property
    def line(self) -> str:
        """The seal as the front answers it."""
        return f"{self.signed.line} STAMPED {self.stamped_at or '-'}"


class Found(NamedTuple):
    """The line of a command, and its receipt, which is empty until there is a seal behind it."""

    line: str
    receipt: str


class Book:
    """The seals of the record at this path. `durable` is how many of them are on the disk, and `stamped` how many have a stamp in the record."""

    def __init__(self, path: str, signer: Signer) -> None:
        self.path, self.signer = path, signer
        self.tree = MerkleTree()
        self.seals: list[Sealed] = []
        self.durable = self.stamped = 0
        # The number of the last CLOSE among all commands, that of the last one with a seal, and the keys of seals that aren't this one's.
        self.closed = self.sealed = 0
        self.other_keys: list[str] = []
        self._first, self._definition = "", None
        self._sizes: list[int] = []
        # The last command of each sender, with its number; None is the auctioneer.
        self._lasts: dict[str | None, tuple[bytes, int]] = {}
        # Of each command, from number 1 on: its entry, its segment, and its place there.
        self._entries, self._segments, self._places = array("Q"), array("L"), array("Q")

    # The record.

    def read(self) -> None:
        """Reads the record. A Damaged says that an entry isn't as it was written, that a seal isn't that of the entries before it, or that it
        isn't signed."""
        for segment, path in enumerate(segment_paths(self.path), 1):
            at = 0
            with open(path, "rb") as file:
                for line in file:
                    if not is_sealed(line):
                        raise Damaged(f"entry {self.tree.size + 1}: its hash isn't that of its text")
                    self.took(line, segment, at)
                    at += len(line)
        for one in self.seals:
            if not is_signed(one.signed.seal.key, one.signed.seal.text, one.signed.signature):
                raise Damaged(f"the signature of seal {one.signed.seal.number} isn't right")
        self.durable = len(self.seals)
        self.other_keys = sorted({one.signed.seal.key for one in self.seals} - {self.signer.public})

    def took(self, line: bytes, segment: int, at: int) -> None:
        """Takes the record's next entry, and its place."""
        size = self.tree.size
        if not size:
            self._first, self._definition = line[:HASH_BYTES].decode(), content_of(line)["definition"]
        if found := _ACCEPTED.search(line):
            self._take_command(int(found[2]), found[1], segment, at)
        elif any(kind in line for kind in _KINDS):
            self._take_seal(content_of(line), size)
        self.tree.append(bytes.fromhex(line[:HASH_BYTES].decode()))

    def _take_command(self, number: int, line: bytes, segment: int, at: int) -> None:
        # Numbers that are missing are those of commands that came by another way.
        for places in (self._entries, self._segments, self._places):
            places.extend([0] * (number - 1 - len(places)))
        self._entries.append(self.tree.size + 1)
        self._segments.append(segment)
        self._places.append(at)
        self._lasts[sender_and_ticket(line)[0]] = line, number
        if line.startswith(b"CLOSE "):
            self.closed = number

    def _take_seal(self, entry: Entry, size: int) -> None:
        if entry["kind"] == STAMP:
            if entry["seal"] != self.stamped + 1 or self.stamped == len(self.seals):
                raise Damaged(f"entry {size + 1}: it stamps seal {entry['seal']}, which isn't the next one")
            self.seals[self.stamped] = self.seals[self.stamped]._replace(stamped_at=entry["time"])
            self.stamped += 1
        elif entry["kind"] == SEAL:
            try:
                signed = signed_seal_of(entry)
            except NoSeal:
                raise Damaged(f"entry {size + 1}: it has no seal") from None
            seal = signed.seal
            if (seal.record, seal.entries, seal.root, seal.number) != (self._first, size, self.tree.root().hex(), len(self.seals) + 1):
                raise Damaged(f"entry {size + 1}: seal {seal.number} isn't that of the entries before it, so one of them was changed")
            self.seals.append(Sealed(signed))
            self.sealed = seal.count if seal.round else self.sealed
            self._sizes.append(size)

    # Entries that are about to be written.

    def completed(self, entry: New, place: Place) -> Entry:
        """The fields of the entry that comes behind `place`. Each gets a salt, so that from its hash nobody can find it by trying. The entry of
        a seal gets the statement and its signature."""
        fields: Entry = {**entry.fields, "salt": secrets.token_hex(_SALT_BYTES)}
        if entry.kind == SEAL:
            signed = self._signed(entry, place, fields["salt"])
            fields = {"seal": signed.seal.text, "signature": signed.signature, "answers": fields["answers"], "salt": fields["salt"]}
        return fields

    def _signed(self, entry: New, place: Place, salt: str) -> SignedSeal:
        answers, state = entry.fields["answers"], self._state(entry.fields["answers"])
        seal = Seal(
            len(self.seals) + 1, entry.at, self._first, place.number, self.tree.root().hex(), place.hash, entry.fields["round"],
            entry.fields["count"], definition_sum(self._definition), sum_of(salt, state), results_sum(salt, answers), self.signer.public,
        )
        return SignedSeal(seal, self.signer.sign(seal.text))

    def _state(self, answers: list[str]) -> bytes:
        """The file's state after a close, by the answers and the last commands. It is empty at a front's end, and if commands came by another way."""
        if not answers:
            return b""
        tree = tree_of(read_fields(self._definition))
        lasts = {sender: LastCommand(_command(line), number) for sender, (line, number) in self._lasts.items()}
        try:
            return state_of(auction_of(tree, read_told(tree, answers), lasts))
        except NotTold:
            return b""

    def synced(self) -> tuple[Sealed, ...]:
        """All that was taken is on the disk. Gives the seals that came since the last call."""
        fresh = tuple(self.seals[self.durable :])
        self.durable += len(fresh)
        return fresh

    # Questions.

    def last(self) -> Sealed | None:
        """The last seal on the disk."""
        return self.seals[self.durable - 1] if self.durable else None

    def unstamped(self) -> list[SignedSeal]:
        """The seals on the disk that have no stamp, in their order."""
        return [one.signed for one in self.seals[: self.durable] if not one.stamped_at]

    def seal_line(self, number: int) -> str | None:
        """A seal in one line, with the proof that its entries begin with those of the seal before it. None if there is no such seal."""
        if not 0 < number <= self.durable:
            return None
        proof = []
        if number > 1:
            proof = self.tree.consistency_proof(self._sizes[number - 2], self._sizes[number - 1])
        return f"{self.seals[number - 1].line} CONSISTENCY {','.join(one.hex() for one in proof) or '-'}"

    def receipt(self, number: int) -> Found | None:
        """A command's receipt: the path from its entry to the last seal. None if there is no command with this number in the record. A Damaged
        says that the record was changed since."""
        if not 0 < number <= len(self._entries) or not self._entries[number - 1]:
            return None
        entry, line = self._entries[number - 1], self._line_of(number)
        if not is_sealed(line) or not self.tree.has(entry - 1, bytes.fromhex(line[:HASH_BYTES].decode())):
            raise Damaged(f"entry {entry} isn't the one that was written")
        text = str(content_of(line)["line"])
        size = self._sizes[self.durable - 1] if self.durable else 0
        if size < entry:
            return Found(text, "")
        content, digest = line[HASH_BYTES + 1 : -1].decode("ascii"), line[:HASH_BYTES].decode()
        return Found(text, Receipt(content, digest, tuple(self.tree.inclusion_proof(entry - 1, size)), self.seals[self.durable - 1].signed).text)

    def _line_of(self, number: int) -> bytes:
        with open(segment_path(self.path, self._segments[number - 1]), "rb") as file:
            file.seek(self._places[number - 1])
            return file.readline()


def _command(line: bytes) -> Command:
    found = parse_line(text_of(line))
    assert isinstance(found, (Bid, Waive, Close, Stage))
    return found
