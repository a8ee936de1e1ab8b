"""Sealed records of small auctions, written as a front writes them, and the same written anew behind a change."""

from __future__ import annotations

import base64
import json
import subprocess
from collections.abc import Callable, Sequence
from pathlib import Path
from typing import Any

from stamps import Authority

from hpb.lines import Accepted
from hpb.record import Entry, New, Place, RecordFile
from hpb.record.entries import entry_line
from hpb.record.segments import MOST_SEGMENT
from hpb.rules import Auction, answer, begin, read_definition
from hpb.rules.writing import definition_line, fields_of
from hpb.seals.book import Book
from hpb.seals.openssl import query_for, time_in, token_in
from hpb.seals.sealing import answers_of
from hpb.seals.signing import Signer
from hpb.seals.statement import Seal, SignedSeal

DEFINITION: dict[str, Any] = {
    "step": 10, "percent": 10, "stages": [80],
    "nodes": [
        {"name": "all", "parent": None}, {"name": "a", "parent": "all", "units": 10, "opening": 100},
        {"name": "b", "parent": "all", "units": 10, "opening": 100},
    ],
    "bidders": [{"name": "x", "units": 20}, {"name": "y", "units": 20}],
}
SENDERS = {"x": "ann", "y": "bob"}
# A day of two rounds.
DAY = ["BID x 1 a 100", "BID y 1 all 220", "CLOSE 1", "BID x 2 b 200", "CLOSE 2"]
AT = "2026-12-01T12:{:02}:{:02}.000000Z"
# The fields that each entry has, and gets anew if it is written anew.
OWN = ("entry", "before", "at", "kind", "synced")
Lie = Callable[[Seal], Seal]


class LyingBook(Book):
    """The book of a key's owner who signs what isn't so."""

    def __init__(self, path: str, signer: Signer, lie: Lie) -> None:
        super().__init__(path, signer)
        self.lie = lie

    def _signed(self, entry: New, place: Place, salt: str) -> SignedSeal:
        seal = self.lie(super()._signed(entry, place, salt).seal)
        return SignedSeal(seal, self.signer.sign(seal.text))


class Writer:
    """Writes a record as a front does, each entry with the next second as its time."""

    def __init__(
        self, path: Path, signer: Signer, authority: Authority | None = None, most_segment: int = MOST_SEGMENT, definition: object = DEFINITION,
    ) -> None:
        self.path, self.authority, self.seconds = path, authority, 0
        self.record = RecordFile(str(path), most_segment)
        self.definition = read_definition(json.dumps(definition).encode())
        self.senders = {bidder.name: SENDERS.get(bidder.name, f"of_{bidder.name}") for bidder in self.definition.bidders}
        self.auction: Auction = begin(self.definition)
        self.record.open()
        self.record.begin(fields_of(self.definition))
        self.take_key(signer)
        # What the answers of a seal are, if they aren't those of the auction.
        self.change_answers: Callable[[list[str]], list[str]] = lambda answers: answers

    def take_key(self, signer: Signer, lie: Lie = lambda seal: seal) -> None:
        """Goes on with a key, whose owner may lie."""
        self.book = LyingBook(str(self.path), signer, lie)
        self.book.read()
        self.record.book = self.book

    def add(self, kind: str, **fields: object) -> None:
        self.seconds += 1
        self.record.write([New(kind, dict(fields), AT.format(*divmod(self.seconds, 60)))])
        self.book.synced()

    def start(self) -> None:
        names: dict[str, object] = {"desk": "auctioneer"}
        names.update({name: [bidder] for bidder, name in self.senders.items()})
        self.add("started", names=names, count=self.auction.count)

    def tell(self, line: str) -> None:
        """Takes a command, which has to be accepted, and seals a close."""
        self.auction, told = answer(self.auction, line)
        assert isinstance(told, Accepted), told
        self.add("accepted", name=self.senders.get(line.split(" ")[1], "desk"), line=line, answer=f"OK {self.auction.count}")
        if line.startswith("CLOSE "):
            answers = self.change_answers(answers_of(self.auction))
            self.add("seal", round=self.auction.round - (not self.auction.is_over), count=self.auction.count, answers=answers)
            self.stamp()

    def stop(self) -> None:
        self.add("stopped", count=self.auction.count)
        self.add("seal", round=0, count=self.auction.count, answers=[])

    def day(self, lines: Sequence[str] = DAY) -> Writer:
        """A whole day of one front."""
        self.start()
        for line in lines:
            self.tell(line)
        self.stop()
        self.record.close()
        return self

    def stamp(self) -> None:
        if self.authority:
            signed = self.book.seals[-1].signed
            token = token_in(self.authority.reply(query_for(signed.stamped)))
            self.add("stamp", seal=signed.seal.number, time=time_in(token), token=base64.b64encode(token).decode())

    @property
    def lines(self) -> list[str]:
        return self.path.read_text().splitlines()


def text_of(definition: object) -> str:
    """A definition as its line."""
    return definition_line(read_definition(json.dumps(definition).encode()))


def file_of(program: Path | str, room: Path, lines: Sequence[str], definition: object = DEFINITION) -> bytes:
    """The file of an auction with these commands, which the program has to accept."""
    file = room / "file"
    file.unlink(missing_ok=True)
    given = "".join(f"{line}\n" for line in lines)
    for words, text in ((["format", "--file", str(file), "--journal", "16"], text_of(definition)), (["run", "--file", str(file)], given)):
        ran = subprocess.run([str(program), *words], input=text, text=True, check=True, capture_output=True, timeout=60)
        assert "ERR" not in ran.stdout, ran
    return file.read_bytes()


def entry_of(line: str) -> Entry:
    return dict(json.loads(line[65:]))


def rewritten(entries: Sequence[Entry]) -> list[str]:
    """The lines of these entries, numbered and hashed anew."""
    place, made = Place(), list[str]()
    for entry in entries:
        fields = {name: value for name, value in entry.items() if name not in OWN}
        line, place = entry_line(place, entry["kind"], fields, entry["at"], entry.get("synced"))
        made.append(line.decode().rstrip("\n"))
    return made


def at(entries: Sequence[Entry], kind: str, place: int = 0) -> int:
    """The number of an entry of this kind, counted from 0."""
    return [int(entry["entry"]) for entry in entries if entry["kind"] == kind][place]
