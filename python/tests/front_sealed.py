"""Days of a front with seals. The disk has a real record, with the book of its seals and a key, and the network to the authority that stamps comes
and goes. `front_promises` has what has to hold."""
from __future__ import annotations

import base64
import hashlib
import pathlib
import tempfile
from collections.abc import Callable, Iterator
from contextlib import contextmanager
from dataclasses import dataclass, field
from typing import Any
from unittest import mock

from front_days import MOST_MOVES, Caller, Day
from front_promises import Promise, Promises, answers_of, require
from front_round_days import RoundCaller, RoundDay
from front_rounds import RoundPromises
from front_world import ROLES, TREE, Disk, Wire, World
from hpb.front.core import effects, events
from hpb.front.core.effects import Effect
from hpb.front.core.state import For
from hpb.front.rights import Role, is_command, sender_and_ticket
from hpb.front.seals import on_disk
from hpb.record import New, Place, State
from hpb.record.entries import FORM, entry_line
from hpb.rules.tree import Tree
from hpb.rules.writing import fields_of
from hpb.seals import sealing
from hpb.seals.book import Book
from hpb.seals.checked import Checked, Given
from hpb.seals.checking import check
from hpb.seals.merkle import proves_consistency
from hpb.seals.receipt import read_receipt
from hpb.seals.signing import Signer, is_signed, make_key
from hpb.seals.statement import read_signed

AT = "2026-12-02T09:00:00.000000Z"
TIME = "2026-12-02T09:00:01Z"
OF_SEALS = (b"SEAL", b"RECEIPT")


def key() -> Signer:
    """A new key."""
    with tempfile.TemporaryDirectory() as room:
        return make_key(str(pathlib.Path(room) / "key"))


class MemoryBook(Book):
    """A book whose record is a list of lines."""

    def __init__(self, lines: list[bytes], signer: Signer) -> None:
        super().__init__("", signer)
        self.lines = lines
        for place, line in enumerate(lines):
            self.took(line, 1, place)
        self.durable = len(self.seals)

    def _line_of(self, number: int) -> bytes:
        return self.lines[self._entries[number - 1] - 1]


@dataclass
class SealedDisk(Disk):
    """A disk with a real record. `seals` and `stamps` count those that were ever on the disk."""

    has_seals = True
    signer: Signer = field(default_factory=key)
    tree: Tree = TREE
    lines: list[bytes] = field(default_factory=list)

    def __post_init__(self) -> None:
        line, _ = entry_line(Place(), "begin", {"form": FORM, "segment": 1, "definition": fields_of(self.tree.definition), "state": State().head()}, AT)
        self.lines.append(line)
        self.book = MemoryBook(self.lines, self.signer)

    def sync(self, count: int) -> None:
        for write in self.writes[:count]:
            line, _ = entry_line(self.place, write.kind, self.book.completed(New(write.kind, write.fields, AT), self.place), AT)
            self.book.took(line, 1, len(self.lines))
            self.lines.append(line)
        super().sync(count)

    def synced(self, count: int) -> events.Synced:
        self.sync(count)
        return events.Synced(count, self.place, tuple(on_disk(one) for one in self.book.synced()))

    def opened(self) -> events.RecordOpened:
        """The book is read from the disk."""
        self.book = book = MemoryBook(self.lines, self.signer)
        last, found = book.last(), super().opened()
        return events.RecordOpened(
            found.count, found.used, found.foreign, found.left, found.place, found.lines, found.clock, found.news, found.told, found.read, found.order,
            found.is_unveiled, book.closed, book.sealed, on_disk(last) if last else None,
        )

    @property
    def place(self) -> Place:
        return Place(len(self.lines), self.lines[-1][:64].decode())


@dataclass
class Network:
    """The authority that stamps, and the shell that asks it: for the first seal without a stamp, one at a time."""

    world: World
    is_there: bool = True
    posted: int = 0
    book: Book | None = None

    def turn(self) -> None:
        self.is_there = not self.is_there

    def move(self) -> None:
        """A front that was started again doesn't know any more which stamps are on their way."""
        book = book_of(self.world)
        self.book, self.posted = book, self.posted if book is self.book else 0
        signed = next((one for one in book.unstamped() if one.seal.number > self.posted), None)
        if self.world.front and self.is_there and signed:
            self.posted = signed.seal.number
            self.world.post(events.Stamped(self.posted, TIME, base64.b64encode(token_of(signed.stamped)).decode()))


def token_of(data: bytes) -> bytes:
    return f"{TIME} {hashlib.sha256(data).hexdigest()}".encode()


def look_up(world: World) -> None:
    """A seal or a receipt is looked up, as the shell does."""
    assert isinstance(world.disk, SealedDisk)
    if world.lookups:
        effect, book = world.lookups.pop(0), world.disk.book
        if effect.what == "SEAL":
            world.post(events.LookedUp(effect.session, book.seal_line(effect.number) or ""))
        elif found := book.receipt(effect.number):
            world.post(events.LookedUp(effect.session, found.receipt, found.line.encode()))
        else:
            world.post(events.LookedUp(effect.session))


# Callers.


@dataclass
class Asking(Caller):
    """A client that asks for seals and receipts, too."""

    def hear(self, wire: Wire, line: bytes) -> None:
        if wire is self.wire and self.line and self.line.startswith(OF_SEALS) and line.startswith(b"ERR front ") and line.split()[2] not in (b"token", b"many", b"idle"):
            self.line = None
        super().hear(wire, line)

    def next(self) -> bytes:
        source = self.world.source
        if source.random() < 0.2:
            return source.choice([b"SEAL", b"SEAL %d" % source.randint(1, 4), b"RECEIPT %d" % source.randint(1, 2 + len(self.world.server.file))])
        return super().next()


@dataclass
class AskingInRounds(Asking, RoundCaller):
    """The same, of a client that keeps to rounds."""


# Promises.


class SealPromises(Promises):
    """Checks in addition what a front with seals promises."""

    def forget(self) -> None:
        """How many seals were on the disk when a line was taken, by its connection and place."""
        super().forget()
        self.seals_at: dict[tuple[int, int], int] = {}

    def take(self, world: World, wire: Wire, line: bytes) -> None:
        super().take(world, wire, line)
        self.seals_at[wire.number, len(wire.taken) - 1] = book_of(world).durable

    def effect(self, world: World, effect: Effect) -> None:
        match effect:
            case effects.Write(kind, fields) if kind in ("accepted", "seal", "stamp"):
                self.look_at_order(world, kind, fields)
            case effects.Tell(_, line) if is_command(line) and self.has_admitted:
                require(not unsealed(world, has_sync=True), Promise.SEALED, f"{line!r} is told before the seal of close {unsealed(world, has_sync=True)}")
        super().effect(world, effect)

    def look_at_order(self, world: World, kind: str, fields: dict[str, Any]) -> None:
        stamps, closed = sum(kind == "stamp" for kind, _, _ in written(world)), unsealed(world)
        if kind == "accepted":
            require(not closed, Promise.SEALED, f"{fields['line']} comes before the seal of close {closed}")
        elif kind == "stamp":
            require(stamps + 1 == fields["seal"] <= book_of(world).durable, Promise.STAMPED, (fields["seal"], stamps, book_of(world).durable))
        elif fields["round"]:
            require(closed == fields["count"], Promise.SEALED, f"command {fields['count']} is sealed, and {closed} is the close without a seal")

    def look_at_sender(self, world: World, name: str, line: bytes) -> None:
        """The front itself asks for the state of a seal, in the auctioneer's session."""
        assert world.front
        session = world.front.sessions[world.front.names[name].session]
        if session.purpose is For.SEAL and session.line == line:
            require(name == "desk" and bool(unsealed(world)), Promise.SEALED, line)
            return
        super().look_at_sender(world, name, line)

    def look_at_wanted(self, world: World, wire: Wire, asked: bytes, line: bytes) -> None:
        words = asked.decode("latin-1").split(" ")
        if words[0] not in ("SEAL", "RECEIPT"):
            super().look_at_wanted(world, wire, asked, line)
        elif words[0] == "RECEIPT" and ROLES[wire.name].kind == "observer":
            require(line == b"ERR front rights", Promise.RIGHTS, (asked, line))
        else:
            seals = self.seals_at[wire.number, 1 + len(answers_of(wire))]
            if words[0] == "SEAL":
                self.look_at_seal(world, words, line, seals)
            else:
                self.look_at_receipt(world, ROLES[wire.name], int(words[1]), line, seals)

    def look_at_seal(self, world: World, words: list[str], line: bytes, seals: int) -> None:
        if line == b"ERR front unknown":
            require(seals < (int(words[1]) if len(words) > 1 else 1), Promise.RECEIPTS, (words, seals))
            return
        text, proof = line.decode().split(" CONSISTENCY ")
        signed, known = read_signed(text.split(" STAMPED ")[0]), [one.signed for one in book_of(world).seals]
        number = signed.seal.number
        require(known[number - 1] == signed and (len(words) == 1 or words[1] == str(number)), Promise.RECEIPTS, line)
        if number > 1:
            first, path = known[number - 2].seal, [bytes.fromhex(one) for one in proof.split(",") if one != "-"]
            is_right = proves_consistency(first.entries, signed.seal.entries, path, bytes.fromhex(first.root), bytes.fromhex(signed.seal.root))
            require(is_right, Promise.RECEIPTS, line)

    def look_at_receipt(self, world: World, role: Role, number: int, line: bytes, seals: int) -> None:
        """`seals` is how many seals were on the disk when the line was taken."""
        known = [one.signed for one in book_of(world).seals]
        own = [pair for pair in world.disk.accepted()[number - 1 : number] if is_own(role, pair[0])]
        if line.startswith(b"ERR "):
            is_sealed = bool(own) and seals > 0 and known[seals - 1].seal.count >= number
            is_right = line == b"ERR front unknown" or line == b"ERR front unsealed" and bool(own)
            require(is_right and not is_sealed, Promise.RECEIPTS, (line, own))
            return
        receipt = read_receipt(line.decode())
        require(own == [(receipt.fields["line"], f"OK {number}")], Promise.RECEIPTS, (role, line))
        require(not receipt.fault() and receipt.signed in known[max(0, seals - 1) :], Promise.RECEIPTS, line)

    def at_the_end(self, world: World) -> None:
        super().at_the_end(world)
        found = checked(world)
        require(not found.findings.found, Promise.VERIFIES, found.findings.said)
        closes = [number for number, line in enumerate(world.server.file, 1) if line.startswith("CLOSE ")]
        require([one.seal.count for one, _ in found.seals if one.seal.round] == closes, Promise.SEALED, closes)


class SealedRoundPromises(SealPromises, RoundPromises):
    """Those of rounds, too."""


def book_of(world: World) -> Book:
    assert isinstance(world.disk, SealedDisk)
    return world.disk.book


def is_own(role: Role, command: str) -> bool:
    sender, _ = sender_and_ticket(command.encode())
    return role.kind == "auctioneer" if sender is None else sender in role.bidders


def written(world: World) -> Iterator[tuple[str, dict[str, Any], bool]]:
    """All entries of the record: the kind, the fields, and whether it is on the disk."""
    for entry in world.disk.entries:
        yield entry["kind"], entry, True
    for write in world.disk.writes:
        yield write.kind, write.fields, False


def unsealed(world: World, has_sync: bool = False) -> int:
    """The number of the last command, if it is a CLOSE without a seal, or with `has_sync` without one on the disk; else 0."""
    closed = 0
    for kind, fields, is_synced in written(world):
        if kind == "accepted":
            closed = int(fields["answer"][3:]) if fields["line"].startswith("CLOSE ") else 0
        elif kind == "seal" and (is_synced or not has_sync):
            closed = 0
    return closed


def checked(world: World) -> Checked:
    """The check of the record on the disk, with signatures by the library, and stamps by their form here."""
    assert isinstance(world.disk, SealedDisk)
    with tempfile.TemporaryDirectory(dir="/dev/shm") as room, by_library():
        path = pathlib.Path(room) / "R"
        path.write_bytes(b"".join(world.disk.lines))
        return check(str(path), Given([world.disk.signer.public], authority=b"here"))


@contextmanager
def by_library() -> Iterator[None]:
    def fault(token: bytes, data: bytes, authority: bytes) -> str:
        return "" if token == token_of(data) else "it is one of something else"

    with mock.patch.object(sealing, "is_signed", is_signed), mock.patch.object(sealing, "stamp_fault", fault), \
            mock.patch.object(sealing, "time_in", lambda token: token.decode().split(" ")[0]):
        yield


# Days.


class Sealing(Day):
    """Adds seals to a day. A fault more is `offline`: there is no network for a while."""

    network: Network

    def seal(self, promises: SealPromises, caller: type[Asking]) -> None:
        self.world.disk = SealedDisk()
        self.world.watch = self.promises = promises
        self.callers = [caller(self.world, one.name) for one in self.callers]
        self.network = Network(self.world)

    def benign(self) -> list[tuple[Callable[[], None], int]]:
        return [*super().benign(), (lambda: look_up(self.world), 20), (self.network.move, 5)]

    def wild(self) -> list[tuple[Callable[[], None], int]]:
        return super().wild() + ([(self.network.turn, 1)] if "offline" in self.faults else [])

    def calm_down(self) -> None:
        super().calm_down()
        self.network.is_there = True

    def end(self) -> None:
        """Before the front stops all seals are stamped."""
        for _ in range(MOST_MOVES):
            if self.world.is_admitting and not book_of(self.world).unstamped():
                break
            self.move(self.benign())
        else:
            require(False, Promise.STAMPED, book_of(self.world).unstamped())
        super().end()


class SealedDay(Sealing, Day):
    """A day of a front with seals."""

    def __init__(self, seed: int, faults: frozenset[str] = frozenset()) -> None:
        super().__init__(seed, faults)
        self.seal(SealPromises(), Asking)


class SealedRoundDay(Sealing, RoundDay):
    """A day of a front with seals whose rounds keep time."""

    def __init__(self, seed: int, plan: str = "lengths", faults: frozenset[str] = frozenset()) -> None:
        super().__init__(seed, plan, faults)
        self.seal(SealedRoundPromises(), AskingInRounds)
