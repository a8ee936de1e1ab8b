"""The seals of a front: the table `[seals]` of a configuration, its key, and the answers to lines about seals (docs/VERIFY.md)."""
import asyncio
import os
import pathlib
import re
from collections.abc import Callable
from dataclasses import dataclass, replace
from typing import Any

from hpb.front.core.effects import LookUp
from hpb.front.core.events import Event, LookedUp, RecordOpened, SealOnDisk
from hpb.front.faults import Stops, Wrong
from hpb.record import Damaged, RecordFile
from hpb.seals.book import Book, Sealed
from hpb.seals.signing import NoKey, Signer, credential_path, make_key, read_key
from hpb.seals.statement import SignedSeal
from hpb.threads import Worker

Table = dict[str, Any]
KEY, CREDENTIAL, STAMPS, AUTHORITY = "key", "credential", "stamps", "authority"
FIELDS = {KEY, CREDENTIAL, STAMPS, AUTHORITY}
_URL = re.compile(r"https?://[!-~]+")
# The pause before something is looked up again for which memory was refused.
AGAIN_SECONDS = 0.5


@dataclass(frozen=True)
class StampsPlace:
    """The address of an authority that stamps, and the file of its certificates."""

    url: str
    authority: str


@dataclass(frozen=True)
class SealsPlace:
    """The key of seals: a file, or the name of a credential of systemd. `stamps` is the authority that stamps them, if one does."""

    key: str | None = None
    credential: str | None = None
    stamps: StampsPlace | None = None

    @classmethod
    def read(cls, given: Table, folder: pathlib.Path) -> "SealsPlace":
        for field in given:
            if field not in FIELDS:
                raise Wrong(f"seals.{field}: there is no such field")
        texts = {field: text_of(given, field) for field in sorted(FIELDS) if field in given}
        if (KEY in texts) == (CREDENTIAL in texts):
            raise Wrong("seals has to have a key or a credential, and one of them alone")
        if "/" in texts.get(CREDENTIAL, ""):
            raise Wrong("seals.credential is the name of a credential of systemd, without a folder")
        if (STAMPS in texts) != (AUTHORITY in texts):
            raise Wrong("seals.stamps, the address of an authority, and seals.authority, its certificates, belong together")
        stamps = None
        if STAMPS in texts:
            if not _URL.fullmatch(texts[STAMPS]):
                raise Wrong(f"seals.stamps: {texts[STAMPS]!r} is no address as http://stamps.example/tsr is")
            stamps = StampsPlace(texts[STAMPS], str(folder / texts[AUTHORITY]))
        return cls(str(folder / texts[KEY]) if KEY in texts else None, texts.get(CREDENTIAL), stamps)

    def signer(self) -> Signer:
        """The key. A Wrong says why there is none."""
        try:
            if self.credential is not None:
                return read_key(credential_path(self.credential), is_credential=True)
            return read_key(self.key or "")
        except NoKey as fault:
            raise Wrong(f"seals: {fault}") from None

    def make(self) -> Signer:
        """Makes the key, in a file that isn't there yet."""
        if self.key is None:
            raise Wrong("seals: a key is made in a file: name it as `key`")
        try:
            return make_key(self.key)
        except FileExistsError:
            raise Wrong(f"seals: {self.key} is there already, and nothing is written over it") from None
        except NoKey as fault:
            raise Wrong(f"seals: {fault}") from None


def text_of(given: Table, field: str) -> str:
    value = given[field]
    if not isinstance(value, str) or not value or "\0" in value:
        raise Wrong(f"seals.{field} has to be a text")
    return value


def on_disk(sealed: Sealed) -> SealOnDisk:
    signed = sealed.signed
    return SealOnDisk(signed.seal.number, signed.seal.round, signed.seal.count, signed.line, sealed.stamped_at)


class Seals:
    """The seals of an open record."""

    def __init__(self, record: RecordFile, signer: Signer) -> None:
        """Reads the whole record. A Stops says that a seal in it isn't that of its entries."""
        self.book = Book(record.path, signer)
        try:
            self.book.read()
        except Damaged as fault:
            name = os.path.basename(record.path)
            raise Stops(f"the record was changed: {fault}. Keep a copy of {name}, and start again with its newest backup") from None
        except (LookupError, TypeError, ValueError):
            raise Stops("the record has an entry that no front writes") from None
        record.book = self.book

    def unstamped(self) -> list[SignedSeal]:
        return self.book.unstamped()

    @property
    def warnings(self) -> list[str]:
        """What the operator has to know of the seals so far."""
        return [f"warning: seals of this record were signed by another key, {key}" for key in self.book.other_keys]

    def fresh(self) -> tuple[SealOnDisk, ...]:
        """The seals that came to the disk since the last call."""
        return tuple(on_disk(one) for one in self.book.synced())

    def told(self, opened: RecordOpened) -> RecordOpened:
        """The record's event, with its last CLOSE and its last seal."""
        last = self.book.last()
        return replace(opened, closed=self.book.closed, sealed=self.book.sealed, seal=on_disk(last) if last else None)


class Finder:
    """Looks seals and receipts up, in a thread of its own: the record's disk may hang."""

    def __init__(self, seals: Seals, post: Callable[[Event], None], begin: Callable[[Any], object]) -> None:
        self.book, self.post, self.begin = seals.book, post, begin
        self.worker: Worker[LookUp, LookedUp] = Worker(self.found)

    def look_up(self, effect: LookUp) -> None:
        self.begin(self.answer(effect))

    async def answer(self, effect: LookUp) -> None:
        """Looks up until memory isn't refused."""
        while True:
            try:
                self.post(await self.worker.do(effect))
                return
            except MemoryError:
                await asyncio.sleep(AGAIN_SECONDS)

    def found(self, effect: LookUp) -> LookedUp:
        """Runs in the thread. A Stops says that the record can't be read, or was changed."""
        if effect.what == "SEAL":
            return LookedUp(effect.session, self.book.seal_line(effect.number) or "")
        try:
            found = self.book.receipt(effect.number)
        except Damaged as fault:
            raise Stops(f"another program changed the record: {fault}") from None
        except OSError as fault:
            raise Stops(f"the record can't be read: {fault.strerror}") from None
        return LookedUp(effect.session, found.receipt, found.line.encode("latin-1")) if found else LookedUp(effect.session)
