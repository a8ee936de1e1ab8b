"""Backups of an auction, also while its front runs: made whole or not at all, checked, and taken back (packaging/README.md)."""
import hashlib
import os
import pathlib
import shutil
from collections.abc import Iterator
from contextlib import contextmanager
from dataclasses import dataclass, field

from hpb.auctions.folder import Auction, CantDo, failing
from hpb.auctions.freezing import Moment, moment_of
from hpb.auctions.parts import Parts, give_name, locked, parts_of, put, sync
from hpb.file import read_auction
from hpb.record.entries import Place
from hpb.refusals import Refused, says
from hpb.seals.chain import read_chain
from hpb.seals.checked import Checked, Given
from hpb.seals.checking import look_at_commands, look_at_definition, look_at_file
from hpb.seals.findings import Findings

# The list of a backup's files with the SHA-256 of each, as sha256sum writes and reads it. It is written last.
SUMS = "SHA256SUMS"
# Beside the record: commands whose answers a front that was killed didn't get.
ASKED = "asked"


@dataclass(frozen=True)
class Backup:
    """What a backup has: so many commands, the place behind the last entry, and the hashes of all entries. `seconds` is how long the commands
    of a front that runs waited for it, and `handed` are the fields whose files it can't have."""

    count: int
    place: Place
    hashes: list[str] = field(default_factory=list)
    seconds: float | None = None
    handed: tuple[str, ...] = ()


def make(auction: Auction, to: pathlib.Path) -> Backup:
    """Makes a backup in a new folder. If it is killed, there is no such folder, and the next try begins anew."""
    parts = parts_of(auction.folder)
    with new_folder(to) as room:
        moment = moment_of(auction, parts)
        files = files_of(parts, moment)
        for name, data in files.items():
            put(room / name, data)
        found = look_inside(room)
        put(room / SUMS, "".join(f"{hashlib.sha256(files[name]).hexdigest()}  {name}\n" for name in sorted(files)).encode())
    return Backup(found.count, found.place, found.hashes, moment.seconds, parts.handed)


@contextmanager
def new_folder(to: pathlib.Path) -> Iterator[pathlib.Path]:
    """A folder that gets this name once all in it is on the disk. What an earlier try left of it goes."""
    with locked(to.parent), failing(to):
        if os.path.lexists(to):
            raise CantDo(f"{to} is there already")
        room = to.parent / f".{to.name}.new"
        shutil.rmtree(room, ignore_errors=True)
        try:
            room.mkdir(mode=0o700)
            yield room
            sync(room)
            give_name(room, to)
        except BaseException:
            shutil.rmtree(room, ignore_errors=True)
            raise


def files_of(parts: Parts, moment: Moment) -> dict[str, bytes]:
    """The bytes of each file. The record's end is cut at the moment of the file."""
    files, names = {parts.file: moment.image}, list(parts.others)
    segments = parts.segments()
    if moment.place is None:
        beside = f"{parts.record}.{ASKED}"
        names += [*segments, *([beside] if (parts.folder / beside).exists() else [])]
    for name in names:
        files[name] = (parts.folder / name).read_bytes()
    return files | (up_to(parts.folder, segments, moment.place) if moment.place else {})


def up_to(folder: pathlib.Path, segments: list[str], place: Place) -> dict[str, bytes]:
    """The segments up to an entry. All before the last one stay as they are once it has begun."""
    files, wanted = dict[str, bytes](), f"{place.hash} ".encode()
    for name in segments:
        files[name] = data = (folder / name).read_bytes()
        found = 0 if data.startswith(wanted) else data.find(b"\n" + wanted) + 1
        if found or data.startswith(wanted):
            files[name] = data[: data.index(b"\n", found) + 1]
            return files
    raise CantDo(f"{folder}: its record has no entry {place.number}: it was changed meanwhile")


def look_inside(folder: pathlib.Path) -> Backup:
    """Checks that record and file of a backup belong together: each entry, each command by the rules, and the auction in the file."""
    parts = parts_of(folder)
    image, count, hashes = (folder / parts.file).read_bytes(), 0, list[str]()
    if parts.segments():
        checked = checked_record(str(folder / parts.record), image)
        if checked.findings.found:
            raise CantDo(f"{folder}: {'; '.join(one.text for one in checked.findings.found)}{hint(folder, parts)}")
        assert checked.auction
        count, hashes = checked.auction.count, checked.chain.hashes
    else:
        try:
            count = read_auction(image).auction.count
        except Refused as fault:
            raise CantDo(f"{folder / parts.file}: {says(fault)}") from None
        if count:
            raise CantDo(f"{folder}: the file has {count} commands, and there is no record")
    return Backup(count, Place(len(hashes), hashes[-1]) if hashes else Place(), hashes, handed=parts.handed)


def checked_record(record: str, image: bytes) -> Checked:
    findings = Findings()
    checked = Checked(read_chain(record, findings), findings)
    if checked.chain.is_whole:
        look_at_definition(checked, Given())
        look_at_commands(checked)
        look_at_file(checked, Given(image=image))
    return checked


def hint(folder: pathlib.Path, parts: Parts) -> str:
    """A front that was killed may have left commands whose entries it didn't write."""
    return "; if its front was killed, start it once, and stop it" if (folder / f"{parts.record}.{ASKED}").exists() else ""


def verify(folder: pathlib.Path) -> Backup:
    """Checks that a backup is whole: each byte by its list, and then as `look_inside` does."""
    with failing(folder):
        try:
            rows = [line.split("  ", 1) for line in (folder / SUMS).read_text("utf-8").splitlines()]
            sums = {name: digest for digest, name in rows}
        except FileNotFoundError:
            raise CantDo(f"{folder}: it has no {SUMS}, so it is no whole backup") from None
        except ValueError:
            raise CantDo(f"{folder / SUMS}: it is no list of sums") from None
        there = {one.name for one in folder.iterdir()} - {SUMS}
        for name in sorted(there ^ sums.keys()):
            raise CantDo(f"{folder}: {name} {'is missing' if name in sums else 'is not in its list'}")
        for name, digest in sums.items():
            if hashlib.sha256((folder / name).read_bytes()).hexdigest() != digest:
                raise CantDo(f"{folder}: {name} was changed: its SHA-256 is another")
        return look_inside(folder)
