"""Takes a backup back. Nothing that was accepted since is ever lost by that: an auction that has more stays as it is."""
import os
import pathlib
import shutil
from typing import Final

from hpb.auctions import backup
from hpb.auctions.backup import Backup
from hpb.auctions.folder import Auction, Auctions, CantDo, failing
from hpb.auctions.making import become_owner
from hpb.auctions.parts import exchange, give_name, locked, parts_of, put, standing, sync
from hpb.file import read_auction
from hpb.record.segments import first_line
from hpb.refusals import Refused
from hpb.seals.chain import Chain, read_chain
from hpb.seals.findings import Findings

# A new folder has this file as long as something is missing from it.
HALF: Final = ".half"
MOST_BEFORE: Final = 1_000


def restore(auctions: Auctions, name: str, source: pathlib.Path) -> Backup:
    """Makes an auction of a backup. If there is one of that name, it is exchanged by one step, and kept beside the new one. A CantDo says that
    it has more than the backup, and names what would be lost."""
    found = backup.verify(source)
    with failing(source):
        files = {one.name: one.read_bytes() for one in source.iterdir() if one.name != backup.SUMS}
    record, file = parts_of(source).record, parts_of(source).file
    become_owner(auctions)
    wanted = auctions.place(name)
    with locked(auctions.folder), failing(auctions.folder), standing(wanted.folder / record, wanted.folder / file):
        look_for_other(auctions, wanted, files.get(record, b""))
        if os.path.lexists(wanted.folder):
            look_for_loss(wanted, found, record, file)
            room = free_place(wanted.folder)
        else:
            room = auctions.folder / f".{name}.new"
            shutil.rmtree(room, ignore_errors=True)
        fill(room, files)
        if os.path.lexists(wanted.folder):
            exchange(room, wanted.folder)
        else:
            give_name(room, wanted.folder)
    return found


def fill(room: pathlib.Path, files: dict[str, bytes]) -> None:
    """Makes a folder of files. It has the mark of a half one until all are on the disk."""
    room.mkdir(mode=0o700)
    put(room / HALF, b"")
    for name, data in files.items():
        put(room / name, data)
    sync(room)
    os.unlink(room / HALF)
    sync(room)


def free_place(folder: pathlib.Path) -> pathlib.Path:
    """The place that keeps the auction of now after the exchange. It is beside its folder, under a name that no auction has. Half folders there go."""
    for number in range(1, MOST_BEFORE):
        place = folder.parent / f"{folder.name}.before-{number}"
        if (place / HALF).exists():
            shutil.rmtree(place)
        if not os.path.lexists(place):
            return place
    raise CantDo(f"{folder.parent} has {MOST_BEFORE - 1} folders {folder.name}.before-..: remove some")


def look_for_other(auctions: Auctions, wanted: Auction, record: bytes) -> None:
    """Two fronts must never serve one auction: a CantDo names another auction of the folder with the same record."""
    begin = record[: record.find(b"\n") + 1]
    for other in auctions.all():
        if begin and other.name != wanted.name and beginning_of(other) == begin:
            raise CantDo(f"{other.name} has the same record, and two would be served as one auction: move it away first")


def beginning_of(auction: Auction) -> bytes:
    """The first entry of an auction's record; empty if there is none, or if the configuration can't be read."""
    try:
        return first_line(str(auction.path("record"))) if auction.has_record() else b""
    except CantDo:
        return b""


def look_for_loss(there: Auction, found: Backup, record: str, file: str) -> None:
    """A CantDo names what the auction that is there has and the backup hasn't."""
    chain = read_chain(str(there.folder / record), findings := Findings())
    away = f"To take the backup all the same, move {there.folder} away first"
    if not chain.hashes and not (there.folder / record).exists():
        count = count_in(there.folder / file)
        if count > found.count:
            raise CantDo(f"commands {found.count + 1} to {count} of {there.folder / file} would be lost. {away}")
        return
    if not chain.is_whole:
        raise CantDo(f"the record that is there can't be read whole, so nobody knows what would be lost: {findings.found[0].text}. {away}")
    both = min(len(chain.hashes), len(found.hashes))
    if chain.hashes[:both] != found.hashes[:both]:
        raise CantDo(f"the record that is there is another one than the backup's. {away}")
    if len(chain.hashes) > len(found.hashes):
        raise CantDo(f"the backup is older than the record that is there: {lost(chain, found)} would be lost. {away}")
    if (count := count_in(there.folder / file)) > found.count:
        raise CantDo(f"commands {found.count + 1} to {count} of {there.folder / file} would be lost. {away}")


def lost(chain: Chain, found: Backup) -> str:
    """What stands behind a backup in a record, in words."""
    behind = chain.entries[len(found.hashes) :]
    commands = [entry for entry in behind if entry["kind"] == "accepted"]
    words = f"entries {len(found.hashes) + 1} to {len(chain.entries)}"
    if not commands:
        return f"{words}, which have no command,"
    first, last = found.count + 1, found.count + len(commands)
    return f"{words}, with {f'command {first}' if first == last else f'commands {first} to {last}'}, the last one {commands[-1]['line']!r} at {commands[-1]['at']},"


def count_in(file: pathlib.Path) -> int:
    """How many commands an auction's file has; 0 if it can't be read, since the backup is there for that."""
    try:
        return read_auction(file.read_bytes()).auction.count
    except (Refused, OSError):
        return 0
