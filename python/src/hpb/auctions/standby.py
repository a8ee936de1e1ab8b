"""Waits until the file and the record of an auction can be had, as when the machine that served it is lost, and serves then.

It doesn't wait on a volume whose options break one of the seven promises of docs/SCALE.md.
"""
import contextlib
import datetime
import fcntl
import os
import pathlib
import sys
import time
from collections.abc import Callable
from dataclasses import dataclass
from typing import NoReturn

from hpb.auctions.folder import Auction, CantDo
from hpb.file import read_image
from hpb.lines import Shown, parse_answer
from hpb.own_files import open_own
from hpb.program import Copy
from hpb.refusals import DeviceFault, HpbError

LOOK_SECONDS = 0.2
LOCK = "standby.lock"
GLUSTER = "fuse.glusterfs"
# Kinds of file systems that are one machine's own. Nothing is known of the device below.
OWN = ("ext4", "xfs", "btrfs", "tmpfs", "overlay")
# The least copies of a volume, so that most of them are left if one is lost.
COPIES = 3


@dataclass(frozen=True)
class Option:
    """An option that a part of a mounted GlusterFS has to have, the value, and the promise that it keeps, by its number in docs/SCALE.md."""

    part: str
    field: str
    wanted: str
    promise: int
    set: str


OPTIONS = (
    Option("replicate", "quorum-type", "auto", 4, "cluster.quorum-type auto"),
    Option("client", "strict-locks", "on", 5, "client.strict-locks on"),
)
# Parts that keep something in the memory of one machine, by the promise that they break, and the option that takes them out.
PARTS = {
    "write-behind": (1, "performance.write-behind off"),
    "quick-read": (6, "performance.quick-read off"),
    "io-cache": (6, "performance.io-cache off"),
    "md-cache": (6, "performance.stat-prefetch off"),
    "read-ahead": (6, "performance.read-ahead off"),
    "open-behind": (6, "performance.open-behind off"),
}


def look_at_volume(folder: pathlib.Path) -> str:
    """Words about the file system of a folder. If it breaks a promise, or isn't known, CantDo names that."""
    place, kind = mounted_at(folder)
    if kind in OWN:
        return f"{kind} of this machine: what it is on isn't known"
    if kind != GLUSTER:
        raise CantDo(f"{place}: nothing is known of {kind}, and whether it keeps the seven promises of docs/SCALE.md")
    parts = parts_of(place)
    copies = [part for name, part in parts.items() if "-client-" in name]
    if len(copies) < COPIES:
        raise broken(place, 1, f"it has {len(copies)} copies, and not {COPIES}", f"replica {COPIES}")
    for name, (promise, change) in PARTS.items():
        if any(part.endswith(f"-{name}") for part in parts):
            raise broken(place, promise, f"{name} is on", change)
    for option in OPTIONS:
        for name, part in parts.items():
            if f"-{option.part}-" in name and value_of(part / "options" / option.field) != option.wanted:
                raise broken(place, option.promise, f"{option.field} isn't {option.wanted}", option.set)
    return f"{len(copies)} copies at {place}"


def broken(place: pathlib.Path, promise: int, why: str, change: str) -> CantDo:
    return CantDo(f"{place} breaks promise {promise} of docs/SCALE.md: {why}. Set {change}, and mount it again")


def mounted_at(folder: pathlib.Path) -> tuple[pathlib.Path, str]:
    """The place at which the file system of a folder is mounted, and its kind."""
    place = folder.resolve()
    while not os.path.ismount(place):
        place = place.parent
    rows = [line.split(" ") for line in pathlib.Path("/proc/self/mountinfo").read_text(encoding="utf-8").splitlines()]
    kinds = [row[row.index("-") + 1] for row in rows if row[4] == str(place)]
    if not kinds:
        raise CantDo(f"{place}: its file system isn't known")
    return place, kinds[-1]


def parts_of(place: pathlib.Path) -> dict[str, pathlib.Path]:
    """The parts of a mounted GlusterFS that are in use, by their names: its mount shows them."""
    try:
        return {part.name: part for part in (place / ".meta" / "graphs" / "active").iterdir()}
    except OSError as fault:
        raise CantDo(f"{place}: the options of the volume can't be read: {fault.strerror}") from None


def value_of(path: pathlib.Path) -> str:
    """The value of an option, or nothing if it isn't set."""
    try:
        return path.read_text(encoding="utf-8").strip()
    except OSError:
        return ""


@dataclass(frozen=True)
class Turn:
    """The files that have to be had before an auction is served. Of several standbys the one that has `lock` looks at the others; its front
    keeps it."""

    lock: int
    record: pathlib.Path
    file: pathlib.Path
    program: str

    @classmethod
    def of(cls, auction: Auction, program: str) -> "Turn":
        try:
            # The front inherits it.
            lock = open_own(str(auction.folder / LOCK), os.O_RDWR)
        except OSError as fault:
            raise CantDo(f"{auction.folder / LOCK}: {fault.strerror}") from None
        os.set_inheritable(lock, True)
        return cls(lock, auction.path("record"), auction.path("file"), program)

    def count(self) -> int:
        """The commands in the file, if nobody else has any of the files. Else a Busy or an OSError is raised, and CantDo if the file is
        refused."""
        take(self.lock, fcntl.LOCK_EX, "another standby waits, or is its front")
        with contextlib.suppress(FileNotFoundError):
            look(self.record, "a front has its record")
        try:
            look(self.file, "another hpb has its file")
            image = read_image(self.file, is_quiet=False)
        except DeviceFault as fault:
            raise Busy(f"{self.file}: {fault.brief}") from None
        except FileNotFoundError:
            raise CantDo(f"{self.file} isn't there") from None
        try:
            with Copy(self.program, image) as copy:
                shown = parse_answer(copy.check()[0])
        except HpbError as fault:
            raise CantDo(f"{self.file}: {fault}") from None
        assert isinstance(shown, Shown)
        return shown.count


class Busy(HpbError):
    """Somebody else has a file, or it can't be reached now."""


def take(file: int, how: int, why: str) -> None:
    """Takes a lock, or raises a Busy that says why it can't be had."""
    try:
        fcntl.flock(file, how | fcntl.LOCK_NB)
    except BlockingIOError:
        raise Busy(why) from None


def look(path: pathlib.Path, why: str) -> None:
    """Sees that nobody has a file, or raises a Busy that says why it can't be had."""
    file = os.open(path, os.O_RDONLY | os.O_CLOEXEC | os.O_NONBLOCK)
    try:
        take(file, fcntl.LOCK_SH, why)
    finally:
        os.close(file)


def wait(turn: Turn, say: Callable[[str], None]) -> int:
    """Waits until all files can be had, and returns how many commands there are. `say` hears why it waits, each reason once in a row."""
    told = ""
    while True:
        try:
            return turn.count()
        except (Busy, OSError) as fault:
            why = fault.strerror or str(fault) if isinstance(fault, OSError) else str(fault)
        if why != told:
            say(f"WAITING {why}")
            told = why
        time.sleep(LOOK_SECONDS)


def serve(auction: Auction, program: str, say: Callable[[str], None]) -> NoReturn:
    """Waits, and then becomes the front of the auction. A CantDo says why it can't."""
    seen = look_at_volume(auction.folder)
    turn = Turn.of(auction, program)
    say(f"STANDBY {auction.name}: {seen}")
    began = time.monotonic()
    count = wait(turn, say)
    at = datetime.datetime.now(datetime.UTC).isoformat(timespec="milliseconds").replace("+00:00", "Z")
    say(f"TOOK OVER {auction.name} AT {at} COUNT {count} WAITED {time.monotonic() - began:.1f}")
    os.execv(sys.executable, [sys.executable, "-P", "-m", "hpb.commands.front", "--config", str(auction.configuration)])
