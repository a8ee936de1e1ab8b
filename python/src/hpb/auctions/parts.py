"""The files of an auction, and copies of them that are on the disk before they have their names."""
import contextlib
import ctypes
import fcntl
import os
import pathlib
import shutil
import stat
from collections.abc import Iterator
from dataclasses import dataclass
from typing import Any

from hpb.auctions.folder import CONFIGURATION, Auction, CantDo, failing
from hpb.front.config import CREDENTIALS
from hpb.record import Damaged
from hpb.record.segments import segment_paths

# Fields of a configuration that name files of an auction besides the file and the record; and those of its table of seals.
KEPT, KEPT_OF_SEALS = ("tokens", "certificate", "key"), ("key", "authority")
LIBRARY = ctypes.CDLL(None, use_errno=True)
AT_FOLDER, EXCHANGE = -100, 2


@dataclass(frozen=True)
class Parts:
    """The names of an auction's files in its folder. `others` are configuration, tokens, certificates and keys. `handed` are the fields whose
    files a service manager hands in: no copy has these."""

    folder: pathlib.Path
    file: str
    record: str
    others: tuple[str, ...]
    handed: tuple[str, ...]

    def segments(self) -> list[str]:
        """The names of the record's segments, in order."""
        try:
            return [os.path.basename(path) for path in segment_paths(str(self.folder / self.record))]
        except Damaged as fault:
            raise CantDo(f"{self.folder / self.record}: {fault}") from None


def parts_of(folder: pathlib.Path) -> Parts:
    """The files of an auction, by its configuration. A CantDo says that one of them has another folder."""
    fields = Auction(folder.name, folder).fields()
    wanted = {field: fields.get(field) for field in ("file", "record", *KEPT)}
    seals = fields.get("seals")
    wanted |= {f"seals.{field}": seals.get(field) for field in KEPT_OF_SEALS} if isinstance(seals, dict) else {}
    names, handed = dict[str, str](), list[str]()
    for field, word in wanted.items():
        if isinstance(word, str) and word.startswith(CREDENTIALS):
            handed.append(field)
        elif word is not None:
            names[field] = own_name(folder, field, word)
    for field in ("file", "record"):
        if field not in names:
            raise CantDo(f"{folder / CONFIGURATION}: {field} has to be there, as a text")
    others = dict.fromkeys([CONFIGURATION, *(name for field, name in names.items() if field not in ("file", "record"))])
    return Parts(folder, names["file"], names["record"], tuple(others), tuple(handed))


def own_name(folder: pathlib.Path, field: str, word: Any) -> str:
    """The name of a file that stands in the auction's folder itself."""
    if not isinstance(word, str) or not word or "\0" in word or os.path.basename(word) != word:
        raise CantDo(f"{folder / CONFIGURATION}: {field}: {word!r} is no name of a file in the auction's folder, so it can't be taken along")
    return word


@contextlib.contextmanager
def locked(folder: pathlib.Path) -> Iterator[None]:
    """Nobody else makes something in this folder by these commands meanwhile."""
    with failing(folder):
        lock = os.open(folder, os.O_RDONLY | os.O_DIRECTORY | os.O_CLOEXEC)
    try:
        fcntl.flock(lock, fcntl.LOCK_EX)
        yield
    finally:
        os.close(lock)


@contextlib.contextmanager
def standing(*paths: pathlib.Path) -> Iterator[None]:
    """No front gets an auction meanwhile: its record is locked, and its file, without which no server starts. A CantDo names one that is in use.
    What isn't there isn't locked."""
    with contextlib.ExitStack() as locks:
        for path in paths:
            try:
                lock = os.open(path, os.O_RDONLY | os.O_CLOEXEC | os.O_NONBLOCK)
                locks.callback(os.close, lock)
                fcntl.flock(lock, fcntl.LOCK_EX | fcntl.LOCK_NB)
            except FileNotFoundError:
                continue
            except BlockingIOError:
                raise CantDo(f"{path} is in use: stop its front first") from None
            except OSError as fault:
                raise CantDo(f"{path}: {fault.strerror}") from None
        yield


def put(path: pathlib.Path, data: bytes) -> None:
    """Writes a new file of mode 600, and syncs it."""
    with open(os.open(path, os.O_WRONLY | os.O_CREAT | os.O_EXCL | os.O_CLOEXEC, 0o600), "wb") as file:
        file.write(data)
        file.flush()
        os.fsync(file.fileno())


def copy(source: pathlib.Path, to: pathlib.Path) -> None:
    """Copies a file, or a link itself, with its mode and its owner as far as that may be, and syncs it."""
    shutil.copy2(source, to, follow_symlinks=False)
    if to.is_symlink():
        return
    status = source.stat()
    if os.geteuid() == 0:
        os.chown(to, status.st_uid, status.st_gid)
    file = os.open(to, os.O_RDONLY | os.O_CLOEXEC)
    try:
        os.fsync(file)
    finally:
        os.close(file)


def copy_tree(source: pathlib.Path, to: pathlib.Path) -> None:
    """Copies a folder with all that is in it, but for sockets, which are no files, and syncs it."""
    status = source.stat()
    to.mkdir(mode=0o700)
    for one in sorted(source.iterdir()):
        mode = one.lstat().st_mode
        if stat.S_ISDIR(mode):
            copy_tree(one, to / one.name)
        elif stat.S_ISREG(mode) or stat.S_ISLNK(mode):
            copy(one, to / one.name)
    if os.geteuid() == 0:
        os.chown(to, status.st_uid, status.st_gid)
    os.chmod(to, stat.S_IMODE(status.st_mode))
    sync(to)


def sync(folder: pathlib.Path) -> None:
    """The names in a folder are on the disk from then on."""
    file = os.open(folder, os.O_RDONLY | os.O_DIRECTORY | os.O_CLOEXEC)
    try:
        os.fsync(file)
    finally:
        os.close(file)


def give_name(made: pathlib.Path, name: pathlib.Path) -> None:
    """Gives a folder that is on the disk its name: it is there whole from then on, or not at all."""
    os.rename(made, name)
    sync(name.parent)


def exchange(one: pathlib.Path, other: pathlib.Path) -> None:
    """Exchanges two folders of one file system, by one step."""
    if LIBRARY.renameat2(AT_FOLDER, os.fsencode(one), AT_FOLDER, os.fsencode(other), EXCHANGE):
        number = ctypes.get_errno()
        raise CantDo(f"{other}: the file system can't exchange it with the new one ({os.strerror(number)}): move it to another folder, and try again")
    sync(one.parent)
