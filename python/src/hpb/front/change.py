"""A file that is changed as a whole, by one program at a time (docs/FRONT.md).

The new file is written beside the old one, as `F.new`, and takes its place once it is on the disk. Whoever has made `F.new` and locked it is
the one that changes the file; so `F.new` with no lock is what a program left that was killed.
"""
import contextlib
import errno
import fcntl
import os
import time
from collections.abc import Callable, Iterator
from dataclasses import dataclass

from hpb.own_files import MODE, give_name, is_at, open_own

# So many seconds another program's change may take.
WAIT_SECONDS = 10.0
PAUSE = 0.02
MOST_REST = 10_000_000


class Busy(Exception):
    """Another program is changing the file, and doesn't finish."""


class InTheWay(Exception):
    """Another file has the name that the new file needs."""


@dataclass(frozen=True)
class NewFile:
    """The new file, before it has its place."""

    path: str
    file: int

    @property
    def new(self) -> str:
        return name_of_new(self.path)

    def write(self, text: str, owner: os.stat_result | None = None) -> None:
        """Writes the text, and returns once it is on the disk. If `owner` is given, the new file gets that file's owner and group."""
        data = text.encode()
        while data:
            data = data[os.write(self.file, data) :]
        if owner and (owner.st_uid, owner.st_gid) != (os.geteuid(), os.getegid()):
            os.fchown(self.file, owner.st_uid, owner.st_gid)
        os.fsync(self.file)

    def take_place(self) -> None:
        """Takes the place of the old file."""
        os.replace(self.new, self.path)
        sync_folder(self.path)

    def take_free_place(self) -> None:
        """Takes the place if it is free. A FileExistsError says that there is a file."""
        give_name(self.new, self.path)
        sync_folder(self.path)


def name_of_new(path: str) -> str:
    return f"{path}.new"


@contextlib.contextmanager
def changing(path: str, is_rest: Callable[[bytes], bool], seconds: float = WAIT_SECONDS) -> Iterator[NewFile]:
    """Gives the new file of a change, and lets nobody else change the file meanwhile. If a killed program left a new file without a lock,
    and `is_rest` knows it, that goes first. A Busy or an InTheWay says why no change is possible. If the change fails, no new file is
    left."""
    new, end = name_of_new(path), time.monotonic() + seconds
    while (file := made(new)) is None:
        remove_rest(new, path, is_rest)
        if time.monotonic() > end:
            raise Busy(f"{new}: another program changes {os.path.basename(path)}, and isn't done after {seconds:.0f} seconds")
        time.sleep(PAUSE)
    try:
        yield NewFile(path, file)
    finally:
        if is_at(file, new):
            os.unlink(new)
        os.close(file)


def made(new: str) -> int | None:
    """Makes the new file and locks it. Returns nothing if there is such a file already."""
    try:
        file = os.open(new, os.O_WRONLY | os.O_CREAT | os.O_EXCL | os.O_CLOEXEC, MODE)
    except FileExistsError:
        return None
    # Until it is locked, another program may think that a killed one left it, and remove it.
    if locks(file) and is_at(file, new):
        return file
    os.close(file)
    return None


def remove_rest(new: str, path: str, is_rest: Callable[[bytes], bool]) -> None:
    """Removes the new file of a killed program. Does nothing while another program works on it."""
    try:
        file = open_own(new, os.O_RDONLY, may_make=False)
    except FileNotFoundError:
        return
    try:
        if not locks(file) or not is_at(file, new):
            return
        if not is_at(file, path) and not is_rest(os.pread(file, MOST_REST, 0).strip(b"\0")):
            raise InTheWay(f"{new} is in the way, and is no rest of a change: look what it is, and move it")
        os.unlink(new)
    finally:
        os.close(file)


def locks(file: int) -> bool:
    try:
        fcntl.flock(file, fcntl.LOCK_EX | fcntl.LOCK_NB)
    except OSError as fault:
        if fault.errno != errno.EWOULDBLOCK:
            raise
        return False
    return True


def sync_folder(path: str) -> None:
    folder = os.open(os.path.dirname(os.path.abspath(path)), os.O_RDONLY | os.O_DIRECTORY)
    try:
        os.fsync(folder)
    finally:
        os.close(folder)
