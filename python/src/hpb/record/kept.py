"""Whether an open record is still what its front wrote: another program may move, remove, cut or overwrite a file of it (docs/FRONT.md)."""
import os
from collections.abc import Iterator

from hpb.own_files import is_at
from hpb.record.entries import MEGABYTE, Damaged
from hpb.record.segments import write_aside


class NotKept(Damaged):
    """Another program moved, removed, cut or overwrote a file of the record while its front ran."""


def look_at_name(file: int, path: str) -> None:
    """Checks that an open file of a record still has its name. If not, a NotKept says what to do. A file without any name would be gone
    when it is closed, so it is copied first."""
    if is_at(file, path):
        return
    name, status = os.path.basename(path), os.fstat(file)
    if status.st_nlink:
        raise NotKept(f"{name} was moved or replaced while the front ran. `find / -inum {status.st_ino}` finds it: give it its name again, and "
                      "start again")
    try:
        aside = write_aside(path, pieces_of(file))
    except OSError as fault:
        raise NotKept(f"{name} was removed or replaced while the front ran, and can't be saved: {fault.strerror}. Start again with its newest "
                      "backup") from None
    raise NotKept(f"{name} was removed or replaced while the front ran. All of it is saved as {os.path.basename(aside)}: give that the name "
                  f"{name}, and start again")


def look_at_length(file: int, length: int, path: str) -> None:
    """Checks that an open file of a record has as many bytes as were written. If not, a NotKept says so."""
    found = os.fstat(file).st_size
    if found != length:
        raise NotKept(f"{os.path.basename(path)} was cut or overwritten while the front ran: it has {found} bytes, and {length} were written. Keep "
                      "a copy of it, and start again with its newest backup")


def pieces_of(file: int, at: int = 0) -> Iterator[bytes]:
    """The bytes of an open file from there on."""
    while piece := os.pread(file, MEGABYTE, at):
        at += len(piece)
        yield piece
