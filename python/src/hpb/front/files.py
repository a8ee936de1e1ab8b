"""Which files a front has, and which it makes beside them: no file may be two of these (docs/FRONT.md).

Rotation moves a log to `log.1`, a record goes on in `record.2`, and a token is added by way of `tokens.new`. So it isn't enough that the names
in a configuration differ: none of them may be one that is made beside another, or lead to the same file.
"""
import contextlib
import os
import re
import stat
from collections.abc import Callable, Iterator
from dataclasses import dataclass

from hpb.front.faults import Wrong

Identity = tuple[int, int]
# The endings of names beside a record, beside a file that is replaced as a whole, and beside a log. The front or `hpb format` makes such
# files.
OF_RECORD = re.compile(r"[2-9]|[1-9][0-9]+|asked|new(-[0-9]+)?|(asked\.)?torn-[0-9]+")
OF_CHANGE = re.compile(r"new")
OF_LOG = re.compile(r"[1-9][0-9]*")


@dataclass(frozen=True)
class Kept:
    """A file of the configuration. `is_made` says for an ending of its name whether a file with that name is made beside it."""

    field: str
    path: str
    is_made: Callable[[str], bool] = lambda tail: False

    def names(self) -> set[str]:
        """Its name, and the name of the file to which it leads."""
        folder, name = os.path.split(self.path)
        return {os.path.join(os.path.realpath(folder), name), os.path.realpath(self.path)}

    def would_make(self, name: str) -> bool:
        return any(name.startswith(f"{own}.") and self.is_made(name[len(own) + 1 :]) for own in self.names())

    def made(self) -> Iterator[str]:
        """The existing files with such names beside it."""
        folder, name = os.path.split(os.path.abspath(self.path))
        try:
            found = os.listdir(folder)
        except (OSError, ValueError):  # A name with a NUL is no file's.
            return
        for one in found:
            if one.startswith(f"{name}.") and self.is_made(one[len(name) + 1 :]):
                yield os.path.join(folder, one)


def of_record(path: str) -> Kept:
    return Kept("record", path, lambda tail: OF_RECORD.fullmatch(tail) is not None)


def of_change(field: str, path: str) -> Kept:
    """For a file that is changed by putting a new file in its place."""
    return Kept(field, path, lambda tail: OF_CHANGE.fullmatch(tail) is not None)


def of_log(path: str, files: int) -> Kept:
    """A log of so many files."""
    return Kept("log", path, lambda tail: OF_LOG.fullmatch(tail) is not None and int(tail) < files)


def look_at_files(files: list[Kept]) -> None:
    """Checks that no two files are the same, and that none has a name kept for a file beside another. A Wrong names the first that
    fails."""
    known: dict[str | Identity, str] = {}
    for one in files:
        own: list[str | Identity] = [*one.names(), *identities(one.path)]
        for name in own:
            if name in known:
                raise Wrong(f"{one.field}: {one.path} is the {known[name]} already")
        known.update(dict.fromkeys(own, one.field))
    for one in files:
        for other in files:
            if other is not one:
                look_beside(one, other)


def look_beside(one: Kept, other: Kept) -> None:
    """Raises a Wrong if a file has a name that is kept for files made beside the other, or leads to the same file as one of these."""
    if any(other.would_make(name) for name in one.names()):
        raise Wrong(f"{one.field}: {one.path} is the name of a file that is made beside the {other.field}, {other.path}: choose another")
    for made in other.made():
        if identities(made) and identities(made) == identities(one.path):
            raise Wrong(f"{one.field}: {one.path} is the same file as {made}, which is the name of a file that is made beside the {other.field}")


def read_by_all(files: list[Kept]) -> list[str]:
    """Those of these files, and of the files beside them, that every user may read."""
    found = []
    for path in (path for kept in files for path in (kept.path, *sorted(kept.made()))):
        with contextlib.suppress(OSError):
            if os.stat(path).st_mode & stat.S_IROTH:
                found.append(path)
    return found


def identities(path: str) -> list[Identity]:
    """The identity of the file with this name: two names of one file have it in common. The list is empty if there is no file."""
    try:
        found = os.stat(path)
    except (OSError, ValueError):
        return []
    return [(found.st_dev, found.st_ino)]
