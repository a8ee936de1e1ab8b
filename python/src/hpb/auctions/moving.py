"""Moves an auction to another folder of auctions, on the same disk or another. Killed at any call, it leaves one whole auction, and never two
that can be started (packaging/README.md)."""
import os
import pathlib
import shutil

from hpb.auctions.folder import MOVING, Auction, Auctions, CantDo, failing
from hpb.auctions.parts import Parts, copy_tree, give_name, locked, parts_of, put, standing, sync
from hpb.record.segments import first_line

# A file of the source that names the target while the source can't be started.
TO = "front.toml.moving-to"
# So many bytes are compared at a time.
PIECE = 1 << 20


def move(auctions: Auctions, name: str, to: Auctions) -> Auction:
    """Moves an auction, which has to be stopped. One whose move was interrupted is moved on, to the same folder."""
    source, target = auctions.place(name), to.place(name)
    if auctions.folder.resolve() == to.folder.resolve():
        raise CantDo(f"{name} is in {to.folder} already")
    first, second = sorted([auctions.folder, to.folder], key=lambda folder: folder.resolve())
    with failing(source.folder), locked(first), locked(second):
        if not (source.folder / MOVING).exists():
            auctions.named(name)
        parts = parts_of(source.folder)
        with standing(source.folder / parts.record, source.folder / parts.file):
            if not go_on(source, target, parts):
                begin(source, target)
    return target


def begin(source: Auction, target: Auction) -> None:
    """Moves it by one step, if the file system can; else by a copy."""
    if os.path.lexists(target.folder):
        raise CantDo(f"{target.folder} is there already")
    if source.folder.stat().st_dev == target.folder.parent.stat().st_dev:
        os.rename(source.folder, target.folder)
        sync(target.folder.parent)
        sync(source.folder.parent)
    else:
        copy_over(source, target)


def copy_over(source: Auction, target: Auction) -> None:
    """Copies it, and compares the copy. Then the source can't be started any more, and only after that the copy gets its name."""
    room = target.folder.parent / f".{target.name}.new"
    shutil.rmtree(room, ignore_errors=True)
    (source.folder / TO).unlink(missing_ok=True)
    copy_tree(source.folder, room)
    if differing := difference(source.folder, room):
        raise CantDo(f"{room / differing} differs from its original: look at the disk of {target.folder.parent}")
    put(source.folder / TO, os.fsencode(target.folder))
    os.rename(source.configuration, source.folder / MOVING)
    sync(source.folder)
    give_name(room, target.folder)
    remove(source)


def go_on(source: Auction, target: Auction, parts: Parts) -> bool:
    """Ends a move that was interrupted, if there was one."""
    if not (source.folder / MOVING).exists():
        return False
    if (source.folder / TO).read_bytes() != os.fsencode(target.folder):
        raise CantDo(f"{source.name} was being moved to {os.fsdecode((source.folder / TO).read_bytes())}: move it there")
    if not target.configuration.exists():
        # Its copy may be half, and the source is whole: it goes back, and is moved anew.
        os.rename(source.folder / MOVING, source.configuration)
        sync(source.folder)
        return False
    if beginning(source.folder, parts) != beginning(target.folder, parts):
        raise CantDo(f"{target.folder} is another auction than the one that was being moved there: move it away, and try again")
    remove(source)
    return True


def beginning(folder: pathlib.Path, parts: Parts) -> tuple[bytes, bytes]:
    """What stays the same in an auction for ever: the head of its file, and the first entry of its record."""
    record = folder / parts.record
    with (folder / parts.file).open("rb") as file:
        return file.read(4_096), first_line(str(record)) if record.exists() else b""


def remove(source: Auction) -> None:
    """Removes the source of a move. Its name is free at once."""
    gone = source.folder.parent / f".{source.name}.gone"
    shutil.rmtree(gone, ignore_errors=True)
    os.rename(source.folder, gone)
    sync(source.folder.parent)
    shutil.rmtree(gone, ignore_errors=True)


def difference(one: pathlib.Path, other: pathlib.Path) -> str:
    """The first file of a folder that its copy hasn't, or has with other bytes; empty if there is none."""
    for path in sorted(one.rglob("*")):
        name = str(path.relative_to(one))
        if path.is_file() and not path.is_symlink() and not are_same(path, other / name):
            return name
    return ""


def are_same(one: pathlib.Path, other: pathlib.Path) -> bool:
    if not other.is_file():
        return False
    with one.open("rb") as mine, other.open("rb") as its:
        while (piece := mine.read(PIECE)) == its.read(PIECE):
            if not piece:
                return True
    return False
