"""The owner of an auction's file: nobody else reads, writes or locks it, and nobody else's file becomes an auction."""

from __future__ import annotations

import fcntl
import os
import stat
import struct
from collections.abc import Callable
from dataclasses import replace
from functools import partial
from pathlib import Path

import pytest

from harness.auctions import PAGE, Layout, commands, text_of
from harness.conditions import Conditions
from harness.programs import Program, Ran
from harness.users import User

pytestmark = pytest.mark.as_root

OWNERS_ALONE = 0o600
BYTES = b"what stood here\n"
ZEROS = bytes(Layout.PAGES.pages(Layout.PAGES.least_journal) * PAGE)
IS_THERE = "{0}.new is there, by which name {0} is made first: if no other hpb makes it now, give that one another name"
IS_FOREIGN = "{0}.new is another user's, and {0} is made by that name first: name a file in a folder that only you may write"
IS_WRITABLE = "{0}.new may be written by others, and {0} is made by that name first: if no other hpb makes it now, give that one another name"
FILE_IS_FOREIGN = "{0} is another user's, who could change the auction: name a file that isn't there, in a folder that only you may write"
LINK_IS_FOREIGN = "{0} is another user's link, which may lead to any file of yours: name a file that isn't there, in a folder that only you may write"
IN_USE = "{0} is in use by another process: wait until that has ended"
LINK_IS_LOOSE = "{0} is a link that leads to no file: remove it, or name a file that isn't there"
# In a folder in which each user may make files, Linux lets nobody follow another user's link if this says 1. `hpb` then sees no link at all.
PROTECTED_LINKS = Path("/proc/sys/fs/protected_symlinks")
LINK_IS_REFUSED = "{0} could not be opened, made or written: Permission denied (os error 13): see that you may use it, and read its folder"
# An access list by which the user nobody may read and write all files made in a folder: tags, permissions, and a user's number.
ACL_VERSION = 2
ACL_ENTRY = struct.Struct("<HHI")
ACL_OWNER, ACL_USER, ACL_GROUP, ACL_MASK, ACL_OTHER = 0x01, 0x02, 0x04, 0x10, 0x20
NO_ID = 0xFFFFFFFF
READ, READ_WRITE = 4, 6


def of_anothers_link(said: str) -> str:
    """The words on another user's link: these, if the system lets anybody follow it."""
    return said if PROTECTED_LINKS.read_text() == "0\n" else LINK_IS_REFUSED


def refused(ran: Ran, file: Path, said: str) -> bool:
    """Whether `format` was refused by 91 at once, in these words."""
    return (ran.output, ran.errors, ran.status) == ("ERR 91 device\n", f"hpb: 91 device: {said.format(file)}\n", 1) and ran.seconds < 5


def mode_of(path: Path) -> int:
    """The permissions of a file itself, even if it is a link."""
    return stat.S_IMODE(path.lstat().st_mode)


def write_as(path: Path, data: bytes, mode: int) -> None:
    """Makes a file with these bytes and exactly this mode."""
    path.write_bytes(data)
    path.chmod(mode)


def state_of(path: Path) -> tuple[object, ...]:
    """Everything that a refusal must leave unchanged."""
    found = path.lstat()
    data = path.read_bytes() if stat.S_ISREG(found.st_mode) else b""
    return found.st_ino, found.st_mode, found.st_uid, found.st_nlink, found.st_mtime_ns, data


def opens(path: Path, flags: int) -> str:
    """The result of opening a file: "opened", or the system's word."""
    try:
        os.close(os.open(path, flags | os.O_NONBLOCK))
    except OSError as error:
        return type(error).__name__
    return "opened"


def is_shut(path: Path, user: User) -> bool:
    """Whether this user can't open a file in any way, and so can't lock it."""
    return [user.call(opens, path, flags) for flags in (os.O_RDONLY, os.O_WRONLY, os.O_RDWR)] == ["PermissionError"] * 3


@pytest.mark.parametrize("mode", [0o666, 0o644, 0o600], ids=oct)
def test_another_users_file_beside_becomes_no_auction(program: Program, mounted: Path, nobody: User, mode: int, layout: Layout) -> None:
    """He could write the auction, by its name or by his open descriptor."""
    beside = mounted / "F.new"
    nobody.call(write_as, beside, b"", mode)
    before = state_of(beside)
    ran = program.format(mounted / "F", layout)
    assert refused(ran, mounted / "F", IS_FOREIGN), ran
    assert state_of(beside) == before and not (mounted / "F").exists()


@pytest.mark.parametrize("make", ["link", "loose link", "pipe"])
def test_another_users_link_and_pipe_beside_are_refused(program: Program, mounted: Path, nobody: User, make: str) -> None:
    beside, target = mounted / "F.new", mounted / "target"
    target.write_bytes(b"")
    work: dict[str, Callable[[], object]] = {
        "link": lambda: os.symlink(target, beside),
        "loose link": lambda: os.symlink(mounted / "nothing", beside),
        "pipe": lambda: os.mkfifo(beside, 0o666),
    }
    nobody.call(work[make])
    before = state_of(beside), state_of(target)
    ran = program.format(mounted / "F")
    assert refused(ran, mounted / "F", IS_FOREIGN), ran
    assert (state_of(beside), state_of(target)) == before
    assert sorted(path.name for path in mounted.iterdir() if path.name != "lost+found") == ["F.new", "target"]


@pytest.mark.parametrize("kind", ["link", "loose link", "pipe", "second name", "folder", "bytes", "a late byte"])
def test_what_no_killed_format_left_beside_is_refused(program: Program, room: Path, kind: str) -> None:
    beside, target = room / "F.new", room / "target"
    target.write_bytes(ZEROS)
    target.chmod(OWNERS_ALONE)
    work: dict[str, Callable[[], object]] = {
        "link": lambda: beside.symlink_to(target),
        "loose link": lambda: beside.symlink_to(room / "nothing"),
        "pipe": lambda: os.mkfifo(beside, OWNERS_ALONE),
        "second name": lambda: os.link(target, beside),
        "folder": beside.mkdir,
        "bytes": lambda: write_as(beside, BYTES, OWNERS_ALONE),
        "a late byte": lambda: write_as(beside, bytes(2 * PAGE) + b"w", OWNERS_ALONE),
    }
    work[kind]()
    before = state_of(beside), state_of(target)
    ran = program.format(room / "F")
    assert refused(ran, room / "F", IS_THERE), ran
    assert (state_of(beside), state_of(target)) == before
    assert sorted(path.name for path in room.iterdir()) == ["F.new", "target"]


@pytest.mark.parametrize("mode", [0o666, 0o620, 0o602], ids=oct)
def test_a_rest_that_others_may_write_is_refused(program: Program, room: Path, mode: int) -> None:
    write_as(room / "F.new", ZEROS, mode)
    before = state_of(room / "F.new")
    ran = program.format(room / "F")
    assert refused(ran, room / "F", IS_WRITABLE), ran
    assert state_of(room / "F.new") == before and not (room / "F").exists()


def test_a_file_that_is_being_made_is_in_use(program: Program, room: Path) -> None:
    """Another process has the lock on it. Once that has ended, it is a rest."""
    write_as(room / "F.new", b"", OWNERS_ALONE)
    with open(room / "F.new", "rb") as held:
        fcntl.flock(held, fcntl.LOCK_EX)
        ran = program.format(room / "F")
        assert refused(ran, room / "F", IN_USE), ran
        assert [path.name for path in room.iterdir()] == ["F.new"]
    assert program.format(room / "F").status == 0
    assert [path.name for path in room.iterdir()] == ["F"]


@pytest.mark.parametrize("mode", [0o600, 0o644], ids=oct)
@pytest.mark.parametrize("length", [0, PAGE, len(ZEROS), len(ZEROS) + PAGE])
def test_an_own_rest_is_no_hindrance(program: Program, room: Path, layout: Layout, length: int, mode: int) -> None:
    """With mode 644, too: an earlier program left files with that mode."""
    write_as(room / "F.new", bytes(length), mode)
    ran = program.format(room / "F", layout)
    assert (ran.output, ran.errors, ran.status) == (f"FORMATTED {layout.pages(layout.least_journal)}\n", "", 0)
    assert not (room / "F.new").exists() and mode_of(room / "F") == OWNERS_ALONE
    assert program.count(room / "F") == 0


def test_who_had_a_rest_open_sees_and_locks_no_auction(program: Program, room: Path, nobody: User) -> None:
    """A remainder of mode 644 may be open elsewhere. The file that becomes the auction never was."""
    write_as(room / "F.new", ZEROS, 0o644)
    descriptor = os.open(room / "F.new", os.O_RDONLY)
    try:
        assert program.format(room / "F").status == 0
        assert program.run_lines(room / "F", text_of(commands(5))).status == 0
        assert os.pread(descriptor, len(ZEROS), 0) == ZEROS
        fcntl.flock(descriptor, fcntl.LOCK_EX | fcntl.LOCK_NB)
        assert program.count(room / "F") == 5
    finally:
        os.close(descriptor)


@pytest.mark.parametrize("as_nobody", [False, True], ids=["root", "nobody"])
@pytest.mark.parametrize("mask", [0o000, 0o022, 0o077, 0o777], ids=oct)
def test_a_file_is_its_owners_alone_whatever_the_mask(program: Program, mounted: Path, nobody: User, mask: int, as_nobody: bool) -> None:
    conditions = Conditions(user=nobody if as_nobody else None, last=lambda: _mask(mask))
    ran = program.format(mounted / "F", conditions=conditions)
    assert ran.status == 0, ran
    assert mode_of(mounted / "F") == OWNERS_ALONE
    assert (mounted / "F").stat().st_uid == (nobody.uid if as_nobody else 0)
    assert program.check(mounted / "F", replace(conditions, last=None)).status == 0


def _mask(mask: int) -> None:
    os.umask(mask)


def test_another_user_can_neither_open_nor_lock_a_file(program: Program, mounted: Path, layout: Layout, nobody: User) -> None:
    file = mounted / "F"
    assert program.format(file, layout).status == 0
    assert is_shut(file, nobody)
    assert program.run_lines(file, text_of(commands(5))).status == 0
    assert is_shut(file, nobody) and mode_of(file) == OWNERS_ALONE


def test_a_folders_access_list_lets_nobody_in(program: Program, mounted: Path, nobody: User) -> None:
    """A list that applies to all files made in a folder, if the file system has such lists."""
    entries = [(ACL_OWNER, READ_WRITE, NO_ID), (ACL_USER, READ_WRITE, nobody.uid), (ACL_GROUP, READ, NO_ID), (ACL_MASK, READ_WRITE, NO_ID), (ACL_OTHER, READ, NO_ID)]
    acl = struct.pack("<I", ACL_VERSION) + b"".join(ACL_ENTRY.pack(*entry) for entry in entries)
    os.setxattr(mounted, "system.posix_acl_default", acl)
    (mounted / "plain").write_bytes(b"")
    assert nobody.call(opens, mounted / "plain", os.O_RDWR) == "opened"
    assert program.format(mounted / "F").status == 0
    assert is_shut(mounted / "F", nobody)


def test_a_folders_group_gets_nothing(program: Program, mounted: Path, nobody: User) -> None:
    os.chown(mounted, 0, nobody.gid)
    mounted.chmod(0o2777)
    assert program.format(mounted / "F").status == 0
    assert (mounted / "F").stat().st_gid == nobody.gid and is_shut(mounted / "F", nobody)


def test_another_users_file_of_that_name_becomes_no_auction(program: Program, mounted: Path, layout: Layout, nobody: User) -> None:
    """A file of the right length, but without an auction, used to be formatted, and stayed the other user's."""
    file = mounted / "F"
    nobody.call(write_as, file, bytes(layout.pages(layout.least_journal) * PAGE), 0o666)
    before = state_of(file)
    ran = program.format(file, layout)
    assert refused(ran, file, FILE_IS_FOREIGN), ran
    assert state_of(file) == before and not (mounted / "F.new").exists()


def test_another_users_link_of_that_name_overwrites_nothing(program: Program, mounted: Path, layout: Layout, nobody: User) -> None:
    """It led to a file of the right length of the user himself, and that was formatted."""
    file, target = mounted / "F", mounted / "target"
    write_as(target, bytes(layout.pages(layout.least_journal) * PAGE), OWNERS_ALONE)
    nobody.call(os.symlink, target, file)
    before = state_of(file), state_of(target)
    ran = program.format(file, layout)
    assert refused(ran, file, of_anothers_link(LINK_IS_FOREIGN)), ran
    assert (state_of(file), state_of(target)) == before and not (mounted / "F.new").exists()


@pytest.mark.parametrize("as_nobody", [False, True], ids=["own", "another's"])
def test_a_link_that_leads_to_no_file_is_refused(program: Program, mounted: Path, nobody: User, as_nobody: bool) -> None:
    file, target = mounted / "F", mounted / "target"
    link = partial(os.symlink, target, file)
    _ = nobody.call(link) if as_nobody else link()
    before = state_of(file)
    ran = program.format(file)
    assert refused(ran, file, of_anothers_link(LINK_IS_LOOSE) if as_nobody else LINK_IS_LOOSE), ran
    assert state_of(file) == before
    assert not target.exists() and not (mounted / "F.new").exists()


def test_an_own_link_leads_to_the_auction(program: Program, room: Path, layout: Layout) -> None:
    file, target = room / "F", room / "target"
    write_as(target, bytes(layout.pages(layout.least_journal) * PAGE), OWNERS_ALONE)
    file.symlink_to(target)
    assert program.format(file, layout).status == 0
    assert file.is_symlink() and program.count(target) == 0


def test_an_own_file_of_the_right_length_is_formatted(program: Program, room: Path, layout: Layout) -> None:
    file = room / "F"
    write_as(file, bytes(layout.pages(layout.least_journal) * PAGE), OWNERS_ALONE)
    assert program.format(file, layout).status == 0
    assert program.count(file) == 0 and mode_of(file) == OWNERS_ALONE
