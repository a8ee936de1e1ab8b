"""The disk whose power can be cut: what it may lose, what it must keep, and that its lies are lies."""

from __future__ import annotations

import errno
import os
from pathlib import Path

import pytest

from harness.disks import CutDisk, Lie

PAGE = 4096
SEEDS = range(200)


def left_by_cut(disk: CutDisk, name: str) -> set[bytes | None]:
    """The contents of a file that cuts at this moment leave, with 200 seeds; None if there is no such name."""
    disk.cut()
    found = set()
    for seed in SEEDS:
        disk.image(seed)
        file = disk.folder / name
        found.add(file.read_bytes() if file.exists() else None)
    return found


def opened(file: Path, flags: int = 0) -> int:
    return os.open(file, os.O_RDWR | os.O_CREAT | flags, 0o600)


def test_what_was_synced_stays(disk: CutDisk) -> None:
    disk.reset()
    disk.put("F", b"a" * PAGE)
    file = opened(disk.folder / "F")
    os.pwrite(file, b"b" * PAGE, 0)
    os.fsync(file)
    os.close(file)
    assert left_by_cut(disk, "F") == {b"b" * PAGE}


def test_what_was_not_synced_is_kept_or_lost_by_sectors_and_pages(disk: CutDisk) -> None:
    disk.reset()
    disk.put("F", b"a" * 2 * PAGE)
    file = opened(disk.folder / "F")
    os.pwrite(file, b"b" * 2 * PAGE, 0)
    os.close(file)
    left = left_by_cut(disk, "F")
    assert {b"a" * 2 * PAGE, b"b" * 2 * PAGE, b"a" * PAGE + b"b" * PAGE, b"b" * PAGE + b"a" * PAGE} <= left
    assert any(found and len({found[at : at + 512] for at in range(0, PAGE, 512)}) == 2 for found in left)
    assert all(found and set(found) <= set(b"ab") for found in left)


def test_a_later_write_may_be_kept_without_an_earlier_one(disk: CutDisk) -> None:
    disk.reset()
    disk.put("F", b"a" * 2 * PAGE)
    file = opened(disk.folder / "F")
    os.pwrite(file, b"1", 0)
    os.pwrite(file, b"2", PAGE)
    os.close(file)
    kept = {(found[:1], found[PAGE : PAGE + 1]) for found in left_by_cut(disk, "F") if found}
    assert kept == {(b"a", b"a"), (b"1", b"a"), (b"a", b"2"), (b"1", b"2")}


def test_a_file_that_grew_has_a_length_it_passed_and_zeros_for_what_was_lost(disk: CutDisk) -> None:
    disk.reset()
    disk.put("F", b"a" * 100)
    file = opened(disk.folder / "F")
    os.pwrite(file, b"b" * 10_000, 100)
    os.close(file)
    left = left_by_cut(disk, "F")
    assert {len(found) for found in left if found} == {100, PAGE, 2 * PAGE, 10_100}
    assert any(found and 0 in found for found in left)
    assert all(found and found[:100] == b"a" * 100 for found in left)


def test_a_file_that_was_made_shorter_and_written_again(disk: CutDisk) -> None:
    disk.reset()
    disk.put("F", b"a" * 1000)
    file = opened(disk.folder / "F")
    os.ftruncate(file, 0)
    os.pwrite(file, b"b" * 300, 0)
    os.close(file)
    assert {b"a" * 1000, b"", b"b" * 300} <= left_by_cut(disk, "F")


def test_a_write_that_syncs_itself_stays(disk: CutDisk) -> None:
    disk.reset()
    disk.put("F", b"a" * PAGE)
    file = opened(disk.folder / "F", os.O_DSYNC)
    os.pwrite(file, b"b" * PAGE, 0)
    os.close(file)
    assert left_by_cut(disk, "F") == {b"b" * PAGE}


def test_a_new_name_may_be_lost_until_its_folder_is_synced(disk: CutDisk) -> None:
    disk.reset()
    file = opened(disk.folder / "F")
    os.write(file, b"x")
    os.fsync(file)
    assert left_by_cut(disk, "F") == {None, b"x"}
    disk.reset()
    file = opened(disk.folder / "F")
    os.write(file, b"x")
    os.fsync(file)
    sync_folder(disk.folder)
    assert left_by_cut(disk, "F") == {b"x"}


def sync_folder(folder: Path) -> None:
    opened_folder = os.open(folder, os.O_RDONLY | os.O_DIRECTORY)
    os.fsync(opened_folder)
    os.close(opened_folder)


def test_a_rename_is_kept_or_lost_as_a_whole(disk: CutDisk) -> None:
    disk.reset()
    disk.put("old", b"x")
    disk.put("new", b"y")
    os.rename(disk.folder / "old", disk.folder / "new")
    disk.cut()
    found = set()
    for seed in SEEDS:
        disk.image(seed)
        found.add(tuple((file.name, file.read_bytes()) for file in sorted(disk.folder.iterdir())))
    assert found == {(("new", b"y"), ("old", b"x")), (("new", b"x"),)}


def test_names_in_a_folder_below_are_its_own(disk: CutDisk) -> None:
    disk.reset()
    (disk.folder / "below").mkdir()
    sync_folder(disk.folder)
    (disk.folder / "below" / "F").touch()
    sync_folder(disk.folder)
    assert left_by_cut(disk, "below/F") == {None, b""}


def test_after_the_cut_each_call_fails_and_an_earlier_one_is_of_no_use(disk: CutDisk) -> None:
    disk.reset()
    disk.put("F", b"a")
    file = opened(disk.folder / "F")
    disk.arm(2)
    os.pwrite(file, b"b", 0)
    with pytest.raises(OSError) as failed:
        os.fsync(file)
    assert failed.value.errno == errno.EIO
    with pytest.raises(OSError):
        os.pread(file, 1, 0)
    assert disk.is_cut()
    disk.image(0)
    with pytest.raises(OSError) as stale:
        os.pread(file, 1, 0)
    assert stale.value.errno == errno.ESTALE
    os.close(file)


def test_the_same_seed_leaves_the_same(disk: CutDisk) -> None:
    disk.reset()
    disk.put("F", bytes(8 * PAGE))
    file = opened(disk.folder / "F")
    for place in range(8):
        os.pwrite(file, bytes([place + 1]) * PAGE, place * PAGE)
    os.close(file)
    disk.cut()
    found = []
    for seed in (1, 2, 3, 1, 2, 3):
        disk.image(seed)
        found.append((disk.folder / "F").read_bytes())
    assert found[:3] == found[3:]
    assert len(set(found)) == 3


@pytest.mark.parametrize("lie", [Lie.SYNC, Lie.LAST])
def test_a_lie_loses_what_was_synced(disk: CutDisk, lie: Lie) -> None:
    disk.reset(lie)
    disk.put("F", b"a")
    file = opened(disk.folder / "F")
    os.pwrite(file, b"b", 0)
    os.fsync(file)
    os.close(file)
    assert b"a" in left_by_cut(disk, "F")


def test_a_lie_loses_a_name_that_was_synced(disk: CutDisk) -> None:
    disk.reset(Lie.FOLDER)
    (disk.folder / "F").touch()
    sync_folder(disk.folder)
    assert None in left_by_cut(disk, "F")
