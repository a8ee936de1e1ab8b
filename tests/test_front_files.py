"""No file of a front serves two purposes, neither under its own name nor under one derived from another's. Rotation moves only logs."""

from __future__ import annotations

import errno
import json
import os
import signal
import sys
from pathlib import Path

import pytest
from fronts import Front
from harness.users import User

from hpb.front.config import Config
from hpb.front.faults import Wrong
from hpb.front.log import Log, Rotated, Stream

LINE = b'{"at":"2026-11-30T12:00:00.000000Z","kind":"page"}\n'
NAMES = '[names]\ndesk = "auctioneer"\nann = ["x"]\n'


def configured(folder: Path, log: str = "", **fields: str) -> Path:
    """A configuration. Its files needn't be there; a log has eight."""
    all_fields = {"file": "F", "record": "R", "tokens": "T", "listen": "127.0.0.1:0", "certificate": "S", "key": "K", **fields}
    lines = [f"{name} = {json.dumps(value)}" for name, value in all_fields.items()]
    table = f"[log]\nto = {json.dumps(log)}\nfiles = 8\n" if log else ""
    path = folder / "C"
    path.write_text("\n".join(lines) + f"\n{NAMES}{table}")
    return path


def read(path: Path) -> None:
    Config(path)


def refusal(path: Path) -> str:
    with pytest.raises(Wrong) as refused:
        read(path)
    return str(refused.value)


@pytest.mark.parametrize(
    ("log", "fields", "field", "owner"),
    [
        ("auction", {"file": "auction.1"}, "file", "log"),
        ("auction", {"record": "auction.7"}, "record", "log"),
        ("auction", {"tokens": "auction.2"}, "tokens", "log"),
        ("auction", {"certificate": "auction.1"}, "certificate", "log"),
        ("auction", {"key": "auction.1"}, "key", "log"),
        ("auction", {"program": "./auction.1"}, "program", "log"),
        ("C-of-yesterday/../auction", {"file": "auction.1"}, "file", "log"),
        ("", {"file": "R.log.1"}, "file", "log"),
        ("", {"file": "R.2"}, "file", "record"),
        ("", {"tokens": "R.20261130"}, "tokens", "record"),
        ("", {"file": "R.asked"}, "file", "record"),
        ("", {"file": "R.new"}, "file", "record"),
        ("", {"key": "R.new-2"}, "key", "record"),
        ("", {"tokens": "R.torn-1"}, "tokens", "record"),
        ("", {"tokens": "R.asked.torn-1"}, "tokens", "record"),
        ("R.asked", {}, "log", "record"),
        ("R.3", {}, "log", "record"),
        ("", {"record": "T.new"}, "record", "tokens"),
        ("T.new", {}, "log", "tokens"),
        ("", {"record": "F.new"}, "record", "file"),
        ("F.new", {}, "log", "file"),
    ],
)
def test_a_name_of_what_is_made_beside_another_file_is_refused(log: str, fields: dict[str, str], field: str, owner: str, tmp_path: Path) -> None:
    (tmp_path / "C-of-yesterday").mkdir()
    said = refusal(configured(tmp_path, log, **fields))
    assert said.startswith(f"{field}: ") and f" is the name of a file that is made beside the {owner}, " in said


def test_a_configuration_that_its_log_would_move_over_is_refused(tmp_path: Path) -> None:
    moved = configured(tmp_path, "C").rename(tmp_path / "C.1")
    assert " is the name of a file that is made beside the log, " in refusal(moved)


@pytest.mark.parametrize(
    ("log", "fields"),
    [
        ("auction", {"file": "auction.8"}),
        ("auction", {"file": "auction.01"}),
        ("auction", {"file": "auction.hpb", "record": "auction.record", "tokens": "auction.tokens"}),
        ("auction.log", {"record": "auction.record"}),
        ("", {"file": "R.1"}),
        ("", {"file": "R.hpb"}),
    ],
)
def test_other_names_are_taken(log: str, fields: dict[str, str], tmp_path: Path) -> None:
    """The log has eight files: its own and seven older ones."""
    read(configured(tmp_path, log, **fields))


@pytest.mark.parametrize("name", ["R.2", "R.asked", "R.log.3", "T.new"])
def test_another_name_of_the_same_file_is_refused(name: str, tmp_path: Path) -> None:
    (tmp_path / "F").write_bytes(b"an auction")
    os.link(tmp_path / "F", tmp_path / name)
    said = refusal(configured(tmp_path))
    assert said.startswith(f"file: {tmp_path / 'F'} is the same file as {tmp_path / name}")


def test_a_link_to_a_name_of_the_log_is_refused(tmp_path: Path) -> None:
    (tmp_path / "auction.1").write_bytes(b"an auction")
    (tmp_path / "F").symlink_to("auction.1")
    assert refusal(configured(tmp_path, "auction")).startswith(f"file: {tmp_path / 'F'} is the name of a file that is made beside the log")


# Rotation.


def written(log: Rotated, lines: int) -> None:
    for _ in range(lines):
        log.write(LINE)


def test_rotation_moves_no_other_file(tmp_path: Path) -> None:
    """If a log can't be rotated, it says why, and nothing is moved."""
    path = str(tmp_path / "L")
    log = Rotated(path, 2 * len(LINE), 3)
    written(log, 3)
    (tmp_path / "L.2").write_bytes(b"an auction")
    before = {each.name: each.read_bytes() for each in tmp_path.iterdir()}
    with pytest.raises(OSError, match="it is no log of a front; move it, or name another one") as fault:
        written(log, 5)
    assert fault.value.filename == f"{path}.2"
    after = {each.name: each.read_bytes() for each in tmp_path.iterdir()}
    assert after == {**before, "L": 2 * LINE}
    (tmp_path / "L.2").unlink()
    written(log, 2)
    assert {each.name: each.read_bytes() for each in tmp_path.iterdir()} == {"L": 2 * LINE, "L.1": 2 * LINE, "L.2": 2 * LINE}


@pytest.mark.parametrize("files", [1, 2, 4])
def test_rotation_keeps_so_many_files(files: int, tmp_path: Path) -> None:
    log = Rotated(str(tmp_path / "L"), len(LINE), files)
    lines = [LINE.replace(b"page", b"%04d" % number) for number in range(9)]
    for line in lines:
        log.write(line)
    names = ["L", *(f"L.{number}" for number in range(1, files))]
    assert {each.name: each.read_bytes() for each in tmp_path.iterdir()} == dict(zip(names, reversed(lines)))


def test_a_gap_between_logs_is_filled(tmp_path: Path) -> None:
    """Older logs stay as they are, so nothing is lost if a rotation fails between two steps."""
    log = Rotated(str(tmp_path / "L"), len(LINE), 5)
    written(log, 4)
    (tmp_path / "L.2").unlink()
    third = (tmp_path / "L.3").stat().st_ino
    written(log, 1)
    assert sorted(each.name for each in tmp_path.iterdir()) == ["L", "L.1", "L.2", "L.3"]
    assert (tmp_path / "L.3").stat().st_ino == third


def test_a_log_that_was_moved_away_begins_anew(tmp_path: Path) -> None:
    log = Rotated(str(tmp_path / "L"), len(LINE), 3)
    written(log, 1)
    (tmp_path / "L").rename(tmp_path / "kept")
    written(log, 1)
    assert (tmp_path / "L").read_bytes() == (tmp_path / "kept").read_bytes() == LINE


@pytest.mark.parametrize("how", ["moved", "removed", "replaced"])
def test_a_log_that_another_program_takes_away_begins_anew_with_the_next_line(how: str, tmp_path: Path) -> None:
    """As logrotate does, which then removes it. Before, all that followed went into the file that was gone."""
    path, lines = tmp_path / "L", [LINE.replace(b"page", b"%04d" % number) for number in range(3)]
    log = Rotated(str(path), 1_000_000, 3)
    log.write(lines[0])
    if how == "removed":
        path.unlink()
    else:
        path.rename(tmp_path / "kept")
    if how == "replaced":
        path.touch(mode=0o600)
    log.write(lines[1])
    log.write(lines[2])
    assert path.read_bytes() == lines[1] + lines[2]
    assert how == "removed" or (tmp_path / "kept").read_bytes() == lines[0]


@pytest.mark.parametrize("data", [b"an auction", b"127.0.0.1 localhost\n", b"\0\0x"])
def test_another_file_isnt_taken_for_a_log(data: bytes, tmp_path: Path) -> None:
    (tmp_path / "L").write_bytes(data)
    with pytest.raises(OSError, match="it is no log of a front"):
        Rotated(str(tmp_path / "L"), 1_000, 3).write(LINE)
    assert (tmp_path / "L").read_bytes() == data


@pytest.mark.as_root
def test_a_log_that_another_user_made_first_isnt_written(room: Path, nobody: User) -> None:
    """In a folder that everyone may write. A message names the log and the reason."""
    folder = room / "shared"
    folder.mkdir()
    folder.chmod(0o1777)
    nobody.call((folder / "L").touch)
    told: list[str] = []
    log = Log(Rotated(str(folder / "L"), 1_000, 3), warn=told.append).start()
    log.write("page")
    log.end(20)
    assert told == [f"the log can't be written: {folder / 'L'}: another user owns it; look whose it is, and move it"]
    assert (folder / "L").stat().st_size == 0


@pytest.mark.parametrize("calls", ["pread", "fstat"])
def test_a_log_that_cant_be_read_takes_no_descriptors(tmp_path: Path, monkeypatch: pytest.MonkeyPatch, calls: str) -> None:
    """However often it is tried: each line opens it again. The front has none to spare."""
    Rotated(str(tmp_path / "L"), 10_000, 3).write(LINE)
    log, call, names = Rotated(str(tmp_path / "L"), 10_000, 3), getattr(os, calls), list[int]()

    def fails(file: int, *others: int) -> object:
        if sys._getframe(1).f_code.co_filename.endswith("log.py"):
            raise OSError(errno.EIO, os.strerror(errno.EIO))
        return call(file, *others)

    monkeypatch.setattr(os, calls, fails)
    for _ in range(3):
        with pytest.raises(OSError, match="Input/output error"):
            log.write(LINE)
        names.append(len(os.listdir("/proc/self/fd")))
    assert names == names[:1] * 3


# Unfinished lines.


def test_a_line_that_a_full_disk_cut_is_ended_before_the_next(tmp_path: Path, monkeypatch: pytest.MonkeyPatch) -> None:
    """By hand: ten bytes of the second line are written, then the disk is full for a while."""
    log, write = Rotated(str(tmp_path / "L"), 10_000, 3), os.write
    log.write(LINE)
    room = [10]

    def full(file: int, data: bytes) -> int:
        if not room[0]:
            raise OSError(errno.ENOSPC, os.strerror(errno.ENOSPC))
        written, room[0] = write(file, data[: room[0]]), 0
        return written

    with monkeypatch.context() as patch:
        patch.setattr(os, "write", full)
        for _ in range(3):
            with pytest.raises(OSError):
                log.write(LINE)
    log.write(LINE)
    assert (tmp_path / "L").read_bytes() == LINE + LINE[:10] + b"\n" + LINE


@pytest.mark.parametrize("torn", [LINE[:-1], LINE[:3], bytes(20)])
def test_a_line_that_a_crash_cut_is_ended_before_the_next(torn: bytes, tmp_path: Path) -> None:
    path = tmp_path / "L"
    path.write_bytes(torn)
    Rotated(str(path), 10_000, 3).write(LINE)
    assert path.read_bytes() == torn + b"\n" + LINE


def test_a_line_that_standard_error_took_in_part_is_ended(monkeypatch: pytest.MonkeyPatch) -> None:
    reader, writer = os.pipe()
    os.set_blocking(writer, False)
    stream = Stream(writer)
    with pytest.raises(BlockingIOError):
        while True:
            stream.write(b"x" * 9_999 + b"\n")
    taken = os.read(reader, 1 << 20)
    stream.write(LINE)
    taken += os.read(reader, 1 << 20)
    assert taken.splitlines(keepends=True)[-1] == LINE and {line[:1] for line in taken.splitlines()} == {b"x", b"{"}
    os.close(reader)
    os.close(writer)


# With a front.


def test_a_file_with_bids_that_every_user_may_read_is_named(front: Front) -> None:
    """As a copy may be that was made without `cp -p`. A group may have been let in on purpose, and says nothing."""
    assert front.start().stop().errors.count("warning") == 0
    for name in ("F", "R", "R.asked", "R.log"):
        (front.folder / name).chmod(0o640)
    assert front.start().stop().errors.count("warning") == 0
    for name in ("F", "R.asked", "R.log"):
        (front.folder / name).chmod(0o644)
    front.tokens.chmod(0o600)
    front.start()
    front.wait_until_said("R.log, and so")
    said = [line for line in front.stop().errors.splitlines() if "warning" in line]
    assert said == [
        f"front: warning: every user may read {front.folder / name}, and so the bids of the open round: `chmod 600` it"
        for name in ("F", "R.asked", "R.log")
    ]


def test_a_log_that_would_be_moved_over_the_auction_is_refused(front: Front) -> None:
    """At the start, and at SIGHUP; then the old configuration stays in force."""
    auction = front.folder / "auction.1"
    front.file.rename(auction)
    before = auction.read_bytes()
    front.write_config(file="auction.1")
    text = front.config.read_text()
    front.config.write_text(f'{text}[log]\nto = "auction"\n')
    ran = front.run()
    assert (ran.status, ran.output) == (2, "")
    assert ran.errors == (
        f"front: file: {auction} is the name of a file that is made beside the log, {front.folder / 'auction'}: choose another\n"
    )
    front.config.write_text(text)
    front.start()
    front.config.write_text(f'{text}[log]\nto = "auction"\n')
    front.signal(signal.SIGHUP)
    front.wait_until_said("stay in force: file: ")
    assert front.stop().status == 0
    assert auction.read_bytes()[:4_096] == before[:4_096]
