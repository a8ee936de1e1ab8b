"""Other files beside a record: a copy with the name of a segment, and files that another user made first, in a folder that all may
write.
"""

from __future__ import annotations

import os
import shutil
from collections.abc import Iterator
from pathlib import Path

import pytest
from harness.users import User

from hpb.front.faults import Stops
from hpb.front.recorder import open_record
from hpb.record import Damaged, read_record
from hpb.record.asked import AskedFile
from hpb.record.entries import InTheWay, New
from hpb.record.file import RecordFile
from hpb.record.segments import segment_paths, write_segment

AT = "2026-11-30T12:00:00.000000Z"
SMALL_SEGMENT = 2_000
DEFINITION = {"step": 10}
IN_THE_WAY = "R.2 has the name of a segment of the record, and isn't it"


def written(path: Path, bids: int, most: int = SMALL_SEGMENT) -> RecordFile:
    """A record with so many bids, each in a write of its own."""
    record = RecordFile(str(path), most)
    record.open()
    record.begin(DEFINITION)
    add(record, 1, bids)
    return record


def add(record: RecordFile, first: int, last: int) -> None:
    for number in range(first, last + 1):
        record.write([New("accepted", {"name": "ann", "line": f"BID x {number} a {number}00", "answer": f"OK {number}"}, AT)])


def count(path: Path) -> int:
    """How many commands a record has. It is opened for that, and closed again."""
    record = RecordFile(str(path), SMALL_SEGMENT)
    try:
        record.open()
        return record.state.count
    finally:
        record.close()


@pytest.fixture
def shared(room: Path) -> Path:
    """A folder in which everyone may make files, such as /tmp."""
    folder = room / "shared"
    folder.mkdir()
    folder.chmod(0o1777)
    return folder


# Copies.


@pytest.mark.parametrize("name", ["R.20261130", "R.3", "R.17"])
def test_a_copy_with_a_number_that_no_segment_needs_is_passed_over(name: str, tmp_path: Path) -> None:
    path = tmp_path / "R"
    written(path, 2).close()
    copy = Path(shutil.copy(path, tmp_path / name))
    before = copy.read_bytes()
    assert segment_paths(str(path)) == [str(path)]
    assert count(path) == 2 and len(read_record(path)[0]) == 3
    assert copy.read_bytes() == before


@pytest.fixture
def as_nobody(nobody: User) -> Iterator[None]:
    """This process has the rights of the user nobody."""
    os.setegid(nobody.gid)
    os.seteuid(nobody.uid)
    yield
    os.seteuid(0)
    os.setegid(0)


def test_a_copy_that_may_not_be_read_is_passed_over_too(shared: Path, as_nobody: None) -> None:
    """A backup that root made. In the place of a segment it is named: it may be that segment."""
    path = shared / "R"
    written(path, 2).close()
    copy = Path(shutil.copy(path, shared / "R.20261130"))
    copy.chmod(0)
    assert count(path) == 2 and len(read_record(path)[0]) == 3
    copy.rename(shared / "R.2")
    with pytest.raises(PermissionError) as told:
        count(path)
    assert told.value.filename == str(shared / "R.2")


def test_a_copy_in_the_place_of_the_next_segment_is_named(tmp_path: Path) -> None:
    """This changes nothing. Once the copy is moved, the record can be continued."""
    path = tmp_path / "R"
    written(path, 2).close()
    copy = Path(shutil.copy(path, tmp_path / "R.2"))
    before = {each.name: each.read_bytes() for each in tmp_path.iterdir()}
    with pytest.raises(InTheWay, match=IN_THE_WAY):
        count(path)
    with pytest.raises(Stops, match=f"^{IN_THE_WAY}. If it is a copy or another file move it to another folder, and start again"):
        open_record(str(path), DEFINITION, False)
    assert {each.name: each.read_bytes() for each in tmp_path.iterdir()} == before
    copy.unlink()
    assert count(path) == 2


def test_a_file_in_the_place_of_a_segment_between_is_named(tmp_path: Path) -> None:
    path = tmp_path / "R"
    written(path, 30).close()
    shutil.copy(path, tmp_path / "R.2")
    with pytest.raises(InTheWay, match=IN_THE_WAY):
        count(path)


def test_what_is_no_file_is_passed_over_or_named(tmp_path: Path) -> None:
    """Nobody waits for a pipe."""
    path = tmp_path / "R"
    written(path, 2).close()
    os.mkfifo(tmp_path / "R.20261130")
    (tmp_path / "R.77").mkdir()
    assert count(path) == 2
    os.mkfifo(tmp_path / "R.2")
    with pytest.raises(InTheWay):
        count(path)


def test_a_segment_goes_on_whose_successor_finds_its_name_taken(tmp_path: Path) -> None:
    """So a copy that is made while the front runs doesn't end anything."""
    path = tmp_path / "R"
    record = written(path, 1)
    shutil.copy(path, tmp_path / "R.2")
    add(record, 2, 30)
    record.close()
    assert path.stat().st_size > 2 * SMALL_SEGMENT
    with pytest.raises(InTheWay):
        count(path)
    (tmp_path / "R.2").unlink()
    assert count(path) == 30
    record = RecordFile(str(path), SMALL_SEGMENT)
    record.open()
    add(record, 31, 32)
    record.close()
    assert count(path) == 32 and (tmp_path / "R.2").exists()


def test_a_segment_never_takes_the_name_of_another_file(tmp_path: Path) -> None:
    """Even if that file comes in the last moment."""
    path = tmp_path / "R"
    (tmp_path / "R.2").write_bytes(b"of the operator\n")
    with pytest.raises(InTheWay, match=IN_THE_WAY):
        write_segment(str(path), 2, b"a segment\n")
    assert sorted(each.name for each in tmp_path.iterdir()) == ["R.2"]
    assert (tmp_path / "R.2").read_bytes() == b"of the operator\n"


@pytest.mark.parametrize("what", ["a copy", "another text", "a copy of a segment"])
def test_a_file_of_the_operator_isnt_taken_for_a_rest(what: str, tmp_path: Path) -> None:
    """`cp auction.record auction.record.new` stays, and the next segment comes all the same."""
    path, new = tmp_path / "R", tmp_path / "R.new"
    record = written(path, 1)
    data = {"a copy": path.read_bytes(), "another text": b"notes\n"}.get(what)
    if data is None:
        add(record, 2, 12)
        data = (tmp_path / "R.2").read_bytes()
    new.touch(mode=0o600)
    new.write_bytes(data)
    add(record, record.state.count + 1, 30)
    record.close()
    assert new.read_bytes() == data
    assert len(segment_paths(str(path))) > 3 and count(path) == 30
    assert not list(tmp_path.glob("R.new-*"))


def rests(path: Path) -> Iterator[bytes]:
    """The remainders that a front may leave if it is killed while making a segment."""
    head = (path.parent / "R.2").read_bytes().splitlines(keepends=True)[0]
    yield from (b"", head, head[:40], head[:200], bytes(4_096))


def test_a_rest_of_a_segment_is_taken_away(tmp_path: Path) -> None:
    path, new = tmp_path / "R", tmp_path / "R.new"
    record = written(path, 12)
    for rest in list(rests(path)):
        new.touch(mode=0o600)
        new.write_bytes(rest)
        segments, first = len(segment_paths(str(path))), record.state.count
        while len(segment_paths(str(path))) == segments:
            add(record, record.state.count + 1, record.state.count + 1)
        assert not new.exists(), (rest, first)
    # The second name of a segment, if the front is killed between the two steps of naming it.
    os.link(segment_paths(str(path))[-1], new)
    add(record, record.state.count + 1, record.state.count + 20)
    assert not new.exists()
    record.close()
    assert count(path) == record.state.count


# Other users.


@pytest.mark.as_root
@pytest.mark.parametrize("mode", [0o666, 0o600])
@pytest.mark.parametrize("name", ["R", "R.asked"])
def test_what_another_user_made_first_is_no_record(name: str, mode: int, shared: Path, nobody: User) -> None:
    nobody.call((shared / name).touch)
    (shared / name).chmod(mode)
    with pytest.raises(Stops, match=f"{name}: another user owns it; look whose it is, and move it"):
        open_record(str(shared / "R"), DEFINITION, False)
    assert (shared / name).read_bytes() == b""


@pytest.mark.as_root
def test_a_last_segment_of_another_user_is_refused(shared: Path, nobody: User) -> None:
    path = shared / "R"
    written(path, 12).close()
    nobody.own(Path(segment_paths(str(path))[-1]))
    with pytest.raises(PermissionError, match="another user owns it"):
        count(path)


@pytest.mark.as_root
def test_another_user_takes_no_name_of_a_new_segment(shared: Path, nobody: User) -> None:
    """Neither the name of its beginning nor its final name: the record goes on."""
    path = shared / "R"
    record = written(path, 1)
    nobody.call((shared / "R.new").touch)
    add(record, 2, 12)
    last = len(segment_paths(str(path)))
    assert last > 1 and all(Path(each).stat().st_uid == 0 for each in segment_paths(str(path)))
    nobody.call((shared / f"R.{last + 1}").touch)
    add(record, 13, 40)
    record.close()
    assert len(read_record_up_to(path, last)) == 40
    assert (shared / "R.new").stat().st_size == 0


def read_record_up_to(path: Path, last: int) -> list[str]:
    """The commands, without the other user's file after the last segment."""
    (path.parent / f"R.{last + 1}").unlink()
    return [entry["answer"] for entry in read_record(path)[0] if entry["kind"] == "accepted"]


@pytest.mark.parametrize("mode", [0o620, 0o602, 0o666])
def test_a_record_that_others_may_write_is_refused(mode: int, tmp_path: Path) -> None:
    path = tmp_path / "R"
    written(path, 1).close()
    for name in ("R", "R.asked"):
        (tmp_path / name).chmod(mode)
        with pytest.raises(Stops, match=f"{name}: others may write it; look whether they did, and `chmod go-w` it"):
            open_record(str(path), DEFINITION, False)
        (tmp_path / name).chmod(0o640)
    assert count(path) == 1


def test_a_link_is_no_record(tmp_path: Path) -> None:
    path = tmp_path / "R"
    (tmp_path / "elsewhere").touch(mode=0o600)
    (tmp_path / "R.asked").symlink_to("elsewhere")
    with pytest.raises(OSError):
        AskedFile(str(path))
    with pytest.raises((Damaged, OSError)):
        count(path)
    assert (tmp_path / "elsewhere").stat().st_size == 0
