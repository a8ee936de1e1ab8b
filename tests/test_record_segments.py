"""Segments of a record: how they are sealed, what a start reads of them, and how a record of the earlier form is continued."""

from __future__ import annotations

import json
import os
import shutil
from collections.abc import Callable
from pathlib import Path

import pytest

from hpb.record import HASH_BYTES, Damaged, Place, WrongSegment, read_record
from hpb.record.asked import Asked
from hpb.record.entries import MOST_WRITE, Entry, New, entry_line, read_entry
from hpb.record.file import RecordFile
from hpb.record.segments import segment_path, segment_paths
from hpb.record.state import State

AT = "2026-11-30T12:00:00.000000Z"
SMALL_SEGMENT = 2_000
DEFINITION = {"step": 10}
NAMES = {"desk": "auctioneer", "ann": ["x"]}
# Written by the front of 28 November 2026 (commit d4ceda10): six commands, a start between them, and a kill after entry 23.
FORM_BEFORE = Path(__file__).parent / "record" / "form-1.record"


def bid(number: int) -> New:
    return New("accepted", {"name": "ann", "line": f"BID x {number} a {number}00", "answer": f"OK {number}"}, AT)


def written(path: Path, bids: int, most: int = SMALL_SEGMENT) -> RecordFile:
    """A record with so many bids, each in a write of its own."""
    record = RecordFile(str(path), most)
    record.open()
    record.begin(DEFINITION)
    record.write([New("started", {"names": NAMES, "count": 0}, AT)])
    for number in range(1, bids + 1):
        record.write([bid(number)])
    return record


def opened(path: Path, may_set_aside: bool = False) -> RecordFile:
    """A record that is opened and closed again. If it can't be, the Damaged that is raised says why."""
    record = RecordFile(str(path), SMALL_SEGMENT)
    try:
        record.open(may_set_aside)
    finally:
        record.close()
    return record


def test_segments_are_sealed_and_each_has_all_that_a_start_needs(tmp_path: Path) -> None:
    path = tmp_path / "R"
    record = written(path, 30)
    record.close()
    paths = segment_paths(str(path))
    assert [Path(each).name for each in paths] == ["R", "R.2", "R.3", "R.4", "R.5", "R.6", "R.7", "R.8"][: len(paths)]
    assert len(paths) > 3
    for each in paths:
        lines = [json.loads(line[HASH_BYTES + 1 :]) for line in Path(each).read_bytes().splitlines()]
        assert lines[0]["kind"] == "begin" and lines[0]["definition"] == DEFINITION
        assert [entry["kind"] for entry in lines].count("sealed") == (each != paths[-1]) == (lines[-1]["kind"] == "sealed")
        assert os.stat(each).st_mode & 0o777 == 0o600
        if each != paths[0]:
            before = [entry for entry in commands(path) if entry["entry"] < lines[0]["entry"]]
            told: list[object] = [entry["line"] for entry in before]
            wanted = {"names": NAMES, "count": len(before), "foreign": 0, "used": {"x": len(before)}, "open": [], "lines": told}
            assert lines[0]["state"] == wanted
    again = opened(path)
    assert (again.state.count, again.state.used, again.place) == (30, {"x": 30}, record.place)
    assert [entry["answer"] for entry in commands(path)] == [f"OK {number}" for number in range(1, 31)]


def commands(path: Path) -> list[Entry]:
    return [entry for entry in read_record(path)[0] if entry["kind"] == "accepted"]


def test_the_seal_is_that_of_the_file(tmp_path: Path) -> None:
    """As another program calculates it: the hash of everything before the seal, and of the whole file."""
    path = tmp_path / "R"
    written(path, 8).close()
    first, second = (Path(each).read_bytes() for each in segment_paths(str(path))[:2])
    seal, head = (json.loads(line[HASH_BYTES + 1 :]) for line in (first.splitlines()[-1], second.splitlines()[0]))
    assert seal["sha256"] == by_sha256sum(first[: seal["bytes"]], tmp_path)
    assert head["behind"] == {"bytes": len(first), "sha256": by_sha256sum(first, tmp_path)}
    assert head["before"] == first.splitlines()[-1][:HASH_BYTES].decode()


def by_sha256sum(data: bytes, folder: Path) -> str:
    (folder / "data").write_bytes(data)
    return os.popen(f"sha256sum {folder / 'data'}").read().split()[0]


def test_a_start_reads_the_last_segment_and_the_replay_all(tmp_path: Path) -> None:
    """A start doesn't look at the bytes of an earlier segment. A reader of all segments finds a changed one."""
    path = tmp_path / "R"
    written(path, 30).close()
    for each in segment_paths(str(path))[:-1]:
        whole = Path(each).read_bytes()
        for at in range(0, len(whole), 41):
            Path(each).write_bytes(whole[:at] + bytes([whole[at] ^ 1]) + whole[at + 1 :])
            with pytest.raises(Damaged):
                read_record(path)
        place = len(whole) // 2
        Path(each).write_bytes(whole[:place] + bytes([whole[place] ^ 1]) + whole[place + 1 :])
        assert opened(path).state.count == 30
        Path(each).write_bytes(whole)
    assert len(commands(path)) == 30


def missing(paths: list[Path]) -> None:
    paths[1].unlink()


def shorter(paths: list[Path]) -> None:
    paths[0].write_bytes(paths[0].read_bytes()[:-1])


def longer(paths: list[Path]) -> None:
    paths[1].write_bytes(paths[1].read_bytes() + b"\n")


def exchanged(paths: list[Path]) -> None:
    first, second = paths[0].read_bytes(), paths[1].read_bytes()
    paths[0].write_bytes(second)
    paths[1].write_bytes(first)


def another_end(paths: list[Path]) -> None:
    data = paths[0].read_bytes()
    paths[0].write_bytes(data[:-80] + b"?" + data[-79:])


def another_head(paths: list[Path]) -> None:
    data = paths[-1].read_bytes()
    paths[-1].write_bytes(data[:100] + b"?" + data[101:])


@pytest.mark.parametrize("change", [missing, shorter, longer, exchanged, another_end, another_head])
def test_a_segment_that_isnt_the_one_that_was_sealed_is_refused(change: Callable[[list[Path]], None], tmp_path: Path) -> None:
    """This changes nothing, whether it may be set aside or not."""
    path = tmp_path / "R"
    written(path, 30).close()
    change([Path(each) for each in segment_paths(str(path))])
    before = {each.name: each.read_bytes() for each in tmp_path.iterdir()}
    for may_set_aside in (False, True):
        with pytest.raises(WrongSegment):
            opened(path, may_set_aside)
    assert {each.name: each.read_bytes() for each in tmp_path.iterdir()} == before
    with pytest.raises(Damaged):
        read_record(path)


def test_a_last_segment_that_is_gone_is_missed(tmp_path: Path) -> None:
    """By the file beside the record."""
    path = tmp_path / "R"
    written(path, 30).close()
    Path(segment_paths(str(path))[-1]).unlink()
    with pytest.raises(Damaged, match="was on the disk, and R ends behind entry"):
        opened(path)


def test_a_head_that_lies_with_hashes_that_are_right_is_found(tmp_path: Path) -> None:
    path = tmp_path / "R"
    written(path, 12).close()
    last = Path(segment_paths(str(path))[-1])
    line, *rest = last.read_bytes().splitlines(keepends=True)
    head = json.loads(line[HASH_BYTES + 1 :])
    place = Place(head["entry"] - 1, head["before"])
    for change in ({"state": {**head["state"], "count": 1}}, {"definition": {"step": 20}}, {"behind": {**head["behind"], "bytes": 7}}):
        fields = {key: value for key, value in {**head, **change}.items() if key not in ("entry", "before", "synced", "at", "kind")}
        last.write_bytes(entry_line(place, "begin", fields, AT, place.number)[0])
        with pytest.raises(Damaged, match="isn't"):
            read_record(path)


def test_another_file_of_that_name_is_no_segment(tmp_path: Path) -> None:
    path = tmp_path / "R"
    written(path, 1).close()
    for name in ("R.log", "R.1", "R.02", "R.torn-1", "R.asked.torn-1", "R.2.bak", "R.\N{SUPERSCRIPT TWO}"):
        (tmp_path / name).touch()
    assert segment_paths(str(path)) == [str(path)] == [segment_path(str(path), 1)]
    assert opened(path).state.count == 1


def test_what_stands_beside_another_record_isnt_taken(tmp_path: Path) -> None:
    """If setting aside is allowed, the file is set aside, with the commands in it."""
    path, other = tmp_path / "R", tmp_path / "other"
    written(path, 3).close()
    record = written(other, 1)
    record.asked.put({0: Asked("ann", b"BID x 2 a 200")})
    record.close()
    shutil.copy(tmp_path / "other.asked", tmp_path / "R.asked")
    beside = (tmp_path / "R.asked").read_bytes()
    with pytest.raises(Damaged, match="R.asked belongs to another record than R"):
        opened(path)
    assert (tmp_path / "R.asked").read_bytes() == beside
    assert opened(path, may_set_aside=True).state.count == 3
    assert (tmp_path / "R.asked.torn-1").read_bytes() == beside
    assert opened(path).state.count == 3


def test_an_older_copy_is_refused(tmp_path: Path) -> None:
    """Even one that was continued in another place."""
    path = tmp_path / "R"
    record = written(path, 2)
    older = path.read_bytes()
    record.write([bid(3)])
    record.close()
    path.write_bytes(older)
    with pytest.raises(Damaged, match="is an older copy"):
        opened(path)
    copy = tmp_path / "copy"
    copy.mkdir()
    (copy / "R").write_bytes(older)
    gone_on = RecordFile(str(copy / "R"))
    gone_on.open()
    gone_on.write([bid(4), bid(5)])
    gone_on.close()
    shutil.copy(copy / "R", path)
    with pytest.raises(Damaged, match="is another copy"):
        opened(path)


# The earlier form.


@pytest.fixture
def before(tmp_path: Path) -> Path:
    return Path(shutil.copy(FORM_BEFORE, tmp_path / "R"))


def test_a_record_of_the_form_before_is_opened(before: Path) -> None:
    """By hand: the lines of the record."""
    state = opened(before).state
    assert (state.count, state.used) == (6, {"x": 1, "y": 1, "z": 1, "w": 2, None: 1})
    assert state.open == {23: ("ann", b"BID x 2 a 160")}
    assert not list(before.parent.glob("R.2"))


def test_a_record_of_an_older_program_is_read_and_gone_on_with(tmp_path: Path, monkeypatch: pytest.MonkeyPatch) -> None:
    """Until December 2026 the first entry of a segment had no commands of the open round. They are read from the segments before it."""
    path, head = tmp_path / "R", State.head
    with monkeypatch.context() as older:
        older.setattr(State, "head", lambda state: {name: value for name, value in head(state).items() if name != "lines"})
        written(path, 30).close()
    assert len(segment_paths(str(path))) > 3
    record = RecordFile(str(path), SMALL_SEGMENT)
    record.open()
    assert record.state.lines == [f"BID x {number} a {number}00".encode() for number in range(1, 31)]
    for number in range(31, 45):
        record.write([bid(number)])
    record.close()
    assert [entry["answer"] for entry in commands(path)] == [f"OK {number}" for number in range(1, 45)]
    assert opened(path).state.lines == [f"BID x {number} a {number}00".encode() for number in range(1, 45)]


def test_a_record_of_the_form_before_is_gone_on_with_in_a_segment_behind_it(before: Path) -> None:
    """Its file stays unchanged, and the replay reads it. A start reads only the new segment."""
    old = before.read_bytes()
    record = RecordFile(str(before))
    record.open()
    record.write([New("accepted", {"name": "ann", "line": "BID x 2 a 160", "answer": "OK 7", "asked": 23}, AT)])
    record.close()
    assert before.read_bytes() == old
    head = json.loads((before.parent / "R.2").read_bytes().splitlines()[0][HASH_BYTES + 1 :])
    assert (head["entry"], head["form"], head["segment"], head["behind"]["bytes"]) == (24, 2, 2, len(old))
    assert (head["state"]["count"], head["state"]["open"]) == (6, [[23, "ann", "BID x 2 a 160"]])
    assert [entry["answer"] for entry in commands(before)] == [f"OK {number}" for number in range(1, 8)]
    before.write_bytes(old[:500] + bytes([old[500] ^ 1]) + old[501:])
    state = opened(before).state
    assert (state.count, state.used["x"], state.open, state.names["bob"]) == (7, 2, {}, ["y", "z"])
    with pytest.raises(Damaged):
        read_record(before)


def test_torn_ends_of_the_form_before(before: Path) -> None:
    """If a crash may have left it, it is set aside. An entry with an answer was synced, so a changed one is refused."""
    whole = before.read_bytes()
    lines = whole.splitlines(keepends=True)
    last_answered = len(b"".join(lines[:21]))
    for at in [*range(0, last_answered, 97), last_answered - 1]:
        before.write_bytes(whole[:at] + bytes([whole[at] ^ 1]) + whole[at + 1 :])
        with pytest.raises(Damaged):
            opened(before)
    for torn in (whole[:-1], whole[:-150], whole + bytes(4096), whole + lines[0][:200], whole[:-150] + bytes(150)):
        before.write_bytes(torn)
        (before.parent / "R.asked").unlink()
        opened(before)
        assert whole.startswith(before.read_bytes()) and len(before.read_bytes()) >= len(b"".join(lines[:22]))
    for aside in before.parent.glob("R.torn-*"):
        assert aside.stat().st_size


@pytest.mark.parametrize("length", [MOST_WRITE - 2_000, MOST_WRITE + 2_000])
def test_what_is_longer_than_a_write_of_the_form_before_was_changed(before: Path, length: int) -> None:
    """After an entry that isn't whole, if nothing else says when that was synced."""
    place, data = Place(), b""
    for line in before.read_bytes().splitlines(keepends=True):
        read_entry(line, place)
        place = Place(place.number + 1, line[:HASH_BYTES].decode())
    while len(data) < length:
        line, place = entry_line(place, "answered", {"name": "ann", "line": "SHOW", "answer": "ROUND .."})
        data += line
    whole = before.read_bytes()
    before.write_bytes(whole + b"?" + data[1:])
    if length < MOST_WRITE:
        assert opened(before).place.number == 23 and before.read_bytes() == whole
    else:
        with pytest.raises(Damaged, match="it was on the disk"):
            opened(before)
