"""Another program does something to a record while its front runs: the front says so, and answers no command that the record lacks."""

from __future__ import annotations

import os
import re
import shutil
from collections.abc import Callable
from pathlib import Path

import pytest
from fronts import Front, StartsNot, rest_of

from hpb.record import New, RecordFile, time_now
from hpb.record.kept import NotKept

# Within so many seconds a front notices it, though no command comes.
SECONDS = 15
BID, NEXT_BID = "BID x 1 a 100", "BID y 1 b 150"


@pytest.fixture
def begun(front: Front) -> Front:
    """A front that has accepted a bid."""
    front.start()
    assert front.ask("ann", BID) == "OK 1"
    return front


def unanswered(front: Front, what: Callable[[], object]) -> str:
    """What the front says at its end, after this was done to its record. A bid that comes at once gets no answer."""
    client = front.client("bob")
    what()
    client.send(f"{NEXT_BID}\n".encode())
    assert rest_of(client) == []
    ran = front.ended()
    assert (ran.status, ran.output) == (1, "")
    return ran.errors


def goes_on(front: Front) -> None:
    """The next front has the first bid, and finds the second, which the file has."""
    front.start()
    assert [front.ask("bob", NEXT_BID), front.ask("ann", BID)] == ["OK 2", "OK 1"]
    assert front.stop().status == 0
    assert front.accepted() == [(BID, "OK 1"), (NEXT_BID, "OK 2")]


def replace(path: Path) -> None:
    """Puts a copy in the place of a file, as an editor does."""
    copy = path.with_name("copy")
    shutil.copyfile(path, copy)
    copy.rename(path)


@pytest.mark.parametrize("name", ["R", "R.asked"])
@pytest.mark.parametrize("what", [Path.unlink, replace], ids=["removed", "replaced"])
def test_a_file_of_the_record_that_is_removed_is_saved(begun: Front, name: str, what: Callable[[Path], None]) -> None:
    """Before, all that came from then on was answered, and gone with the end of the front, which ended with 0."""
    path = begun.folder / name
    before = path.read_bytes()
    said = unanswered(begun, lambda: what(path))
    assert f"front: {name} was removed or replaced while the front ran. All of it is saved as {name}.torn-1: give that the name {name}, and start again\n" in said
    saved = begun.folder / f"{name}.torn-1"
    assert saved.stat().st_mode & 0o777 == 0o600
    assert saved.read_bytes().startswith(before) or name == "R.asked"
    saved.replace(path)
    goes_on(begun)


def test_a_record_that_is_moved_goes_on_once_it_is_back(begun: Front) -> None:
    moved = begun.folder / "moved"
    said = unanswered(begun, lambda: begun.record.rename(moved))
    found = re.search(r"front: R was moved or replaced while the front ran\. `find / -inum ([0-9]+)` finds it: give it its name again", said)
    assert found and int(found[1]) == moved.stat().st_ino
    with pytest.raises(StartsNot):
        begun.start()
    assert not begun.record.exists()
    moved.rename(begun.record)
    goes_on(begun)


def test_a_folder_that_is_moved_ends_the_front_and_has_all_of_it(begun: Front) -> None:
    """As by an operator who tidies up."""
    moved = begun.folder.with_name(begun.folder.name + "-moved")
    try:
        assert "front: R was moved or replaced while the front ran." in unanswered(begun, lambda: begun.folder.rename(moved))
    finally:
        moved.rename(begun.folder)
    goes_on(begun)


@pytest.mark.parametrize("change", [-100, 7], ids=["shorter", "longer"])
def test_a_record_that_is_overwritten_ends_the_front(begun: Front, change: int) -> None:
    """By an older copy, say, or by a program that writes at its end."""
    length = begun.record.stat().st_size
    said = unanswered(begun, lambda: os.truncate(begun.record, length + change))
    assert re.search(rf"front: R was cut or overwritten while the front ran: it has {length + change} bytes, and {length} were written\.", said)
    assert begun.record.stat().st_size == length + change


def test_a_record_that_is_removed_is_missed_though_no_command_comes(begun: Front) -> None:
    begun.record.unlink()
    ran = begun.ended(SECONDS)
    assert ran.status == 1 and "All of it is saved as R.torn-1" in ran.errors


def test_a_front_that_stops_then_says_no_stopped(begun: Front) -> None:
    begun.record.unlink()
    ran = begun.stop()
    assert (ran.status, ran.output) == (1, "") and "All of it is saved as R.torn-1" in ran.errors


def test_where_the_record_is_missing_none_is_made_in_its_place(begun: Front) -> None:
    """A start that is refused leaves all files as they are."""
    assert begun.stop().status == 0
    kept = begun.record.read_bytes()
    begun.record.rename(begun.folder / "away")
    before = sorted(os.listdir(begun.folder))
    with pytest.raises(StartsNot):
        begun.start()
    assert sorted(os.listdir(begun.folder)) == before
    (begun.folder / "away").rename(begun.record)
    assert begun.record.read_bytes() == kept
    begun.start()


def test_the_first_and_the_last_segment_are_looked_at(tmp_path: Path) -> None:
    """The last one has the record's end, and the first one its lock."""
    for number, name in enumerate(("R", "R.3"), 1):
        folder = tmp_path / str(number)
        folder.mkdir()
        record = RecordFile(str(folder / "R"), 600)
        record.open()
        record.begin({})
        while record.segment < 3:
            record.write([New("started", {"names": {}, "count": 0}, time_now())])
        (folder / name).unlink()
        with pytest.raises(NotKept, match=rf"^{re.escape(name)} was removed"):
            record.write([New("started", {"names": {}, "count": 0}, time_now())])
        with pytest.raises(NotKept):
            record.look()
        assert sum(".torn-" in each for each in os.listdir(folder)) == 1
        record.close()
