"""Backup, restore, move and mock of an auction, killed at each call that changes a name or opens a file. One whole auction is left each time, and
no half copy is taken for a whole one."""
from __future__ import annotations

import hashlib
import os
import shutil
import signal
import sys
import tempfile
from collections.abc import Callable, Iterator
from pathlib import Path

import pytest

from hpb.auctions import backup, deriving, moving, restoring
from hpb.auctions.folder import CONFIGURATION, Auctions, CantDo
from hpb.auctions.making import Wanted, make
from hpb.record import New, RecordFile
from hpb.rules.writing import fields_of, read_script
from serving import DEFINITION, Program

pytestmark = pytest.mark.timeout(600)

# Calls of the system that Python reports before it makes them.
CALLS = ("open", "os.mkdir", "os.rename", "os.remove", "os.rmdir", "os.link", "os.chmod", "os.chown", "os.truncate", "subprocess.Popen", "ctypes.call_function", "ctypes.dlsym")
MOST_CALLS = 400
DONE, REFUSED = 0, 3


def killed_at(count: int, call: Callable[[], object]) -> int:
    """Makes a call in a child that kills itself at its call of the system with this number. Gives its status; minus the signal if it was killed."""
    if child := os.fork():
        return os.waitstatus_to_exitcode(os.waitpid(child, 0)[1])
    left = count

    def see(event: str, _: object) -> None:
        nonlocal left
        if event in CALLS:
            left -= 1
            if left == 0:
                os.kill(os.getpid(), signal.SIGKILL)

    sys.addaudithook(see)
    try:
        call()
    except CantDo:
        os._exit(REFUSED)
    except BaseException:
        os._exit(1)
    os._exit(DONE)


def kills(call: Callable[[], object], look: Callable[[], None]) -> int:
    """Makes a call again and again, killed one call of the system later each time, and looks after each kill. Gives how many kills there were."""
    for count in range(1, MOST_CALLS):
        status = killed_at(count, call)
        if status == DONE:
            return count - 1
        assert status == -signal.SIGKILL, (count, status)
        look()
    raise AssertionError("it comes to no end")


def bytes_in(folder: Path) -> dict[str, bytes]:
    return {str(path.relative_to(folder)): path.read_bytes() for path in sorted(folder.rglob("*")) if path.is_file()}


@pytest.fixture
def auctions(tmp_path: Path, program: Program) -> Iterator[Auctions]:
    """A folder with the auction `sale`, with a record of a few entries."""
    mask = os.umask(0o022)
    (tmp_path / "auctions").mkdir(mode=0o700)
    (tmp_path / "definition.json").write_bytes(DEFINITION)
    made = Auctions(tmp_path / "auctions")
    make(made, "sale", Wanted(tmp_path / "definition.json", journal=16, program=str(program.path)))
    grow(made.folder / "sale", 3)
    yield made
    os.umask(mask)


def grow(folder: Path, entries: int) -> None:
    """Adds entries to an auction's record; none of them is a command."""
    record = RecordFile(str(folder / "auction.record"))
    record.open()
    if not record.place.number:
        record.begin(fields_of(read_script(DEFINITION)))
    for number in range(entries):
        record.write([New("started", {"names": {"desk": "auctioneer"}, "count": 0}, f"2026-12-01T10:00:0{number}.000000Z")])
    record.close()


@pytest.fixture
def other_disk() -> Iterator[Path]:
    """A folder on another file system than the tests' own."""
    with tempfile.TemporaryDirectory(dir="/dev/shm") as folder:
        yield Path(folder)


def test_a_backup_that_is_killed_is_none(auctions: Auctions, tmp_path: Path) -> None:
    sale, to = auctions.named("sale"), tmp_path / "backups" / "one"
    to.parent.mkdir()
    before = bytes_in(sale.folder)

    def look() -> None:
        assert bytes_in(sale.folder) == before
        if to.exists():
            # It was killed behind its last step.
            assert backup.verify(to).place.number == 4
            shutil.rmtree(to)
        for half in to.parent.iterdir():
            # The rest has another name. It is taken for a whole one only if all of it is there.
            assert half.name == ".one.new"
            if set(bytes_in(half)) != {*before, "SHA256SUMS"} - {"auction.record.log"}:
                with pytest.raises(CantDo):
                    backup.verify(half)

    assert kills(lambda: backup.make(sale, to), look) > 15
    assert backup.verify(to).place.number == 4
    assert [one.name for one in to.parent.iterdir()] == ["one"]
    assert {name: data for name, data in bytes_in(to).items() if name != "SHA256SUMS"} == before


def test_a_restore_that_is_killed_leaves_the_old_auction_or_the_new_one(auctions: Auctions, tmp_path: Path) -> None:
    sale, to = auctions.named("sale"), tmp_path / "one"
    backup.make(sale, to)
    new = {name: data for name, data in bytes_in(to).items() if name != "SHA256SUMS"}
    # The auction that is there has lost its last entry, and has a file of its own beside it.
    record = sale.folder / "auction.record"
    record.write_bytes(b"".join(record.read_bytes().splitlines(keepends=True)[:-1]))
    (sale.folder / "auction.record.asked").unlink()
    (sale.folder / "notes").write_text("kept")
    old = bytes_in(sale.folder)

    def look() -> None:
        assert [one.name for one in auctions.all()] == ["sale"]
        assert bytes_in(sale.folder) in (old, new)

    assert kills(lambda: restoring.restore(auctions, "sale", to), look) > 15
    assert bytes_in(sale.folder) == new
    # The old one is kept, whatever was killed.
    assert old in [bytes_in(one) for one in auctions.folder.iterdir()]


def test_a_restore_of_nothing_that_is_killed_leaves_none_or_a_whole_one(auctions: Auctions, tmp_path: Path) -> None:
    sale, to = auctions.named("sale"), tmp_path / "one"
    backup.make(sale, to)
    new = bytes_in(sale.folder)
    shutil.rmtree(sale.folder)

    def look() -> None:
        assert not sale.folder.exists() or bytes_in(sale.folder) == new
        shutil.rmtree(sale.folder, ignore_errors=True)

    assert kills(lambda: restoring.restore(auctions, "sale", to), look) > 15
    assert bytes_in(sale.folder) == new and [one.name for one in auctions.folder.iterdir()] == ["sale"]


@pytest.mark.parametrize("is_far", [False, True], ids=["one disk", "two disks"])
def test_a_move_that_is_killed_leaves_one_whole_auction_and_never_two(auctions: Auctions, tmp_path: Path, other_disk: Path, is_far: bool) -> None:
    sale, to = auctions.named("sale"), Auctions(other_disk if is_far else tmp_path / "others")
    to.folder.mkdir(exist_ok=True)
    (sale.folder / "notes").mkdir()
    (sale.folder / "notes" / "one").write_text("kept")
    whole = bytes_in(sale.folder)
    kept = auctions.folder.parent / "kept"
    shutil.copytree(sale.folder, kept)
    outcomes = set()

    def look() -> None:
        can_start = [one for one in (sale.folder, to.folder / "sale") if (one / CONFIGURATION).exists()]
        assert len(can_start) <= 1
        assert all(bytes_in(one) == whole or bytes_in(one).keys() - whole.keys() == {moving.TO} for one in can_start)
        outcomes.add(tuple(one.parent.name for one in can_start))
        if not (to.folder / "sale").exists() or sale.folder.exists():
            # The same command again moves it on to its end.
            moving.move(auctions, "sale", to)
        assert bytes_in(to.folder / "sale") == whole and not sale.folder.exists()
        shutil.rmtree(to.folder / "sale")
        shutil.copytree(kept, sale.folder)

    assert kills(lambda: moving.move(auctions, "sale", to), look) > (30 if is_far else 3)
    assert bytes_in(to.folder / "sale") == whole and not sale.folder.exists()
    wanted = {(auctions.folder.name,), (to.folder.name,)}
    assert outcomes == wanted | ({()} if is_far else set()) if is_far else outcomes <= wanted


def test_an_interrupted_move_goes_on_to_the_same_folder_alone(auctions: Auctions, tmp_path: Path, other_disk: Path) -> None:
    sale = auctions.named("sale")
    first, second = Auctions(other_disk / "first"), Auctions(other_disk / "second")
    first.folder.mkdir()
    second.folder.mkdir()
    for count in range(1, MOST_CALLS):
        assert killed_at(count, lambda: moving.move(auctions, "sale", first)) == -signal.SIGKILL
        if (sale.folder / "front.toml.moving").exists():
            break
    with pytest.raises(CantDo, match="its move to another folder was interrupted"):
        auctions.named("sale")
    assert [one.name for one in auctions.all()] == ["sale"]
    with pytest.raises(CantDo, match=f"sale was being moved to {first.folder}/sale: move it there"):
        moving.move(auctions, "sale", second)
    moving.move(auctions, "sale", first)
    assert list(second.folder.iterdir()) == [] and (first.folder / "sale" / CONFIGURATION).exists() and not sale.folder.exists()


def test_a_mock_that_is_killed_leaves_none_or_a_whole_one(auctions: Auctions) -> None:
    trial = auctions.folder / "trial"
    names = {"front.toml", "front.key", "front.pem", "auction.tokens", "mock-auction.hpb"}

    def look() -> None:
        assert not trial.exists() or set(bytes_in(trial)) == names
        shutil.rmtree(trial, ignore_errors=True)

    assert kills(lambda: deriving.mock(auctions, "sale", "trial", None), look) > 10
    assert set(bytes_in(trial)) == names
    tokens = [auctions.folder / name / "auction.tokens" for name in ("sale", "trial")]
    assert hashlib.sha256(tokens[0].read_bytes()).digest() == hashlib.sha256(tokens[1].read_bytes()).digest()
