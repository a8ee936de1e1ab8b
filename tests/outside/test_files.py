"""Things that aren't regular files, files that are too large or have a damaged checkpoint, and folders that nobody may read."""

from __future__ import annotations

import os
import pty
import re
import resource
import signal
import socket
from collections.abc import Iterator
from dataclasses import dataclass
from pathlib import Path

import pytest

from harness.auctions import PAGE, Layout, definition
from harness.conditions import NORMAL, Conditions
from harness.notices import closes
from harness.programs import Program, Ran, format_words
from harness.serving import Server, free_port
from harness.streams import opened
from harness.users import User
from outside.jobs import EMPTY, FIRST_BID, ONE_BID
from outside.lies import Liar

AT_ONCE = 2
JOBS = ("format", "check", "run", "serve")
SIZE = 17 * PAGE


def run_job(program: Program, job: str, file: object, conditions: Conditions = NORMAL, text: bytes = FIRST_BID) -> Ran:
    """A job on a file of this name; a run has this text."""
    path = Path(str(file))
    more: list[object] = ["--port", free_port(), "--sessions", 1] if job == "serve" else []
    words = format_words(path) if job == "format" else [job, "--file", path, *more]
    return program.run(*words, text={"format": definition(), "run": text}.get(job, b""), conditions=conditions)


def is_refused(ran: Ran, said: str = "") -> None:
    """By 91 at once, and in one line, in which this stands."""
    assert (ran.output, ran.status) == ("ERR 91 device\n", 1), ran
    assert ran.seconds < AT_ONCE
    assert re.fullmatch(r"hpb: 91 device: [^\n]+\n", ran.errors) and said in ran.errors, ran


@pytest.fixture
def no_files(room: Path) -> Iterator[list[str]]:
    """A pipe with a name, a link to it, a folder, a socket, devices and a terminal."""
    os.mkfifo(room / "fifo")
    (room / "folder").mkdir()
    (room / "linked").symlink_to(room / "fifo")
    with socket.socket(socket.AF_UNIX) as listener:
        listener.bind(str(room / "socket"))
        listener.listen()
        typing, device = pty.openpty()
        names = [str(room / name) for name in ("fifo", "linked", "folder", "socket")]
        yield [*names, "/dev/null", "/dev/zero", os.ttyname(device)]
        os.close(device)
        os.close(typing)
    assert sorted(path.name for path in room.iterdir()) == ["fifo", "folder", "linked", "socket"]


@pytest.mark.parametrize("job", JOBS)
def test_what_is_no_file(program: Program, room: Path, no_files: list[str], job: str) -> None:
    """It is refused, and nothing waits for it."""
    for name in no_files:
        is_refused(run_job(program, job, name))
    with opened(room / "fifo", os.O_RDONLY | os.O_NONBLOCK) as reader:
        with opened(room / "fifo", os.O_WRONLY):
            is_refused(run_job(program, job, room / "fifo"))
        assert os.read(reader, 100) == b""


@pytest.fixture
def file(program: Program, room: Path) -> Path:
    """An auction with one bid."""
    assert program.format(room / "F").status == program.run_lines(room / "F", FIRST_BID).status == 0
    return room / "F"


def limit_of(size: int) -> Conditions:
    """No file may grow beyond so many bytes, and the signal that comes of it does what it always does."""
    most = resource.getrlimit(resource.RLIMIT_FSIZE)[1]

    def last() -> None:
        signal.signal(signal.SIGXFSZ, signal.SIG_DFL)
        resource.setrlimit(resource.RLIMIT_FSIZE, (size, most))
        resource.setrlimit(resource.RLIMIT_CORE, (0, 0))

    return Conditions(last=last)


@pytest.mark.parametrize("limit", [0, 1, 3 * PAGE, SIZE - PAGE, SIZE - 1])
def test_a_limit_that_is_smaller_than_the_file(program: Program, file: Path, limit: int) -> None:
    """The file is as before, and can be shown."""
    kept, conditions = file.read_bytes(), limit_of(limit).within(file.parent)
    for job, name in (("format", "new"), ("run", "F"), ("serve", "F")):
        said = f"{name} wants {SIZE} bytes, and this process may write no more than {limit} to a file: let it write more"
        is_refused(run_job(program, job, name, conditions), f"hpb: 91 device: {said} (ulimit -f)\n")
        assert [path.name for path in file.parent.iterdir()] == ["F"]
        assert file.read_bytes() == kept
    ran = program.check(file, conditions)
    assert (ran.lines()[0], ran.errors, ran.status) == (ONE_BID, "", 0)


@pytest.mark.parametrize("limit", [SIZE, SIZE + 1, resource.RLIM_INFINITY], ids=["as long", "a byte more", "none"])
def test_a_limit_that_is_large_enough(program: Program, room: Path, limit: int) -> None:
    file, conditions = room / "F", limit_of(limit)
    assert program.format(file, conditions=conditions).told() == ("FORMATTED 17\n", "", 0)
    ran = program.run_lines(file, FIRST_BID + b"CLOSE 1\nSHOW\n", conditions=conditions)
    assert ran.told() == ("OK 1\nOK 2\nROUND 2 STAGE 1 OPEN REVENUE 100 COUNT 2\n", "", 0)
    with Server(program, file, conditions=conditions) as server:
        session = server.connect()
        assert session.ask("CLOSE 2") == "OK 3"
        assert session.finish() == []
        closes(server, 3)


DOUBT = (
    "hpb: a checkpoint is damaged, which no power cut does, and it may be the newest: COUNT is {} in the auction that was opened, "
    "and {}. Copy the file before anything else, and hold COUNT against the number of the last OK: if that is greater, go back to "
    "your newest backup, and send again, in their order, the commands since then\n"
)


@dataclass(frozen=True)
class Damage:
    """The last byte of a slot's body is another one: its place, how many commands are found then, and how many the damaged one has."""

    at: int
    count: int
    other: int

    @property
    def doubt(self) -> str:
        """The message about it."""
        return DOUBT.format(self.count, f"{self.other} by the damaged one")

    def make(self, data: bytes) -> bytes:
        """These bytes with it."""
        return data[: self.at] + bytes([data[self.at] ^ 1]) + data[self.at + 1 :]


FIVE = b"BID x 1 a 100\nBID y 1 b 150\nCLOSE 1\nBID x 2 a 200\nCLOSE 2\n"


@pytest.fixture
def five(program: Program, room: Path, layout: Layout) -> bytes:
    """The bytes of a file of each layout with five commands, and a checkpoint of each."""
    assert program.format(room / "F", layout).status == program.run_lines(room / "F", FIVE, "--every", 1).status == 0
    assert program.check(room / "F").errors == ""
    return (room / "F").read_bytes()


@pytest.mark.parametrize("damage", [Damage(8 * PAGE - 1, 5, 4), Damage(13 * PAGE - 1, 4, 5)], ids=["first", "second"])
def test_a_damaged_checkpoint(program: Program, room: Path, five: bytes, damage: Damage) -> None:
    """The file opens by the other, and a message has both counts before anything else."""
    file = room / "F"
    for job in ("check", "run"):
        file.write_bytes(damage.make(five))
        ran = run_job(program, job, file, text=b"SHOW\n")
        assert (int(ran.output.split()[8]), ran.errors, ran.status) == (damage.count, damage.doubt, 0)
    file.write_bytes(damage.make(five))
    with Server(program, file) as server:
        session = server.connect()
        assert session.ask("SHOW").split()[8] == str(damage.count)
        assert session.finish() == []
        closes(server, damage.count, said=damage.doubt)


# How many rounds go round the journal once and some batches more, and with which command such a batch then begins.
LATER = {Layout.PAGES: (3, 6), Layout.CELLS: (10, 20)}


@pytest.mark.parametrize("job", ["check", "run"])
def test_a_journal_that_went_on_behind_both_checkpoints(program: Program, room: Path, layout: Layout, job: str) -> None:
    """They are as they were when the file was made: a message has the last batch."""
    file, (count, first) = room / "F", LATER[layout]
    assert program.format(file, layout).status == 0
    before = file.read_bytes()
    lines = "".join(f"BID x {ticket} a {100 * ticket}\nCLOSE {ticket}\n" for ticket in range(1, count + 1))
    assert program.run_lines(file, lines.encode()).status == 0
    kept = file.read_bytes()
    file.write_bytes(kept[: 3 * PAGE] + before[3 * PAGE : 13 * PAGE] + kept[13 * PAGE :])
    ran = run_job(program, job, file, text=b"SHOW\n")
    doubt = DOUBT.format(0, f"a later batch begins with command {first}")
    assert (ran.lines()[0], ran.errors, ran.status) == (EMPTY, doubt, 0)


def test_a_folder_that_cant_be_read(program: Program, file: Path, room: Path) -> None:
    """It can't be synced either; a file in it can be shown. Root may read each folder, so another user does this in its place."""
    kept, user = file.read_bytes(), User.named("nobody") if os.geteuid() == 0 else None
    conditions = Conditions(user=user)
    if user:
        user.own(room)
        user.own(file)
    room.chmod(0o300)
    try:
        for job, name in (("format", "new"), ("run", "F"), ("serve", "F")):
            is_refused(run_job(program, job, room / name, conditions, b"BID y 1 b 150\nSHOW\n"))
        ran = program.check(file, conditions)
        assert (ran.lines()[0], ran.errors, ran.status) == (ONE_BID, "", 0)
    finally:
        room.chmod(0o700)
    assert [path.name for path in room.iterdir()] == ["F"]
    assert file.read_bytes() == kept


@pytest.mark.parametrize("job", ["check", "run", "serve"])
def test_a_file_that_cant_be_synced(program: Program, job: str) -> None:
    """A regular file of the system, which can be read and locked."""
    file = "/proc/self/comm"
    is_refused(run_job(program, job, file), f"hpb: 91 device: {file} could not be opened: Invalid argument (os error 22): see ")


def test_a_file_that_may_not_be_written(program: Program, file: Path, room: Path) -> None:
    """It can be shown. Root may write each file, so another user does this in its place."""
    kept, user = file.read_bytes(), User.named("nobody") if os.geteuid() == 0 else None
    conditions = Conditions(user=user)
    if user:
        user.own(room)
        user.own(file)
    file.chmod(0o400)
    said = f"hpb: 91 device: {file} could not be opened: Permission denied (os error 13): see that you may use it, and read its folder\n"
    for job in ("run", "serve"):
        is_refused(run_job(program, job, file, conditions), said)
    ran = program.check(file, conditions)
    assert (ran.lines()[0], ran.errors, ran.status) == (ONE_BID, "", 0)
    assert file.read_bytes() == kept


@pytest.mark.parametrize("lie", ["wrong", "silent", "well", "endless"])
def test_what_is_refused_otherwise_is_seen(liar: Liar, room: Path, lie: str) -> None:
    with pytest.raises(AssertionError):
        is_refused(run_job(liar(lie), "check", room))
