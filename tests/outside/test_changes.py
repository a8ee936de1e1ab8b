"""A file is moved, removed, cut or overwritten while it is served: `serve` says so at a checkpoint and at the end, and sessions go on."""

from __future__ import annotations

import os
import re
import subprocess
from collections.abc import Callable, Iterator
from pathlib import Path

import pytest

from harness.conditions import NORMAL
from harness.notices import closes, peer, without_places
from harness.programs import Program
from harness.serving import Client, Serve, Server
from outside.jobs import EMPTY
from outside.lies import Liar

Change = Callable[[Path], None]

# So often a file is found unchanged, once all threads sleep, until nothing is written any more.
CALM = 3
TURNS, COUNT = 5, 15


def backup_of(file: Path) -> Path:
    return file.with_name("B")


def moved(file: Path) -> None:
    file.rename(f"{file}.moved")


def replaced(file: Path) -> None:
    copy = file.with_suffix(".copy")
    copy.write_bytes(file.read_bytes())
    copy.replace(file)


def removed(file: Path) -> None:
    """Of two names."""
    Path(f"{file}.kept").hardlink_to(file)
    file.unlink()


def replaced_of_two(file: Path) -> None:
    Path(f"{file}.kept").hardlink_to(file)
    replaced(file)


def longer(file: Path) -> None:
    os.truncate(file, file.stat().st_size + 1)


def alike(file: Path) -> None:
    """The new name is as long as the old one."""
    file.rename(file.with_name("G"))


def cut(file: Path) -> None:
    """The next write behind the end makes it as long as before, with zeros in place of its first bytes."""
    os.truncate(file, 0)


def overwrite(file: Path, data: bytes, at: int = 0) -> None:
    with file.open("r+b") as opened:
        opened.seek(at)
        opened.write(data)


def overwritten(file: Path) -> None:
    overwrite(file, b"x", 100)


def backed_up(file: Path) -> None:
    """Its head and its length stay what they were: the same auction, as it was before its first command."""
    overwrite(file, backup_of(file).read_bytes())


def touched(file: Path) -> None:
    os.utime(file)


SPOILED = "F was cut, made longer or overwritten while it was in use, and may lack commands that"
REPLACED = "hpb: F was removed or replaced while it was served,"
OTHER_NAME = f"{REPLACED} but its file has another name, which `find / -inum N` finds: commands that"
STAYS = "it, and are kept as long as that name stays. See that it gets its name again"
MOVED = "hpb: F was moved while it was served: commands that"
GIVE_BACK = "see that it gets its name again"
SEND_AGAIN = "go back to your newest backup, and send again, in their order, the commands since then"
OF_SPOILED = [
    f"hpb: {SPOILED} get OK: end all sessions, and go back to your newest backup",
    f"hpb: N device: {SPOILED} got OK. See it by `hpb check --file F`, {SEND_AGAIN}",
]
OF_UNNAMED = [
    f"{OTHER_NAME} get OK go on into {STAYS}",
    f"{OTHER_NAME} got OK are in {STAYS}",
]
OF_MOVED = [
    f"{MOVED} get OK go on into the file that was opened: {GIVE_BACK}",
    f"{MOVED} got OK are in the file that was opened, under its other name: {GIVE_BACK}",
]
LOST = "lost with it when this process ends. Copy it before, while no command comes: `cp /proc/N/fd/N saved.hpb`"
OF_GONE = [
    f"{REPLACED} and commands that get OK are {LOST}",
    f"{REPLACED} and commands that got OK are lost with it, unless it was copied: {SEND_AGAIN}",
]
SPOILING: list[Change] = [longer, cut, overwritten, backed_up]
# The messages about each change, at a checkpoint and at the end.
TOLD: dict[Change, list[str]] = {
    **dict.fromkeys((moved, alike), OF_MOVED),
    replaced: OF_GONE,
    **dict.fromkeys((removed, replaced_of_two), OF_UNNAMED),
    **dict.fromkeys(SPOILING, OF_SPOILED),
    touched: [],
}


def name_of(change: Change) -> str:
    return change.__name__


@pytest.fixture
def file(program: Program, room: Path) -> Path:
    """A new auction, and a backup of it."""
    assert program.format(room / "F").status == 0
    backup_of(room / "F").write_bytes((room / "F").read_bytes())
    return room / "F"


def tells_of(change: Change, server: Server, count: int) -> None:
    """A server whose sessions have ended told of it, and ends ill if the bytes are others."""
    ran = server.ended()
    lines = without_places(ran.errors, server.sessions).splitlines()
    assert [re.sub(r"\d+", "N", line) for line in lines] == TOLD[change]
    assert (ran.output, ran.status) == (f"CLOSED {count}\n", int(change in SPOILING))


def rescue(program: Program, server: Server, room: Path) -> None:
    """The command that is said for a file whose name is gone makes a copy that keeps all."""
    command = re.search("`(cp [^`]*)`", server.wait_until_said("saved.hpb`"))
    assert command is not None
    subprocess.run(command[1], shell=True, cwd=room, check=True, timeout=20)
    assert program.count(room / "saved.hpb") == COUNT


def commands_behind() -> Iterator[tuple[int, str]]:
    """By which session each command comes. Each is a batch: the journal has four pages, so most wait for a checkpoint that begins later."""
    for turn in range(1, TURNS + 1):
        if turn > 1:
            yield 0, f"BID x {turn} d {turn * 100}"
        yield 1, f"BID y {turn} d {turn * 100}"
        yield 0, f"CLOSE {turn}"


def goes_on(program: Program, file: Path, change: Change) -> None:
    """The sessions go on behind a change, and `serve` says what happened."""
    with Server(program, Path("F"), 2, conditions=NORMAL.within(file.parent)) as server:
        sessions = [server.connect(), server.connect()]
        assert sessions[0].ask("BID x 1 d 100") == "OK 1"
        change(file)
        answers = [sessions[who].ask(line) for who, line in commands_behind()]
        assert answers == [f"OK {number}" for number in range(2, COUNT + 1)]
        if change is replaced:
            rescue(program, server, file.parent)
        assert [session.finish() for session in sessions] == [[], []]
        tells_of(change, server, COUNT)


@pytest.mark.parametrize("change", list(TOLD), ids=name_of)
def test_a_file_that_changes(program: Program, file: Path, change: Change) -> None:
    goes_on(program, file, change)


def settle(server: Server, file: Path) -> None:
    """Returns once nothing was written into a file for a while, and all threads sleep."""
    before, calm = b"", 0
    while calm < CALM:
        server.sleeps()
        now = file.read_bytes()
        calm, before = calm + 1 if now == before else 0, now


@pytest.mark.parametrize("change", SPOILING, ids=name_of)
def test_bytes_that_change_behind_the_last_checkpoint(file: Path, serve: Serve, change: Change) -> None:
    """The end says so."""
    server = serve(Path("F"), conditions=NORMAL.within(file.parent))
    session = server.connect()
    assert session.ask("BID x 1 d 100") == "OK 1"
    settle(server, file)
    change(file)
    assert session.finish() == []
    tells_of(change, server, 1)


@pytest.mark.parametrize("by_link", [False, True], ids=["itself", "a link"])
def test_what_the_engine_writes_is_no_change(file: Path, serve: Serve, by_link: bool) -> None:
    """Whatever the commands are, and whichever name leads to the file."""
    if by_link:
        file.with_name("L").symlink_to(file)
    server = serve(file.with_name("L") if by_link else file)
    session = server.connect()
    lines = [line for turn in range(1, 31) for line in (f"BID x {turn} d {100 << turn}", f"BID y {turn} d {100 << turn}", f"CLOSE {turn}")]
    assert [session.ask(line) for line in lines] == [f"OK {number}" for number in range(1, 91)]
    assert session.finish() == []
    closes(server, 90)


def ends_well(client: Client) -> None:
    assert client.finish() == []


def test_who_has_which_place_is_told_as_he_comes_and_goes(file: Path, serve: Serve) -> None:
    """And why his session ends: he ended it, or broke it off."""
    server, told = serve(file, 3), ""
    reset = "92 stream: reading: Connection reset by peer (os error 104)"
    ways: list[tuple[Callable[[Client], None], str]] = [(ends_well, "its connection ended"), (Client.reset, reset)]
    for number, (leave, cause) in enumerate([*ways, ways[0]], 1):
        client = server.connect()
        assert client.ask("SHOW") == EMPTY
        place, holder = f"place {number} of 3", peer(client)
        told += f"hpb: {number} of 3 places taken\nhpb: {place} is held by {holder}\n"
        assert server.wait_until_said(told) == told
        leave(client)
        told += f"hpb: {place} ({holder}) has ended: {cause}\n"
        assert server.wait_until_said(told) == told
    assert server.ended().told() == ("CLOSED 0\n", told, 0)


@pytest.mark.parametrize("lie", ["silent", "well"])
def test_a_change_that_is_not_told_is_seen(liar: Liar, file: Path, lie: str) -> None:
    with pytest.raises(AssertionError):
        goes_on(liar(lie), file, cut)
