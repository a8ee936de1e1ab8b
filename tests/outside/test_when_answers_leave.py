"""Of many bids that are sent at once the answers leave batch by batch, so after a kill nearly as many had left as are kept."""

from __future__ import annotations

import random
import socket
import subprocess
import threading
import time
from pathlib import Path

import pytest

from harness.auctions import definition
from harness.programs import Program
from harness.serving import Client, Ended, Server
from harness.streams import opened
from outside.floods import MOST_BIDS, Flood, bids, new_file
from outside.jobs import EMPTY
from outside.lies import Liar

SEED = 5
# How often who asks beside a flood may be late.
FLOODS = 5
# How many answers of a connection may be lost that had left, of the last ones, when its server is killed.
LOST = 128
SECONDS = 20


def nearly_all_had_left(program: Program, file: Path, left: int, batch: int) -> None:
    """Two batches at most are kept whose answers hadn't left; none had left that isn't kept."""
    kept = program.count(file)
    assert kept - 2 * batch <= left <= kept


def leaves_at_once(program: Program, file: Path, batch: int) -> None:
    """The first is answered when it is kept, and not when all are."""
    with Flood(program, new_file(program, file), MOST_BIDS, batch) as flood:
        first = flood.next()
        flood.kill()
        left = first + sum(flood.rest())
    assert 0 < first <= 2 * batch
    nearly_all_had_left(program, file, left, batch)


@pytest.mark.parametrize("batch", [1, 8, 64])
def test_the_first_answers_leave_at_once(program: Program, room: Path, batch: int) -> None:
    leaves_at_once(program, room / "F", batch)


def part_of_first(program: Program, file: Path, count: int, batch: int) -> float:
    """The time of the first of so many answers, as a part of the whole. Each write has the answers of a batch, or two."""
    with Flood(program, new_file(program, file), count, batch) as flood:
        first = flood.next()
        at_first = time.monotonic() - flood.began
        counts = [first, *flood.rest()]
        part = at_first / (time.monotonic() - flood.began)
    batches = -(-count // batch)
    assert sum(counts) == count
    assert batches // 2 <= len(counts) <= batches + 3
    assert max(counts) <= 2 * batch
    return part


def test_the_first_answer_comes_in_the_first_third(program: Program, room: Path) -> None:
    """The start of a program takes some time too, which is much of a short run if a disk syncs at once: then a long one is tried."""
    short = min(part_of_first(program, room / "F", 384, 1) for _ in range(3))
    assert short <= 1 / 3 or min(part_of_first(program, room / "F", MOST_BIDS, 1) for _ in range(3)) <= 1 / 3


def test_a_write_has_the_answers_of_a_batch(program: Program, room: Path) -> None:
    for _ in range(3):
        part_of_first(program, room / "F", MOST_BIDS, 64)


def test_a_script_from_a_file_costs_few_writes(program: Program, room: Path) -> None:
    """For 10,000 lines fewer than 20. Each message of such a socket is one."""
    (room / "script").write_bytes(definition() + b"CLOSE 0\nSHOW\n" * 5_000)
    ours, theirs = socket.socketpair(socket.AF_UNIX, socket.SOCK_SEQPACKET)
    ours.settimeout(SECONDS)
    with ours, opened(room / "script") as text:
        with theirs:
            process = program.start(input=text, output=theirs.fileno(), errors=subprocess.DEVNULL)
        writes = list(iter(lambda: ours.recv(1 << 20), b""))
        assert process.wait(SECONDS) == 0
    assert b"".join(writes) == f"ERR 13 old\n{EMPTY}\n".encode() * 5_000
    assert len(writes) < 20


@pytest.mark.parametrize("number", range(9))
def test_a_kill_in_the_middle(program: Program, room: Path, number: int) -> None:
    dice, batch, file = random.Random(f"{SEED} {number}"), (1, 3, 64)[number % 3], new_file(program, room / "F")
    with Flood(program, file, MOST_BIDS, batch, dice.choice([0, 5])) as flood:
        time.sleep(dice.uniform(0.01, 0.4))
        flood.kill()
        left = sum(flood.rest())
    nearly_all_had_left(program, file, left, batch)


def lines_left(client: Client) -> int:
    """How many whole lines still come of a connection that was lost."""
    count = 0
    try:
        while client.line():
            count += 1
    except (OSError, Ended):
        return count
    raise AssertionError("an empty line")


def is_early(program: Program, file: Path, killed_late: bool) -> bool:
    """Whether another session was answered beside a flood, and a server that is killed at the first answer has kept few by then."""
    with Server(program, new_file(program, file), 2) as server:
        flood, other = server.connect(5), server.connect()
        sender = threading.Thread(target=send_what_is_taken, args=(flood,))
        sender.start()
        assert flood.line() == "OK 1"
        began = time.monotonic()
        shown = int(other.ask("SHOW").rsplit(" ", 1)[1])
        seconds = time.monotonic() - began
        if killed_late:
            time.sleep(0.3)
        server.kill()
        left = 1 + lines_left(flood)
        sender.join(SECONDS)
    kept = program.count(file)
    assert kept - LOST <= left <= kept
    return 0 < shown < MOST_BIDS and seconds < 2 and (killed_late or kept < MOST_BIDS // 4)


def send_what_is_taken(client: Client) -> None:
    """Sends all bids; the connection may be lost meanwhile."""
    try:
        client.send(bids(MOST_BIDS))
    except OSError:
        return


@pytest.mark.parametrize("killed_late", [False, True], ids=["at the first answer", "later"])
def test_a_session_that_floods(program: Program, room: Path, killed_late: bool) -> None:
    """It reads its first answer early, and another session is answered meanwhile: not each time, but once in a few."""
    assert any(is_early(program, room / "F", killed_late) for _ in range(FLOODS))


def test_answers_that_leave_at_the_end_are_seen(program: Program, liar: Liar, room: Path) -> None:
    """A stand-in that hands all answers on at the end."""
    late = liar("late")
    with pytest.raises((AssertionError, TimeoutError)):
        part_of_first(late, room / "F", 384, 1)
    with pytest.raises((AssertionError, TimeoutError)):
        leaves_at_once(late, room / "F", 64)
