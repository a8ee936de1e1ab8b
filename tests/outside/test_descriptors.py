"""Few descriptors, and little memory: what a program says of them, and that those which it serves are served."""

from __future__ import annotations

import re
import resource
import socket
import time
from pathlib import Path

import pytest

from harness.auctions import definition
from harness.conditions import NORMAL, Conditions
from harness.notices import closes, without_places
from harness.programs import Program, Ran, format_words
from harness.serving import ADDRESS, Client, Ended, Serve, Server, free_port
from outside.jobs import EMPTY, ONE_BID
from outside.lies import Liar

MOST_SESSIONS = 32
WORDS = "Too many open files"
# The least time between two connections that could not be taken, in seconds.
PAUSE = 0.01
# Descriptors that a server has again, and connections that come while it lacks them.
ENOUGH, COMING = 64, 24
# Pages from which on a program may be loaded, and by which each job has to work at last.
LEAST_PAGES, MOST_PAGES = 256, 4096
KIB_OF_PAGE = 4
# How often a job has to work, and how often at least memory has to be refused before.
WORKS, REFUSED = 8, 7
# Notices of places, and of notices that found no memory.
BESIDE = re.compile(r"hpb: (\d+ of \d+ places taken|place \d+ of \d+ .+|\d+ notices? (was|were) not written: .+)")


@pytest.fixture
def file(program: Program, room: Path) -> Path:
    """A new auction of the first example."""
    assert program.format(room / "F").status == 0
    return room / "F"


def descriptors(count: int) -> Conditions:
    """So many may be open at once; the hard limit stays."""
    most = resource.getrlimit(resource.RLIMIT_NOFILE)[1]
    return Conditions(last=lambda: resource.setrlimit(resource.RLIMIT_NOFILE, (count, most)))


def wanted_for_all(program: Program, file: Path, limit: int) -> int:
    """How many all sessions need, by the message about too few."""
    words = ("serve", "--file", file, "--port", free_port(), "--sessions", MOST_SESSIONS)
    ran = program.run(*words, conditions=descriptors(limit))
    assert (ran.output, ran.status) == ("ERR 92 stream\n", 1)
    assert re.fullmatch(r"hpb: 92 stream: ([^\n]+)\n", ran.errors), ran
    numbers = [int(number.replace(",", "")) for number in re.findall(r"\d[\d,]*", ran.errors.replace(str(file), ""))]
    wanted = [number for number in numbers if MOST_SESSIONS + 3 < number < 2 * MOST_SESSIONS]
    assert wanted, ran
    return max(wanted)


def test_too_few_descriptors_are_told_before_any_session(program: Program, file: Path) -> None:
    """And how many are wanted: with one less none is served, with as many all are."""
    (wanted,) = {wanted_for_all(program, file, limit) for limit in (8, 16, MOST_SESSIONS)}
    assert wanted_for_all(program, file, wanted - 1) == wanted
    with Server(program, file, MOST_SESSIONS, conditions=descriptors(wanted)) as server:
        sessions = [server.connect() for _ in range(MOST_SESSIONS)]
        assert [session.ask("SHOW") for session in sessions] == [EMPTY] * MOST_SESSIONS
        assert [session.finish() for session in sessions] == [[]] * MOST_SESSIONS
        closes(server, 0)


def limit(server: Server, count: int) -> None:
    """So many descriptors may be open from now on, but for the one of the connection that it waits for."""
    most = resource.prlimit(server.process.pid, resource.RLIMIT_NOFILE)[1]
    resource.prlimit(server.process.pid, resource.RLIMIT_NOFILE, (count, most))


def wait_until_closed(port: int) -> float:
    """Connects until nobody is connected any more, and gives how long that took. AssertionError after five seconds."""
    began = time.monotonic()
    while time.monotonic() < began + 5:
        try:
            socket.create_connection((ADDRESS, port), timeout=1).close()
        except OSError:
            return time.monotonic() - began
        time.sleep(0.005)
    raise AssertionError("it still listens")


def test_connections_that_cant_be_taken(file: Path, serve: Serve) -> None:
    """Each counts as a session, has a notice, and comes behind a pause."""
    server = serve(file, COMING)
    first = server.connect()
    assert first.ask("BID x 1 a 100") == "OK 1"
    server.sleeps()
    limit(server, 3)
    second = server.connect()
    assert second.ask("SHOW") == ONE_BID
    began = time.monotonic()
    server.wait_until_said(WORDS, 3)
    wait_until_closed(server.port)
    assert time.monotonic() - began >= (COMING - 4) * PAUSE
    assert [first.ask("SHOW"), second.ask("SHOW")] == [ONE_BID, ONE_BID]
    assert first.finish() == second.finish() == []
    ran = server.ended()
    assert (ran.output, ran.status in (0, 1)) == ("CLOSED 1\n", True)
    lines = without_places(ran.errors, COMING).splitlines()
    assert [line for line in lines if WORDS not in line or not line.startswith("hpb: ")] == []
    assert 0 < len(lines) <= COMING


def test_those_that_connect_are_served_once_there_are_descriptors_again(file: Path, serve: Serve) -> None:
    server = serve(file, MOST_SESSIONS)
    first = server.connect()
    assert first.ask("SHOW") == EMPTY
    server.sleeps()
    limit(server, 3)
    second = server.connect()
    assert second.ask("SHOW") == EMPTY
    time.sleep(0.05)
    limit(server, ENOUGH)
    with Client(server.port, 3) as third:
        assert third.ask("BID x 1 a 100") == "OK 1"


def run_with(program: Program, job: str, file: Path, pages: int) -> Ran:
    """A job with so little memory."""
    file.with_name("new").unlink(missing_ok=True)
    words = format_words(file.with_name("new")) if job == "format" else [job, "--file", file]
    return program.run(*words, text=definition() if job == "format" else b"", conditions=NORMAL.with_memory(KIB_OF_PAGE * pages))


def is_done(program: Program, job: str, file: Path, pages: int) -> bool:
    """Whether a job with so little memory is done. Else it is answered by 90, and says so."""
    ran = run_with(program, job, file, pages)
    if ran.status == 0:
        return True
    assert ran.status == 1, ran
    assert ran.errors.startswith("hpb: 90 memory: memory was refused"), ran
    assert ran.output == "ERR 90 memory\n" or (job == "run" and "kept" in ran.errors), ran
    return False


@pytest.mark.parametrize("job", ["check", "run", "format"])
def test_little_memory(program: Program, file: Path, job: str) -> None:
    """Page by page, from the least by which the program is loaded to enough of it."""
    low, high = LEAST_PAGES, MOST_PAGES
    while low < high:
        middle = (low + high) // 2
        is_loaded = run_with(program, job, file, middle).status in (0, 1)
        low, high = (low, middle) if is_loaded else (middle + 1, high)
    done: list[bool] = []
    while sum(done) < WORKS:
        assert low + len(done) < MOST_PAGES
        done.append(is_done(program, job, file, low + len(done)))
    assert len(done) - WORKS > REFUSED


def answer(session: Client) -> str:
    """What it is answered; nothing if its connection has ended."""
    try:
        return session.ask("SHOW")
    except Ended:
        return ""


@pytest.mark.parametrize("count", [1, 4, MOST_SESSIONS])
def test_no_memory_is_left_while_it_serves(file: Path, serve: Serve, count: int) -> None:
    """Once it waits for its sessions the system refuses all memory: each is served or ends, and no signal ends the program."""
    server = serve(file, count)
    server.sleeps()
    held = re.search(r"VmSize:\s+(\d+) kB", Path(f"/proc/{server.process.pid}/status").read_text())
    assert held is not None
    resource.prlimit(server.process.pid, resource.RLIMIT_AS, (int(held[1]) * 1024, resource.RLIM_INFINITY))
    sessions = [server.connect() for _ in range(count)]
    assert {answer(session) for session in sessions} <= {EMPTY, ""}
    for session in sessions:
        session.close()
    ran = server.ended()
    assert (ran.output, ran.status) == ("CLOSED 0\n", 0)
    assert [line for line in ran.errors.splitlines() if not BESIDE.fullmatch(line)] == []


@pytest.mark.parametrize("lie", ["wrong", "silent", "well"])
def test_too_few_that_are_not_told_are_seen(liar: Liar, file: Path, lie: str) -> None:
    with pytest.raises(AssertionError):
        wanted_for_all(liar(lie), file, MOST_SESSIONS)
