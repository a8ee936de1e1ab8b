"""Clients of this machine alone can connect to `serve`. No signal, refused memory or full buffer changes an answer.

Each check has to fail if a program does otherwise: its calls are then made to fail by tests/fail_calls.c.
"""

from __future__ import annotations

import array
import errno
import fcntl
import ipaddress
import itertools
import re
import socket
import subprocess
import termios
import threading
import time
from collections.abc import Iterable
from concurrent.futures import ThreadPoolExecutor
from contextlib import closing, suppress
from pathlib import Path

import pytest

from failing.trials import FIRST, Trial
from harness.failing_calls import EVER, SOURCE, Call, FailingCalls, Rule, Way
from harness.fixtures import Library
from harness.notices import closes
from harness.programs import TookTooLong, shown
from harness.serving import ADDRESS, Client, Server, free_port

LOOPBACK = "127.0.0.2"
# How the system says that nobody is there, or nobody any more.
NOT_HAD = (errno.ECONNREFUSED, errno.ECONNRESET, errno.EADDRNOTAVAIL, errno.ENETUNREACH, errno.EHOSTUNREACH)
# Within how many seconds a connection is refused.
SECONDS = 5
# What who reads late has room for, and how long sending and reading may then take.
FEW_BYTES, LATE_SECONDS = 65_536, 100
# Each call is made at the third time.
TURNS = 3
# How often a session looks at its connection before each sleep, and of how many sessions each looks.
LOOKS, MOST_LOOKING = 100, 8
SERVED = Call.ACCEPT | Call.RECEIVE | Call.SEND
TOLD = {"ERR 90 memory\n", "ERR 94 place\n"}
LOOK = 0.05
# How many programs are run side by side, of which each has memory refused.
JOBS = 2


def addresses() -> list[str]:
    """All of this machine but the one that is served, and those of a link, which need its name."""
    of_version_4 = re.findall(r"\|-- (\S+)\n\s+/32 host LOCAL", Path("/proc/net/fib_trie").read_text())
    table = Path("/proc/net/if_inet6")
    digits = [line.split()[0] for line in table.read_text().splitlines()] if table.exists() else []
    found = {ipaddress.ip_address(text) for text in (LOOPBACK, *of_version_4)} | {ipaddress.IPv6Address(int(text, 16)) for text in digits}
    return sorted(str(address) for address in found if str(address) != ADDRESS and not address.is_link_local)


def is_served(address: str, port: int) -> bool:
    """Whether one that connects to it is answered."""
    try:
        with Client(port, SECONDS, address) as client:
            return client.ask("SHOW") != ""
    except OSError as fault:
        if fault.errno in NOT_HAD:
            return False
        raise


def listening(port: int) -> set[str]:
    """By which addresses this port can be connected to, by what the system tells."""
    tables = [table for name in ("tcp", "tcp6") if (table := Path("/proc/net", name)).exists()]
    rows = [line.split() for table in tables for line in table.read_text().splitlines()[1:]]
    local = [row[1].split(":") for row in rows if row[3] == "0A"]
    return {address_of(bytes.fromhex(text)) for text, number in local if int(number, 16) == port}


def address_of(data: bytes) -> str:
    """The address that words of four bytes are, each the other way round."""
    return str(ipaddress.ip_address(b"".join(data[at : at + 4][::-1] for at in range(0, len(data), 4))))


def serves_from_here_alone(trial: Trial) -> None:
    """No other address of this machine is served, and whoever tries one takes nobody's place."""
    port = trial.start(1).server.port
    assert [address for address in addresses() if is_served(address, port)] == []
    assert listening(port) == {ADDRESS}
    trial.bid(range(1), 3).holds()


def test_no_other_address_is_served(paged: Trial) -> None:
    serves_from_here_alone(paged)


def test_a_port_of_all_addresses_is_seen(paged: Trial) -> None:
    paged.begin(is_harmless=True).refuse(Rule(Call.PORT, Way.LEFT_OUT, last=EVER))
    with pytest.raises(AssertionError):
        serves_from_here_alone(paged)


def goes_on_interrupted(trial: Trial, sessions: int, second: int = errno.EINTR) -> None:
    """The first of three calls is interrupted, and then the second one is, too: sessions get the same answers."""
    first = Rule(SERVED, Way.NOTHING, 1, EVER, step=TURNS, error=errno.EINTR)
    trial.begin(is_harmless=True).refuse(first, Rule(SERVED, Way.NOTHING, 2, EVER, step=TURNS, error=second))
    trial.start(sessions).bid(range(sessions), 5).holds()
    assert trial.faults.met(1) > 5


@pytest.mark.parametrize("sessions", [1, 3])
def test_calls_that_are_interrupted_are_made_again(trial: Trial, sessions: int) -> None:
    goes_on_interrupted(trial, sessions)


def test_a_session_that_the_second_interruption_ends_is_seen(paged: Trial) -> None:
    with pytest.raises(AssertionError, match="answers"):
        goes_on_interrupted(paged, 1, errno.ECONNRESET)


def sends_at_once(trial: Trial, way: Way, first: int = 1) -> None:
    """Of each session the system is asked to send answers at once; one that is refused this is served all the same."""
    trial.begin(is_harmless=True).refuse(Rule(Call.PROMPT, way, first, EVER))
    trial.start(3).bid(range(3), 5).holds()
    assert trial.faults.met() == 3


@pytest.mark.parametrize("way", [Way.MADE, Way.NOTHING], ids=["granted", "refused"])
def test_answers_leave_at_once(trial: Trial, way: Way) -> None:
    sends_at_once(trial, way)


def test_answers_that_are_held_back_are_seen(paged: Trial) -> None:
    with pytest.raises(AssertionError):
        sends_at_once(paged, Way.MADE, 2)


def looks(trial: Trial, sessions: int, wanted: int = LOOKS) -> None:
    """Each of up to eight sessions looks so often at its connection before each sleep; of more none looks."""
    server = trial.serve(sessions).server
    trial.faults.set(Rule(Call.RECEIVE, Way.MADE, last=EVER))
    clients = trial.connect(sessions)
    for _ in range(2):
        server.sleeps()
        assert all(client.ask("SHOW") for client in clients)
    server.sleeps()
    assert trial.faults.begun() == 3 * sessions * ((wanted if sessions <= MOST_LOOKING else 0) + 1)


@pytest.mark.parametrize("sessions", [1, 4, 8, 9])
def test_a_session_looks_so_often_before_it_sleeps(paged: Trial, sessions: int) -> None:
    looks(paged, sessions)


def test_fewer_looks_are_seen(paged: Trial) -> None:
    with pytest.raises(AssertionError):
        looks(paged, 1, LOOKS + 1)


def most_kept() -> int:
    """How many bytes the system keeps of a connection's answers at most."""
    return int(Path("/proc/sys/net/ipv4/tcp_wmem").read_text().split()[2])


def unread(client: Client) -> int:
    """How many bytes have come that nobody has read."""
    count = array.array("i", [0])
    fcntl.ioctl(client.socket, termios.FIONREAD, count)
    return count[0]


def wait_for_room(server: Server, client: Client) -> None:
    """Returns once no more answers come, and the server sleeps."""
    before, now = -1, 0
    while before != now:
        server.sleeps(3)
        time.sleep(LOOK)
        before, now = now, unread(client)


def keeps_answers(trial: Trial, way: Way = Way.MADE) -> None:
    """A session sends more questions than its connection has room for answers, and reads none for a while: then it has all of them. From
    then on sends for which there is no room become this."""
    told = f"ROUND 1 STAGE 1 OPEN REVENUE 0 COUNT {len(FIRST)}"
    many = (most_kept() + 4 * FEW_BYTES) * 5 // 4 // len(told)
    server = trial.serve(1).server
    with server.connect(LATE_SECONDS) as client:
        client.socket.setsockopt(socket.SOL_SOCKET, socket.SO_RCVBUF, FEW_BYTES)
        sender = threading.Thread(target=send_last, args=(client, b"SHOW\n" * many + b"BID b0 1 l0 100\n"))
        sender.start()
        wait_for_room(server, client)
        trial.faults.set(Rule(Call.SEND, way, last=EVER, error=errno.EAGAIN))
        lines = read_all(client).splitlines()
        sender.join()
        assert (lines.count(told), lines[many:]) == (many, [f"OK {len(FIRST) + 1}"])
        closes(server, len(FIRST) + 1)


def send_last(client: Client, text: bytes) -> None:
    """Sends this and then no more; less of it if the server ends before."""
    with suppress(OSError):
        client.send(text)
        client.socket.shutdown(socket.SHUT_WR)


def read_all(client: Client) -> str:
    """What still comes, up to the end or a fault."""
    parts: list[bytes] = []
    with suppress(OSError):
        parts.extend(iter(lambda: client.socket.recv(1 << 20), b""))
    return shown(b"".join(parts))


def test_answers_that_are_read_late_are_all_there(paged: Trial) -> None:
    keeps_answers(paged)


def test_a_session_that_ends_for_want_of_room_is_seen(paged: Trial) -> None:
    with pytest.raises(AssertionError):
        keeps_answers(paged, Way.NOTHING)


def begun(trial: Trial) -> tuple[str, int]:
    """All that a server writes that is refused, and its status; or the line by which it listens."""
    words = ("serve", "--file", trial.file, "--port", free_port(), "--sessions", 2)
    process = trial.program.start(*words, errors=subprocess.DEVNULL, conditions=trial.faults.conditions())
    # It ends, or it listens: one that does neither is killed.
    bound = threading.Timer(4 * SECONDS, process.kill)
    bound.start()
    try:
        assert process.stdout is not None
        line = process.stdout.readline()
        if line.startswith(b"LISTENING"):
            process.kill()
        written, _ = process.communicate()
    finally:
        bound.cancel()
        process.kill()
    return shown(line + written), process.returncode


def refused_in_turn(trial: Trial, way: Way, numbers: Iterable[int]) -> set[str]:
    """The lines of runs in each of which one of these requests for memory is refused, up to one that has no such request."""
    told: set[str] = set()
    for number in numbers:
        trial.faults.forget()
        trial.faults.set(Rule(Call.REQUEST, way, number, error=errno.ENOMEM))
        line, status = begun(trial)
        if way is Way.MADE or trial.faults.met() == 0:
            return told
        if not line.startswith("LISTENING"):
            assert status == 1
            told.add(line)
    raise TookTooLong("it never listens")


def tells_refused_memory(trial: Trial, library: Library, room: Path, way: Way = Way.NOTHING) -> None:
    """Until it listens, each request for memory is refused in turn: one whole line says so, or that a session has no place."""

    def some(first: int) -> set[str]:
        folder = room / str(first)
        folder.mkdir()
        with closing(FailingCalls(library(SOURCE), folder)) as faults:
            own = Trial(trial.program, trial.layout, folder, faults, trial.recorder)
            return refused_in_turn(own, way, itertools.count(first, JOBS))

    with ThreadPoolExecutor(JOBS) as pool:
        assert set().union(*pool.map(some, range(1, JOBS + 1))) == TOLD


def test_memory_that_is_refused_is_told(paged: Trial, library: Library, room: Path) -> None:
    tells_refused_memory(paged, library, room)


def test_memory_that_is_not_refused_is_seen(paged: Trial, library: Library, room: Path) -> None:
    with pytest.raises(AssertionError):
        tells_refused_memory(paged, library, room, Way.MADE)
