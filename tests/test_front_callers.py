"""Callers of a front: half lines, connections that break, lines and connections that are too many, and floods; others go on."""

from __future__ import annotations

import contextlib
import os
import signal
import socket
import threading
import time
from collections.abc import Iterator
from pathlib import Path

import pytest
from fronts import ADDRESS, SECONDS, Caller, Front, break_off, rest_of, token_of
from harness.serving import Client, wait_until

EMPTY = "ROUND 1 STAGE 1 OPEN REVENUE 0 COUNT 0"
NODE_A = "NODE a HIGH 0 - PRICE 0 MIN 100 WIN no"
PAUSE = 0.3


def is_stopped(task: Path) -> bool:
    """Whether a thread stands still by a signal. It is named by its folder in /proc."""
    return (task / "stat").read_text().rsplit(")", 1)[1].split()[0] == "T"


@contextlib.contextmanager
def stopped_server(front: Front) -> Iterator[None]:
    """The server stands still meanwhile, and so each line waits for its answer."""
    server = front.child("serve")
    os.kill(server, signal.SIGSTOP)
    # The signal comes some time after the call: until then the server answers.
    wait_until(lambda: all(is_stopped(task) for task in Path(f"/proc/{server}/task").iterdir()), SECONDS, "the server goes on")
    try:
        yield
    finally:
        os.kill(server, signal.SIGCONT)


def test_half_a_line_is_never_carried_out_and_keeps_nobody_waiting(front: Front) -> None:
    """Whether its connection ends, breaks or is silent."""
    front.configure({"idle_seconds": 2, "token_seconds": 1}).start()
    half, other = front.client("ann"), front.client("ann")
    half.send(b"BID x 1 a 10")
    assert other.ask("SHOW") == EMPTY
    half.socket.shutdown(socket.SHUT_WR)
    assert rest_of(half) == ["ERR front line"]
    broken = front.client("ann")
    broken.send(b"BID x 1 a 10")
    break_off(broken)
    silent, nobody = front.client("bob"), front.client()
    silent.send(b"BID y 1 b 15")
    nobody.send(b"TOKEN ")
    assert front.ask("ann", "SHOW") == EMPTY
    assert (rest_of(silent), rest_of(nobody)) == (["ERR front idle"], ["ERR front idle"])
    assert front.ask("bob", "WHO y") == "WHO y ELIGIBILITY 10 ACTIVITY 0 TICKET 0"
    assert front.stop().output.startswith("STOPPED 0 RECORD ")


def test_a_command_whose_connection_breaks_is_accepted_once(front: Front) -> None:
    """Sent again it gets its number."""
    front.start()
    for number, node in enumerate("abc", 1):
        client = front.client("bob")
        client.send(f"BID z {number} {node} 200\n".encode())
        break_off(client)
        assert front.ask("bob", f"BID z {number} {node} 200") == f"OK {number}"
    several = [front.client("bob") for _ in range(5)]
    for client in several:
        client.send(b"SHOW\nWHO y\nNODE a\n")
    shown = ["ROUND 1 STAGE 1 OPEN REVENUE 0 COUNT 3", "WHO y ELIGIBILITY 10 ACTIVITY 0 TICKET 0", NODE_A]
    assert [[client.line() for _ in shown] for client in several] == [shown] * 5
    front.stop()
    assert front.accepted() == [(f"BID z {number} {node} 200", f"OK {number}") for number, node in enumerate("abc", 1)]


def test_a_line_that_is_too_long_ends_its_connection(front: Front) -> None:
    """What stands behind it isn't looked at."""
    front.configure({"line_bytes": 64}).start()
    client = front.client("ann")
    client.send(b"SHOW\n" + b"BID x 1 a 100".ljust(65, b" ") + b"\nBID x 1 a 100\n")
    assert rest_of(client) == [EMPTY, "ERR front long"]
    client = front.client("ann")
    # It may be ended while it is sent: its answer is there to be read all the same.
    with contextlib.suppress(OSError):
        client.send(b"a" * 1_000_000)
    assert client.line() == "ERR front long"
    assert front.ask("ann", "SHOW") == EMPTY


def test_of_too_many_connections_of_a_name_the_longest_silent_goes(front: Front) -> None:
    front.configure({"connections": 3}).start()
    many = [front.client("ann") for _ in range(3)]
    assert [client.ask("SHOW") for client in many] == [EMPTY] * 3
    assert many[0].ask("SHOW") == EMPTY
    one_more = front.client("ann")
    assert rest_of(many[1]) == ["ERR front many"]
    assert [client.ask("SHOW") for client in (many[0], many[2], one_more)] == [EMPTY] * 3


def test_of_too_many_strangers_the_first_goes(front: Front) -> None:
    front.configure({"unknown_connections": 4}).start()
    strangers = [front.client() for _ in range(5)]
    assert strangers[0].line() == "ERR front many"
    assert front.ask("bob", "SHOW") == EMPTY


def test_of_strangers_one_of_the_busiest_address_goes(front: Front) -> None:
    """And not the first of all, which is of another address."""
    front.configure({"unknown_connections": 3}).start()
    lone = socket.create_connection((ADDRESS, front.port), timeout=SECONDS, source_address=("127.0.0.2", 0))
    crowd = [front.client() for _ in range(3)]
    assert rest_of(crowd[0]) == ["ERR front many"]
    with lone, lone.makefile("rb") as lines:
        lone.sendall(f"TOKEN {token_of('ann')}\n".encode())
        assert lines.readline() == b"WELCOME ann\n"


def test_lines_of_one_connection_wait_for_those_of_others(front: Front) -> None:
    """Of 500 lines of one connection two at most come before the first of another, though they were sent before."""
    front.configure({"lines_waiting": 2}).start()
    one, other = front.client("carl"), front.client("carl")
    with stopped_server(front):
        one.send(b"SHOW\n" * 500)
        assert front.client("bob").welcome == "WELCOME bob"  # type: ignore[attr-defined]
        other.send(b"NODE a\n")
        assert front.client("bob").welcome == "WELCOME bob"  # type: ignore[attr-defined]
        # The front may read the line later than it welcomes another name.
        time.sleep(1)
    assert other.line() == NODE_A
    assert front.stop().status == 0
    assert [line["line"] for line in front.log_lines("answered") if line["name"] == "carl"].index("NODE a") <= 2


def test_no_connection_that_waits_for_an_answer_goes(front: Front) -> None:
    """If all of a name wait, one more is refused, and they are answered."""
    front.configure({"connections": 2}).start()
    waiting = [front.client("ann") for _ in range(2)]
    with stopped_server(front):
        for client, line in zip(waiting, (b"BID x 1 a 100\n", b"NODE a\n")):
            client.send(line)
        time.sleep(PAUSE)
        assert rest_of_new(front, "ann") == ["ERR front many"]
    assert [client.line() for client in waiting] == ["OK 1", NODE_A]
    assert front.ask("ann", "SHOW").endswith(" COUNT 1")


def rest_of_new(front: Front, name: str) -> list[str]:
    """All that a new connection of a name is answered."""
    client = front.client()
    client.send(f"TOKEN {token_of(name)}\n".encode())
    return rest_of(client)


def test_who_waits_for_an_answer_is_not_silent(front: Front) -> None:
    """However long that takes."""
    front.configure({"idle_seconds": 1}).start()
    client = front.client("ann")
    with stopped_server(front):
        client.send(b"SHOW\n")
        time.sleep(2.5)
    assert client.line() == EMPTY


# Floods.

# So many lines a name may send a second, and twice as many at once; so many strangers may wait.
SLOW, BURST_SECONDS, FEW = 5, 2, 16
# An answer comes so soon, beside whatever others do.
SOON = 20


class Flood(threading.Thread):
    """Sends something over and over again, on new connections if it loses one, until it is ended."""

    def __init__(self, front: Front, name: str | None, data: bytes, reads: bool = False, count: int = 1) -> None:
        super().__init__(daemon=True)
        self.front, self.who, self.data, self.reads, self.count = front, name, data, reads, count
        self.ends, self.sent = threading.Event(), 0

    def run(self) -> None:
        """As `Thread` calls it."""
        while not self.ends.is_set():
            clients: list[Client] = []
            with contextlib.suppress(OSError):
                clients += [self.front.client(self.who, seconds=0.2) for _ in range(self.count)]
                while not self.ends.is_set():
                    self.send(clients)
            for client in clients:
                client.close()

    def send(self, clients: list[Client]) -> None:
        for client in clients:
            client.send(self.data)
            self.sent += 1
            if self.reads:
                client.socket.recv(65_536)

    def end(self) -> None:
        """Returns once nothing more is sent."""
        self.ends.set()
        self.join(SECONDS)
        assert not self.is_alive()


@pytest.mark.timeout(240)
def test_floods_keep_nobody_from_being_answered(front: Front) -> None:
    """Floods of lines without reading, refused lines, a line without an end, connections, tokens and zeros, beside whoever is silent.
    Those who flood send no more lines than they may."""
    front.configure({"unknown_connections": FEW, "lines_per_second": SLOW}).start()
    began = time.monotonic()
    floods = [
        Flood(front, "ann", b"SHOW\n" * 1000, count=4),
        Flood(front, "ann", b"BID y 9 a 100\n" * 1000, reads=True),
        Flood(front, "carl", b"x" * 65536),
        Flood(front, None, b"", count=40),
        Flood(front, None, b"TOKEN token-that-nobody-has\n", reads=True),
        Flood(front, None, b"\0" * 65536),
    ]
    silent = [front.client() for _ in range(2 * FEW)] + [front.client("ann") for _ in range(4)]
    silent[-1].send(b"BID x 1 a 10")
    for flood in floods:
        flood.start()
    wait_until(lambda: all(flood.sent for flood in floods), SECONDS, "each floods")
    look_beside(front)
    for flood in floods:
        flood.end()
    assert "\nSTOPPED 4 RECORD " in front.stop().output
    most = SLOW * (BURST_SECONDS + time.monotonic() - began) + 1
    names = [line["name"] for line in [*front.log_lines("answered"), *front.entries("accepted")]]
    assert max(names.count("ann"), names.count("carl")) <= most


def look_beside(front: Front) -> None:
    """Others are answered, each line soon."""
    caller = Caller(front, "bob", seconds=SOON)
    for number, node in enumerate("abc", 1):
        assert caller.ask(f"BID z {number} {node} 200") == f"OK {number}"
    assert [caller.ask("SHOW") for _ in range(17)] == ["ROUND 1 STAGE 1 OPEN REVENUE 0 COUNT 3"] * 17
    assert Caller(front, "desk", seconds=SOON).ask("CLOSE 1") == "OK 4"
