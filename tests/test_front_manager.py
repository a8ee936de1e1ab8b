"""What a front tells its service manager, and what it is handed by it: a socket by NOTIFY_SOCKET, a watchdog, and secrets in a folder."""

from __future__ import annotations

import os
import signal
import socket
from collections.abc import Iterator
from pathlib import Path

import pytest
from fronts import ADDRESS, SECONDS, Front, make_certificate, token_of
from harness.conditions import Conditions
from harness.fronts import descendants_of

MICROSECONDS = 1_000_000


class Manager:
    """A manager's end of the socket."""

    def __init__(self, address: str) -> None:
        self.address = address
        self.socket = socket.socket(socket.AF_UNIX, socket.SOCK_DGRAM)
        self.socket.bind(f"\0{address[1:]}" if address.startswith("@") else address)
        self.socket.settimeout(SECONDS)

    def conditions(self, **environment: str) -> Conditions:
        return Conditions(environment={"NOTIFY_SOCKET": self.address, **environment})

    def next(self) -> str:
        """The next word that isn't one of the watchdog."""
        while (word := self.socket.recv(100).decode()) == "WATCHDOG=1":
            pass
        return word


@pytest.fixture
def manager(room: Path) -> Iterator[Manager]:
    made = Manager(str(room / "notify"))
    yield made
    made.socket.close()


def test_a_front_says_that_it_is_ready_once_it_listens_and_that_it_ends(front: Front, manager: Manager) -> None:
    front.begin(conditions=manager.conditions())
    assert manager.next() == "READY=1"
    # It has listened by then: a caller is answered.
    front.listens()
    with socket.create_connection((ADDRESS, front.port), SECONDS) as caller:
        caller.sendall(f"TOKEN {token_of('ann')}\n".encode())
        assert caller.recv(100) == b"WELCOME ann\n"
    front.signal(signal.SIGTERM)
    assert manager.next() == "STOPPING=1"
    assert front.ended().status == 0


def test_a_front_says_when_it_reads_again_and_when_it_has(front: Front, manager: Manager) -> None:
    front.start(conditions=manager.conditions())
    assert manager.next() == "READY=1"
    front.signal(signal.SIGHUP)
    assert manager.next() == "RELOADING=1"
    assert manager.next() == "READY=1"
    # A configuration that is refused leaves the old one in force, so the front is ready, too.
    front.config.write_text("nonsense")
    front.signal(signal.SIGHUP)
    assert manager.next() == "RELOADING=1"
    assert manager.next() == "READY=1"


def test_a_manager_with_a_name_of_the_kernels_is_told(front: Front, room: Path) -> None:
    manager = Manager(f"@{room.name}")
    front.begin(conditions=manager.conditions())
    assert manager.next() == "READY=1"


def test_a_watched_front_says_that_it_is_alive_twice_as_often_as_it_has_to(front: Front, manager: Manager) -> None:
    front.start(conditions=manager.conditions(WATCHDOG_USEC=str(2 * MICROSECONDS)))
    words = [manager.socket.recv(100) for _ in range(5)]
    assert words.count(b"WATCHDOG=1") >= 4
    # A front that stands still says nothing: by that the manager knows it.
    front.signal(signal.SIGSTOP)
    manager.socket.settimeout(3)
    with pytest.raises(TimeoutError):
        while True:
            manager.socket.recv(100)
    front.signal(signal.SIGCONT)
    assert manager.socket.recv(100) == b"WATCHDOG=1"


@pytest.mark.parametrize("environment", [{}, {"WATCHDOG_USEC": "1000000", "WATCHDOG_PID": "1"}, {"WATCHDOG_USEC": "-5"}])
def test_a_front_that_isnt_watched_says_nothing_of_that(front: Front, manager: Manager, environment: dict[str, str]) -> None:
    front.start(conditions=manager.conditions(**environment))
    assert manager.socket.recv(100) == b"READY=1"
    manager.socket.settimeout(2)
    with pytest.raises(TimeoutError):
        manager.socket.recv(100)


def test_a_manager_that_cant_be_told_is_reported_and_the_front_goes_on(front: Front, room: Path) -> None:
    front.start(conditions=Conditions(environment={"NOTIFY_SOCKET": str(room / "nobody")}))
    front.wait_until_said("front: the front can't tell the service manager that it is ready: No such file or directory\n")
    assert front.stop().status == 0


def test_the_fronts_children_know_no_manager(front: Front, manager: Manager) -> None:
    front.has_board = True
    front.write_config()
    front.start(conditions=manager.conditions(WATCHDOG_USEC=str(60 * MICROSECONDS)))
    assert front.process
    children = descendants_of(front.process.pid)
    assert len(children) >= 2
    for child in children:
        variables = Path(f"/proc/{child}/environ").read_bytes()
        assert b"NOTIFY_SOCKET" not in variables and b"WATCHDOG" not in variables


def test_key_and_tokens_may_be_handed_in(front: Front, room: Path) -> None:
    secrets = room / "credentials"
    secrets.mkdir(mode=0o700)
    context = make_certificate(front.folder)
    os.rename(front.folder / "K", secrets / "key")
    os.rename(front.tokens, secrets / "words")
    front.configure(certificate="S", key="$CREDENTIALS_DIRECTORY/key", tokens="$CREDENTIALS_DIRECTORY/words")
    front.start(conditions=Conditions(environment={"CREDENTIALS_DIRECTORY": str(secrets)}))
    with socket.create_connection((ADDRESS, front.port), SECONDS) as plain:
        with context.wrap_socket(plain, server_hostname="localhost") as caller:
            caller.sendall(f"TOKEN {token_of('ann')}\n".encode())
            assert caller.recv(100) == b"WELCOME ann\n"


def test_without_a_manager_nothing_can_be_handed_in(front: Front) -> None:
    ran = front.configure(tokens="$CREDENTIALS_DIRECTORY/words").run()
    assert ran.status == 2
    assert ran.errors == "front: tokens: $CREDENTIALS_DIRECTORY/words is handed in by a service manager alone: here CREDENTIALS_DIRECTORY isn't set\n"
