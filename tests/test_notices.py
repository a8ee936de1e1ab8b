"""Standard error of `serve` that nobody reads: sessions, checkpoints and the end don't wait for it."""

from __future__ import annotations

import errno
import os
import pty
import select
import termios
from collections.abc import Callable, Iterator
from contextlib import ExitStack
from dataclasses import dataclass
from pathlib import Path

import pytest

from faults import Faults
from harness.auctions import commands
from harness.programs import Program, shown
from harness.serving import Client, Serve, Server, read_line

Library = Callable[[Path], Path]
# Within how many seconds a session is answered, and a program ends, whatever standard error does.
BOUND = 10
SESSIONS = 3
# More batches than a journal has room for, in each layout.
BATCHES = 60


@dataclass
class Errors:
    """Standard error of a server. The tests hold its other end: a pipe that can be full, or a terminal that can be stopped."""

    own: int
    given: int
    # How many bytes the pipe was filled with.
    filled: int = 0
    is_terminal: bool = False

    @classmethod
    def pipe(cls) -> Errors:
        return cls(*os.pipe())

    @classmethod
    def terminal(cls) -> Errors:
        return cls(*pty.openpty(), is_terminal=True)

    def stop(self) -> None:
        """From now on it takes nothing: Ctrl-S at a terminal, or no more room in a pipe."""
        if self.is_terminal:
            termios.tcflow(self.given, termios.TCOOFF)
            return
        os.set_blocking(self.given, False)
        for part in (b"x" * 4096, b"x"):
            try:
                while True:
                    self.filled += os.write(self.given, part)
            except BlockingIOError:
                continue
        os.set_blocking(self.given, True)

    def go_on(self) -> None:
        """Ctrl-Q at a terminal; or the bytes that fill the pipe are read."""
        if self.is_terminal:
            termios.tcflow(self.given, termios.TCOON)
        while self.filled:
            self.filled -= len(os.read(self.own, min(self.filled, 1 << 16)))

    def said(self, seconds: float = 0.5) -> str:
        """Everything that comes until nothing has come for so long."""
        data = b""
        while select.select([self.own], [], [], seconds)[0]:
            try:
                part = os.read(self.own, 1 << 16)
            except OSError:
                break
            if not part:
                break
            data += part
        return shown(data).replace("\r\n", "\n")

    def close(self) -> None:
        os.close(self.own)
        os.close(self.given)


@pytest.fixture(params=["pipe", "terminal"])
def errors(request: pytest.FixtureRequest) -> Iterator[Errors]:
    """Each kind. It takes whatever is written until it is stopped."""
    made = Errors.pipe() if request.param == "pipe" else Errors.terminal()
    yield made
    made.close()


def connected(stack: ExitStack, server: Server, count: int = SESSIONS) -> list[Client]:
    """So many sessions, each of which has to be answered in time."""
    clients = [stack.enter_context(server.connect(BOUND)) for _ in range(count)]
    for client in clients:
        assert client.ask("SHOW").startswith("ROUND 1 ")
    return clients


def ends(server: Server, clients: list[Client], commands_kept: int, status: int = 0) -> None:
    """Ends the sessions, and checks that the server then ends in time."""
    for client in clients:
        assert client.finish() == []
    ran = server.ended(BOUND)
    assert (ran.output, ran.status) == (f"CLOSED {commands_kept}\n", status)


def test_sessions_begin_and_end_though_nobody_reads(file: Path, serve: Serve, errors: Errors) -> None:
    """The notice about a place comes before its session."""
    errors.stop()
    server = serve(file, SESSIONS, errors=errors.given)
    with ExitStack() as stack:
        clients = connected(stack, server)
        assert [clients[0].ask(line) for line in commands(5)] == [f"OK {number}" for number in range(1, 6)]
        ends(server, clients, 5)


def test_checkpoints_go_on_though_nobody_reads(program: Program, file: Path, serve: Serve, errors: Errors) -> None:
    """The file was moved, which the checkpointer reports."""
    server = serve(file, SESSIONS, errors=errors.given)
    with ExitStack() as stack:
        clients = connected(stack, server)
        errors.stop()
        moved = file.rename(file.with_name("moved"))
        answers = [clients[place % SESSIONS].ask(line) for place, line in enumerate(commands(BATCHES))]
        assert answers == [f"OK {number}" for number in range(1, BATCHES + 1)]
        ends(server, clients, BATCHES)
    assert program.count(moved) == BATCHES


def test_a_server_ends_once_somebody_reads_why(file: Path, serve: Serve, errors: Errors) -> None:
    """The file was cut, so the server ends with 1. All sessions have ended by then, whether anyone reads or not."""
    server = serve(file, SESSIONS, errors=errors.given)
    with ExitStack() as stack:
        clients = connected(stack, server)
        errors.stop()
        os.truncate(file, file.stat().st_size - 1)
        for client in clients:
            assert client.finish() == []
        assert read_line(server.process, BOUND) == "CLOSED 0"
        errors.go_on()
        assert "was cut" in errors.said()
        assert server.ended(BOUND).status == 1


def test_what_waits_is_told_once_somebody_reads(file: Path, serve: Serve, errors: Errors) -> None:
    """All of it, and in order."""
    errors.stop()
    server = serve(file, SESSIONS, errors=errors.given)
    with ExitStack() as stack:
        clients = connected(stack, server)
        errors.go_on()
        said = errors.said().splitlines()
        taken = [line for line in said if line.endswith("places taken")]
        assert taken == [f"hpb: {place} of {SESSIONS} places taken" for place in range(1, SESSIONS + 1)]
        assert not [line for line in said if "not written" in line]
        ends(server, clients, 0)


def test_nobody_reads_at_all(file: Path, serve: Serve) -> None:
    """The other end of standard error is closed."""
    errors = Errors.pipe()
    os.close(errors.own)
    server = serve(file, SESSIONS, errors=errors.given)
    os.close(errors.given)
    with ExitStack() as stack:
        clients = connected(stack, server)
        assert clients[1].ask("BID x 1 a 100") == "OK 1"
        ends(server, clients, 1)


def test_notices_that_find_no_room_are_counted_and_told(file: Path, serve: Serve, errors: Errors, room: Path, library: Library) -> None:
    """The system refuses the thread that writes notices. Then they are written if standard error takes them at once."""
    faults = Faults.built(library, room)
    conditions = faults.of("hpb", file, "pthread_create", 1, errno.EAGAIN)
    errors.stop()
    server = serve(file, SESSIONS + 1, errors=errors.given, conditions=conditions)
    with ExitStack() as stack:
        clients = connected(stack, server)
        assert faults.failed() == 1
        errors.go_on()
        assert errors.said() == ""
        clients += connected(stack, server, 1)
        said = errors.said().splitlines()
        assert said[1] == f"hpb: {SESSIONS + 1} of {SESSIONS + 1} places taken"
        words = " notices were not written: nobody read standard error, or memory was refused"
        assert said[0].startswith("hpb: ") and said[0].endswith(words) and int(said[0][5:].split(" ")[0]) >= SESSIONS
        ends(server, clients, 0)
