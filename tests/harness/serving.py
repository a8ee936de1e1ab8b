"""Servers and their clients: each wait has a limit of time."""

from __future__ import annotations

import os
import random
import select
import socket
import struct
import subprocess
import tempfile
import threading
import time
from collections.abc import Callable
from contextlib import suppress
from pathlib import Path
from types import TracebackType
from typing import Protocol

from harness.conditions import NORMAL, Conditions
from harness.programs import Program, Ran, Stream, TookTooLong, shown

ADDRESS = "127.0.0.1"
SECONDS = 20
# The least port to try, and the least port that the system hands out by itself.
LEAST_PORT, LEAST_GIVEN = 10_000, 32_768
TRIES = 3


class Ended(ConnectionError):
    """The other end has ended the connection."""


def free_port() -> int:
    """A free port of the loopback, below those that the system hands out by itself."""
    while True:
        with socket.socket() as probe:
            try:
                probe.bind((ADDRESS, random.randrange(LEAST_PORT, LEAST_GIVEN)))
            except OSError:
                continue
            port: int = probe.getsockname()[1]
            return port


class Client:
    """A connection to a server: it sends lines and reads answers. If one of these takes more than its seconds, TimeoutError is
    raised; other faults are OSError too.
    """

    def __init__(self, port: int, seconds: float = SECONDS, address: str = ADDRESS) -> None:
        self.socket = socket.create_connection((address, port), timeout=seconds)
        self.socket.setsockopt(socket.IPPROTO_TCP, socket.TCP_NODELAY, 1)
        self._received = b""

    def send(self, data: bytes) -> None:
        """Sends these bytes."""
        self.socket.sendall(data)

    def line(self) -> str:
        """The next line, without its newline. If the other end has ended the connection, `Ended` is raised."""
        while b"\n" not in self._received:
            part = self.socket.recv(1 << 16)
            if not part:
                raise Ended(shown(self._received))
            self._received += part
        line, self._received = self._received.split(b"\n", 1)
        return shown(line)

    def ask(self, line: str) -> str:
        """Sends a line, and returns its answer."""
        self.send(f"{line}\n".encode())
        return self.line()

    def tell(self, text: bytes) -> str:
        """Sends all this and then no more, reads the answers meanwhile, up to the end, and gives them."""
        sender = threading.Thread(target=self._send_last, args=(text,))
        sender.start()
        answers = b"".join([self._received, *iter(lambda: self.socket.recv(1 << 20), b"")])
        sender.join()
        self.close()
        return shown(answers)

    def _send_last(self, text: bytes) -> None:
        """Less of it if the server ends before."""
        with suppress(OSError):
            self.send(text)
            self.socket.shutdown(socket.SHUT_WR)

    def reset(self) -> None:
        """Breaks the connection off, so that the server's next call of it fails."""
        self.socket.setsockopt(socket.SOL_SOCKET, socket.SO_LINGER, struct.pack("ii", 1, 0))
        self.close()

    def finish(self) -> list[str]:
        """Sends no more, reads to the end, and returns the lines that still came."""
        self.socket.shutdown(socket.SHUT_WR)
        lines = []
        try:
            while True:
                lines.append(self.line())
        except Ended:
            return lines
        finally:
            self.close()

    def close(self) -> None:
        """Ends the connection."""
        self.socket.close()

    def __enter__(self) -> Client:
        return self

    def __exit__(self, kind: type[BaseException] | None, fault: BaseException | None, trace: TracebackType | None) -> None:
        self.close()


class NotServing(AssertionError):
    """A server ended, or was ended here, before it wrote LISTENING. `ran` has its output."""

    def __init__(self, ran: Ran) -> None:
        super().__init__(repr(ran))
        self.ran = ran


class Server:
    """`hpb serve` on a file, by default at a free port. It is killed at the end of `with`."""

    def __init__(
        self,
        program: Program,
        file: Path,
        sessions: int = 1,
        port: int | None = None,
        errors: Stream | None = None,
        conditions: Conditions = NORMAL,
        seconds: float = SECONDS,
    ) -> None:
        self.sessions = sessions
        self._began = time.monotonic()
        self._said = tempfile.TemporaryFile()
        for _ in range(TRIES):
            self.port = free_port() if port is None else port
            words = ("serve", "--file", file, "--port", self.port, "--sessions", sessions)
            self.process = program.start(*words, errors=self._said if errors is None else errors, conditions=conditions)
            first = read_line(self.process, seconds)
            if first == f"LISTENING {self.port}":
                return
            self.kill()
            if port is not None or first != "ERR 92 stream":
                break
        raise NotServing(Ran(first, self.said(), self.process.returncode, time.monotonic() - self._began))

    def connect(self, seconds: float = SECONDS) -> Client:
        """A client that is connected to it."""
        return Client(self.port, seconds)

    def said(self) -> str:
        """Its messages on standard error up to now, unless that leads elsewhere."""
        size = os.fstat(self._said.fileno()).st_size
        return shown(os.pread(self._said.fileno(), size, 0))

    def wait_until_said(self, words: str, seconds: float = SECONDS) -> str:
        """Returns its messages once they contain these words. If that takes too long, AssertionError is raised."""
        wait_until(lambda: words in self.said(), seconds, f"{words!r} in {self.said()!r}")
        return self.said()

    def sleeps(self, calm: int = 20) -> None:
        """Returns once all its threads were seen asleep so often one after another: one of them then waits for the next connection."""
        tasks = Path(f"/proc/{self.process.pid}/task")
        seen = 0

        def is_calm() -> bool:
            nonlocal seen
            states = {(task / "stat").read_text().rsplit(")", 1)[1].split()[0] for task in tasks.iterdir()}
            seen = seen + 1 if states == {"S"} else 0
            return seen >= calm

        wait_until(is_calm, SECONDS, "its threads don't sleep")

    def ended(self, seconds: float = SECONDS) -> Ran:
        """Waits for its end. Returns its output after LISTENING, its messages and its status."""
        try:
            written, _ = self.process.communicate(timeout=seconds)
        except subprocess.TimeoutExpired:
            self.kill()
            raise TookTooLong(f"serve didn't end: {self.said()}") from None
        return Ran(shown(written), self.said(), self.process.returncode, time.monotonic() - self._began)

    def kill(self) -> None:
        """Kills it by SIGKILL, and waits for its end."""
        self.process.kill()
        self.process.communicate()

    def __enter__(self) -> Server:
        return self

    def __exit__(self, kind: type[BaseException] | None, fault: BaseException | None, trace: TracebackType | None) -> None:
        if self.process.poll() is None:
            self.kill()
        self._said.close()


class Serve(Protocol):
    """Starts a server that ends with its test."""

    def __call__(
        self,
        file: Path,
        sessions: int = 1,
        port: int | None = None,
        errors: Stream | None = None,
        conditions: Conditions = NORMAL,
    ) -> Server:
        """See `Server`; the program is the one under test."""


def read_line(process: subprocess.Popen[bytes], seconds: float = SECONDS) -> str:
    """The next line of standard output. If time runs out or the output ends, it may be a part of a line."""
    assert process.stdout is not None
    stream, received, end = process.stdout.fileno(), b"", time.monotonic() + seconds
    while not received.endswith(b"\n") and select.select([stream], [], [], max(0.0, end - time.monotonic()))[0]:
        part = os.read(stream, 1)
        if not part:
            break
        received += part
    return shown(received).removesuffix("\n")


def wait_until(holds: Callable[[], bool], seconds: float, what: str) -> None:
    """Returns once this holds. If that takes too long, AssertionError is raised."""
    end = time.monotonic() + seconds
    while not holds():
        assert time.monotonic() < end, f"after {seconds} seconds: {what}"
        time.sleep(0.005)
