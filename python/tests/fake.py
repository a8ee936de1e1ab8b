"""A server that answers by the package's rules and fails as a test says: in memory, or over TCP in threads of its own."""
import socket
import threading
from collections import deque
from dataclasses import dataclass, field
from types import TracebackType

from hpb.lines import format_answer
from hpb.rules import Auction, answer, begin, read_definition
from serving import ADDRESS, DEFINITION, SECONDS

# Ways for a connection to fail: it ends before a line is judged, after that, or in the middle of the answer; or the line gets
# another answer instead.
BEFORE, BEHIND, HALF, SILENT = "before", "behind", "half", "silent"
ENDING_LINES = ("ERR 93 failed", "ERR 95 order", "ERR front idle", "ERR front many", "HTTP/1.1 400 Bad Request")


@dataclass
class Fault:
    """The line of one connection, counted from 1, with which it fails, and the way in which it fails."""

    line: int
    kind: str


@dataclass
class Fake:
    """The auction of the first example, and one fault for each connection to come. Once the faults are used up, nothing fails."""

    faults: deque[Fault] = field(default_factory=deque)
    auction: Auction = field(default_factory=lambda: begin(read_definition(DEFINITION)))
    accepted: list[str] = field(default_factory=list)
    connections: int = 0
    lock: threading.Lock = field(default_factory=threading.Lock)

    def judge(self, line: str) -> str:
        """The answer to a line."""
        with self.lock:
            before = self.auction.count
            self.auction, answered = answer(self.auction, line)
            if self.auction.count > before:
                self.accepted.append(line)
            return format_answer(answered)

    def connect(self) -> "Connection":
        """The next connection, with its fault."""
        with self.lock:
            self.connections += 1
            return Connection(self, self.faults.popleft() if self.faults else None)


@dataclass
class Connection:
    """The server's side of one connection."""

    fake: Fake
    fault: Fault | None
    rest: bytes = b""
    lines: int = 0
    has_ended: bool = False

    def take(self, data: bytes) -> bytes:
        """The answers to these bytes."""
        *lines, self.rest = (self.rest + data).split(b"\n")
        answered = b""
        for line in lines:
            if not self.has_ended:
                answered += self._take_line(line.decode("latin-1"))
        return answered

    def _take_line(self, line: str) -> bytes:
        self.lines += 1
        if self.fault is None or self.lines < self.fault.line:
            return f"{self.fake.judge(line)}\n".encode()
        kind = self.fault.kind
        if kind == SILENT:
            return b""
        self.has_ended = True
        if kind in ENDING_LINES:
            return f"{kind}\n".encode()
        told = b"" if kind == BEFORE else f"{self.fake.judge(line)}\n".encode()
        return told[: len(told) // 2] if kind == HALF else b""


class Listener:
    """A fake server over TCP."""

    def __init__(self, fake: Fake) -> None:
        self.fake = fake
        self.listener = socket.create_server((ADDRESS, 0))
        self.port: int = self.listener.getsockname()[1]
        self.threads = [threading.Thread(target=self._accept, daemon=True)]

    def __enter__(self) -> "Listener":
        self.threads[0].start()
        return self

    def __exit__(self, kind: type[BaseException] | None, value: BaseException | None, trace: TracebackType | None) -> None:
        self.listener.shutdown(socket.SHUT_RDWR)
        self.listener.close()
        for thread in self.threads:
            thread.join(SECONDS)

    def _accept(self) -> None:
        while True:
            try:
                taken, _ = self.listener.accept()
            except OSError:
                return
            thread = threading.Thread(target=self._serve, args=(taken, self.fake.connect()), daemon=True)
            self.threads.append(thread)
            thread.start()

    def _serve(self, taken: socket.socket, connection: Connection) -> None:
        taken.settimeout(SECONDS)
        with taken:
            try:
                while not connection.has_ended and (data := taken.recv(65536)):
                    taken.sendall(connection.take(data))
            except OSError:
                return
