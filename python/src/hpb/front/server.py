"""`hpb serve` behind a front: its process, and its sessions, all of which belong to the front (docs/FRONT.md)."""
import asyncio
import socket
import subprocess
import time
from collections.abc import Callable, Coroutine
from typing import Any

from hpb.front.config import Config
from hpb.front.core.effects import DropServer, EndServer, StartServer, Tell
from hpb.front.core.ending import told_of
from hpb.front.core.events import Answered, Event, ServerEnded, ServerFailed, ServerGone, ServerUp, SessionOpened
from hpb.front.core.serving import GIVEN_UP
from hpb.front.process import Child, StartsNot

ADDRESS = "127.0.0.1"
# Seconds until a new server has to listen, since it reads its file first; and until a session has to answer.
START_SECONDS, PATIENCE = 60, 30
# Seconds to wait for the exit status of a server whose sessions are lost.
STATUS_SECONDS = 0.2
# For a moment, a server that is ending may still use the file or the port.
PASSING = ("ERR 91 device", "ERR 92 stream")
# Longer than any answer.
MOST_ANSWER = 65_536

Begin = Callable[[Coroutine[Any, Any, None]], asyncio.Task[None]]


class ComesNot(Exception):
    """There is no server. `is_final` says that another start can't help."""

    def __init__(self, text: str, is_final: bool = False) -> None:
        super().__init__(text)
        self.is_final = is_final


def free_port() -> int:
    with socket.socket() as probe:
        probe.bind((ADDRESS, 0))
        port: int = probe.getsockname()[1]
        return port


class Session(asyncio.Protocol):
    """A connection to the server. `hear` gets its lines, and `lost` is set when it ends."""

    def __init__(self, hear: Callable[[bytes], None], lost: asyncio.Event) -> None:
        self.hear, self.lost = hear, lost
        self.transport: asyncio.Transport | None = None
        self.rest, self.has_ended = b"", False

    def connection_made(self, transport: asyncio.BaseTransport) -> None:
        assert isinstance(transport, asyncio.Transport)
        self.transport = transport

    def connection_lost(self, fault: Exception | None) -> None:
        self.lost.set()

    def data_received(self, data: bytes) -> None:
        *lines, self.rest = (self.rest + data).split(b"\n")
        for line in lines:
            self.hear(line)
        if len(self.rest) > MOST_ANSWER:
            self.close()

    def tell(self, line: bytes) -> None:
        if self.transport and not self.has_ended and not self.transport.is_closing():
            self.transport.write(line + b"\n")

    def end_lines(self) -> None:
        self.has_ended = True
        if self.transport and not self.transport.is_closing():
            self.transport.write_eof()

    def close(self) -> None:
        if self.transport:
            self.transport.abort()


class Server:
    """Starts servers, and sends them the lines of the sessions."""

    def __init__(self, config: Config, post: Callable[[Event], None], begin: Begin) -> None:
        self.config, self.post, self.begin = config, post, begin
        self.child: Child | None = None
        self.sessions: list[Session] = []
        self.keeping: asyncio.Task[None] | None = None
        self.lost, self.is_up, self.is_ending = asyncio.Event(), False, False

    def start(self, _: StartServer) -> None:
        self.keeping = self.begin(self.keep())

    def tell(self, effect: Tell) -> None:
        if effect.session < len(self.sessions):
            self.sessions[effect.session].tell(effect.line)

    def drop(self, _: DropServer) -> None:
        self.lost.set()

    def end(self, effect: EndServer) -> None:
        self.begin(self.end_within(effect.seconds))

    async def keep(self) -> None:
        """Runs one server from its start until it is lost."""
        self.lost = asyncio.Event()
        try:
            await self.come()
        except ComesNot as fault:
            await self.stop()
            self.post(ServerFailed(str(fault), fault.is_final))
            return
        self.is_up = True
        self.post(ServerUp())
        await self.wait_for_loss()
        if not self.is_ending:
            how = await self.how_it_ended()
            await self.stop()
            self.post(ServerGone(how))

    async def come(self) -> None:
        port = self.config.port or await self.come_up()
        for place in range(self.config.places()):
            self.post(SessionOpened(await self.connect(place, port)))

    async def come_up(self) -> int:
        """Starts a process. Returns its port once it listens."""
        port = free_port()
        words = ["serve", "--file", self.config.file, "--port", str(port), "--sessions", str(self.config.places())]
        try:
            self.child = Child([self.config.program, *words], subprocess.DEVNULL)
        except StartsNot as fault:
            raise ComesNot(str(fault), not fault.may_pass) from None
        line = await self.child.line(START_SECONDS)
        if line == f"LISTENING {port}":
            return port
        if line and line not in PASSING:
            raise ComesNot(f"the server refuses the file: {line}", True)
        raise ComesNot(f"the server doesn't come up: {line or 'it says nothing'}")

    async def connect(self, place: int, port: int) -> bytes:
        """Opens a session, and returns its answer to SHOW. If somebody else took one of the server's places, it refuses the last
        session."""
        shown: asyncio.Future[bytes] = asyncio.get_running_loop().create_future()
        hear = lambda line: self.post(Answered(place, line)) if shown.done() else shown.set_result(line)
        try:
            connecting = asyncio.get_running_loop().create_connection(lambda: Session(hear, self.lost), ADDRESS, port)
            _, session = await asyncio.wait_for(connecting, PATIENCE)
            self.sessions.append(session)
            session.tell(b"SHOW")
            lost = asyncio.ensure_future(self.lost.wait())
            awaited: list[asyncio.Future[Any]] = [shown, lost]
            await asyncio.wait(awaited, timeout=PATIENCE, return_when=asyncio.FIRST_COMPLETED)
            lost.cancel()
        except OSError:
            pass
        if not shown.done() or shown.result() == GIVEN_UP:
            raise ComesNot(f"port {port} gives no session")
        return shown.result()

    async def wait_for_loss(self) -> None:
        lost = asyncio.create_task(self.lost.wait())
        try:
            await asyncio.wait([lost, self.child.exited] if self.child else [lost], return_when=asyncio.FIRST_COMPLETED)
        finally:
            lost.cancel()

    async def how_it_ended(self) -> str:
        """Words about its exit status, if it ended by itself. If somebody else started the server, nobody knows its status."""
        status = await self.child.status(STATUS_SECONDS) if self.child else None
        return "" if status is None else f" ({told_of(status)})"

    async def end_within(self, seconds: float) -> None:
        """Ends all sessions and the server, within so many seconds."""
        self.is_ending, end = True, time.monotonic() + seconds
        ended = ServerEnded("", None)
        if not self.is_up and self.keeping:
            self.keeping.cancel()
        elif self.child:
            for session in self.sessions:
                session.end_lines()
            ended = ServerEnded(await self.child.rest(seconds), await self.child.status(end - time.monotonic()))
        await self.stop()
        self.post(ended)

    async def stop(self) -> None:
        """Ends whatever is left: no session and no process remains."""
        self.is_up = False
        for session in self.sessions:
            session.close()
        self.sessions = []
        child, self.child = self.child, None
        if child:
            await child.end()
