"""A socket beside the auction's files, by which a program of the front's own user freezes its commands for a moment, to copy file and record
(docs/FRONT.md).

The program sends `FREEZE`. Once commands stand still, it reads `FROZEN count entry hash`, and copies. Then it sends `THAW`, and reads `THAWED
microseconds`: only then its copy is good. If it ends, or takes too long, commands go on without that word.
"""
import asyncio
import contextlib
import os
import socket
import stat
import time
from collections.abc import Iterator

from hpb.front.core.effects import Frozen
from hpb.front.core.events import AskFreeze, Thaw
from hpb.front.core.state import Freeze
from hpb.front.faults import Stops
from hpb.front.log import Log
from hpb.front.machine import Machine
from hpb.own_files import MODE
from hpb.threads import in_thread

# So many seconds a connection may be silent at first, and commands may stand still.
SECONDS = 10.0
MOST_BYTES = 256
FREEZE, FROZEN, THAW, THAWED, BUSY = b"FREEZE\n", "FROZEN", b"THAW\n", "THAWED", b"BUSY\n"
MICROSECONDS = 1_000_000


class Control:
    """Serves the socket. One connection at a time may freeze commands; others are answered `BUSY`."""

    def __init__(self, path: str, machine: Machine, log: Log) -> None:
        self.path, self.machine, self.log = path, machine, log
        self.frozen: asyncio.Future[Frozen] | None = None
        machine.shells[Frozen] = self.take_frozen

    async def serve(self) -> None:
        """Serves until it is cancelled. The front has its record by now, so the socket of that name is no other front's."""
        listener = await in_thread(lambda: listen(self.path))
        async with await asyncio.start_unix_server(self.take, sock=listener, limit=MOST_BYTES) as server:
            await server.serve_forever()

    def take_frozen(self, effect: Frozen) -> None:
        if self.frozen and not self.frozen.done():
            self.frozen.set_result(effect)

    async def take(self, reader: asyncio.StreamReader, writer: asyncio.StreamWriter) -> None:
        """Serves one connection. Whatever is wrong with it, it ends, and commands go on."""
        try:
            with contextlib.suppress(OSError, ValueError, asyncio.TimeoutError):
                if await asyncio.wait_for(reader.readline(), SECONDS) == FREEZE:
                    await self.freeze(reader, writer)
        finally:
            writer.transport.abort()

    async def freeze(self, reader: asyncio.StreamReader, writer: asyncio.StreamWriter) -> None:
        """Freezes commands until the word to thaw, and says then that they stood still all the time."""
        if self.frozen:
            await asyncio.wait_for(send(writer, BUSY), SECONDS)
            return
        self.frozen, began, is_whole = asyncio.get_running_loop().create_future(), time.monotonic(), False
        try:
            self.machine.post(AskFreeze())
            is_whole = await asyncio.wait_for(self.stand(self.frozen, reader, writer), SECONDS)
        finally:
            self.frozen = None
            self.machine.post(Thaw())
            microseconds = round((time.monotonic() - began) * MICROSECONDS)
            self.log.write("freeze", outcome="whole" if is_whole else "broken", microseconds=microseconds)
        if is_whole:
            await asyncio.wait_for(send(writer, f"{THAWED} {microseconds}\n".encode()), SECONDS)

    async def stand(self, stands: asyncio.Future[Frozen], reader: asyncio.StreamReader, writer: asyncio.StreamWriter) -> bool:
        """Says that commands stand still, and waits for the word to thaw. The result is whether they stood still until then."""
        frozen = await stands
        await send(writer, f"{FROZEN} {frozen.count} {frozen.place.number} {frozen.place.hash}\n".encode())
        # A front that ends has let commands go on by itself.
        return await reader.readline() == THAW and self.machine.front.freeze is Freeze.STANDS


async def send(writer: asyncio.StreamWriter, line: bytes) -> None:
    """Sends a line, and waits until it has left: a writer's end drops everything else."""
    writer.transport.set_write_buffer_limits(high=0)
    writer.write(line)
    await writer.drain()


def listen(path: str) -> socket.socket:
    """The socket of this name, for its owner alone. A Stops says why there is none."""
    made = socket.socket(socket.AF_UNIX, socket.SOCK_STREAM)
    try:
        os.fchmod(made.fileno(), MODE)
        with contextlib.suppress(FileNotFoundError):
            if not stat.S_ISSOCK(os.lstat(path).st_mode):
                raise Stops(f"control: {path} is there already, and is no socket")
            os.unlink(path)
        with short_name(path) as name:
            made.bind(name)
        made.listen()
        made.setblocking(False)
    except OSError as fault:
        made.close()
        raise Stops(f"control: {path}: {fault.strerror}") from None
    except Stops:
        made.close()
        raise
    return made


@contextlib.contextmanager
def short_name(path: str) -> Iterator[str]:
    """The name of a socket by its folder's descriptor: a socket's address has 108 bytes at most, and a path more."""
    folder = os.open(os.path.dirname(path), os.O_RDONLY | os.O_DIRECTORY | os.O_CLOEXEC)
    try:
        yield f"/proc/self/fd/{folder}/{os.path.basename(path)}"
    finally:
        os.close(folder)
