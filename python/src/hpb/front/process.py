"""Child processes of a front: they end when it does, and no thread waits for them (docs/FRONT.md)."""
import asyncio
import contextlib
import ctypes
import errno
import os
import signal
import subprocess
from collections.abc import Sequence

from hpb.front.watch import free_signals

END_WITH_PARENT = 1
# Errors that may pass.
PASSING = {errno.EAGAIN, errno.ENOMEM, errno.EINTR, errno.EMFILE, errno.ENFILE}
MOST_READ = 65_536
# A killed process has so many seconds to end.
GONE_SECONDS = 1.0
LIBRARY = ctypes.CDLL(None)


class StartsNot(Exception):
    """The system doesn't start a program. `may_pass` says whether another try may help."""

    def __init__(self, text: str, may_pass: bool) -> None:
        super().__init__(text)
        self.may_pass = may_pass


class Child:
    """A child process, whose standard output is read line by line."""

    def __init__(self, words: Sequence[str], stdin: int, descriptors: Sequence[int] = ()) -> None:
        try:
            self.process = subprocess.Popen(
                words, stdin=stdin, stdout=subprocess.PIPE, preexec_fn=end_with_parent, start_new_session=True, pass_fds=descriptors
            )
        except OSError as fault:
            raise StartsNot(f"{words[0]} can't be started: {fault.strerror or fault}", fault.errno in PASSING) from None
        except subprocess.SubprocessError as fault:
            raise StartsNot(f"{words[0]} can't be started: {fault}", True) from None
        self.received, self.descriptor = b"", -1
        try:
            assert self.process.stdout
            os.set_blocking(self.process.stdout.fileno(), False)
            self.descriptor = os.pidfd_open(self.process.pid)
            self.exited = asyncio.create_task(self.wait())
        except OSError as fault:
            self.give_up()
            raise StartsNot(f"{words[0]} can't be waited for: {fault.strerror or fault}", fault.errno in PASSING) from None
        except BaseException:
            self.give_up()
            raise

    def give_up(self) -> None:
        """Kills it, and waits without the event loop until it is gone."""
        self.process.kill()
        self.process.wait(GONE_SECONDS)
        self.close()

    async def wait(self) -> None:
        await readable(self.descriptor)
        self.process.poll()

    async def line(self, seconds: float) -> str:
        """Its next line. The text is empty if it ends first, or if nothing comes within so many seconds."""
        try:
            return await asyncio.wait_for(self.next_line(), seconds)
        except asyncio.TimeoutError:
            return ""

    async def next_line(self) -> str:
        while b"\n" not in self.received and await self.read():
            pass
        line, _, self.received = self.received.partition(b"\n")
        return line.decode("latin-1").strip()

    async def rest(self, seconds: float) -> str:
        """The rest of its output until it ends, as far as it comes in so many seconds."""
        with contextlib.suppress(asyncio.TimeoutError):
            await asyncio.wait_for(self.read_all(), seconds)
        return self.received.decode("latin-1").strip()

    async def read_all(self) -> None:
        while await self.read():
            pass

    async def read(self) -> bool:
        """Reads more of its output. The result is whether there was any."""
        assert self.process.stdout
        descriptor = self.process.stdout.fileno()
        while True:
            await readable(descriptor)
            try:
                part = os.read(descriptor, MOST_READ)
            except BlockingIOError:
                continue
            except OSError:
                return False
            self.received += part
            return bool(part)

    async def status(self, seconds: float) -> int | None:
        """Its exit status, or minus the signal that ended it; None if it hasn't ended within so many seconds."""
        await asyncio.wait([self.exited], timeout=max(0.0, seconds))
        return self.process.poll()

    async def end(self) -> None:
        """Kills it, and waits until it is gone. The wait has a limit, because a disk that hangs may hold the process."""
        self.process.kill()
        await asyncio.wait([self.exited], timeout=GONE_SECONDS)
        self.exited.cancel()
        with contextlib.suppress(subprocess.TimeoutExpired):
            self.process.wait(0)
        self.close()

    def close(self) -> None:
        if self.process.stdout:
            self.process.stdout.close()
        if self.descriptor >= 0:
            descriptor, self.descriptor = self.descriptor, -1
            asyncio.get_running_loop().remove_reader(descriptor)
            os.close(descriptor)


async def readable(descriptor: int) -> None:
    """Waits until there is something to read, or the end."""
    loop = asyncio.get_running_loop()
    ready: asyncio.Future[None] = loop.create_future()

    def come() -> None:
        if not ready.done():
            ready.set_result(None)

    loop.add_reader(descriptor, come)
    try:
        await ready
    finally:
        loop.remove_reader(descriptor)


def end_with_parent() -> None:
    """Runs in the child: from here on it ends when the front does, however that ends, and gets signals."""
    if LIBRARY.prctl(END_WITH_PARENT, signal.SIGKILL):
        raise OSError("it can't be made to end with the front")
    free_signals()
