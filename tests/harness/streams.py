"""Standard streams of each kind: one that is full, one that nobody reads, a terminal; and a program at a terminal."""

from __future__ import annotations

import os
import pty
import select
import signal
import subprocess
import termios
import threading
import time
from collections.abc import Iterator
from contextlib import contextmanager
from pathlib import Path
from typing import IO

from harness.conditions import Conditions
from harness.programs import Program, Ran, Stream, TookTooLong, shown

SECONDS = 20
# How many seconds a non-blocking input stays empty before it ends.
PAUSE = 0.2


def ignore_broken_pipes() -> None:
    """From here on, a write that nobody reads fails instead of ending this process by a signal."""
    signal.signal(signal.SIGPIPE, signal.SIG_IGN)


# The conditions under a script that ignores SIGPIPE.
WITHOUT_SIGNAL = Conditions(last=ignore_broken_pipes)


@contextmanager
def opened(path: Path | str, flags: int = os.O_RDONLY) -> Iterator[int]:
    """A descriptor of an existing file or folder."""
    descriptor = os.open(path, flags)
    try:
        yield descriptor
    finally:
        os.close(descriptor)


@contextmanager
def full() -> Iterator[int]:
    """A device without room."""
    with opened("/dev/full", os.O_WRONLY) as descriptor:
        yield descriptor


@contextmanager
def unread() -> Iterator[int]:
    """A pipe that nobody reads."""
    reader, writer = os.pipe()
    os.close(reader)
    try:
        yield writer
    finally:
        os.close(writer)


@contextmanager
def not_waiting(text: bytes) -> Iterator[int]:
    """A pipe with this text, whose reads don't block. It ends a while later."""
    reader, writer = os.pipe()
    os.set_blocking(reader, False)
    os.write(writer, text)
    end = threading.Timer(PAUSE, os.close, [writer])
    end.start()
    try:
        yield reader
    finally:
        end.join()
        os.close(reader)


@contextmanager
def terminal() -> Iterator[tuple[int, int]]:
    """A pair of devices: a program reads from the second one the bytes that a test writes to the first. None is changed or shown."""
    typing, device = pty.openpty()
    modes = termios.tcgetattr(device)
    modes[1] &= ~termios.OPOST
    modes[3] &= ~termios.ECHO
    termios.tcsetattr(device, termios.TCSANOW, modes)
    try:
        yield typing, device
    finally:
        os.close(typing)
        os.close(device)


def read_available(stream: int, seconds: float = 0.0) -> bytes:
    """The bytes from a descriptor, until none has come for so long or its other end is closed."""
    found = b""
    while select.select([stream], [], [], seconds)[0]:
        try:
            part = os.read(stream, 1 << 16)
        except OSError:
            break
        if not part:
            break
        found += part
    return found


def read_bytes(stream: IO[bytes], count: int, seconds: float = SECONDS) -> bytes:
    """So many bytes of a pipe, or fewer if it is closed or the time is over before."""
    found, end = b"", time.monotonic() + seconds
    while len(found) < count and select.select([stream], [], [], max(0.0, end - time.monotonic()))[0]:
        part = os.read(stream.fileno(), count - len(found))
        if not part:
            break
        found += part
    return found


class Typed:
    """A program at a terminal. Lines are typed there; its answers and messages come through pipes. It is killed at the end of `with`."""

    def __init__(self, program: Program, *words: object, errors: Stream = subprocess.PIPE) -> None:
        self._began, self._seconds = time.monotonic(), program.seconds
        self._typing, device = pty.openpty()
        self.process = program.start(*words, input=device, errors=errors)
        os.close(device)

    def type(self, text: bytes) -> None:
        """Types these bytes; byte 4 is Ctrl-D."""
        os.write(self._typing, text)

    def answers(self, wanted: str) -> None:
        """Raises AssertionError if the next output on standard output isn't this."""
        assert self.process.stdout is not None
        assert shown(read_bytes(self.process.stdout, len(wanted.encode()), self._seconds)) == wanted

    def says(self, wanted: str) -> None:
        """Raises AssertionError if the next output on standard error isn't this."""
        assert self.process.stderr is not None
        assert shown(read_bytes(self.process.stderr, len(wanted.encode()), self._seconds)) == wanted

    def ends(self, status: int, answered: str = "", said: str = "") -> None:
        """Raises AssertionError if it doesn't end with this status, or writes anything else before."""
        try:
            written, errors = self.process.communicate(timeout=self._seconds)
        except subprocess.TimeoutExpired:
            raise TookTooLong("it doesn't end") from None
        ran = Ran(shown(written), shown(errors), self.process.returncode, time.monotonic() - self._began)
        assert (ran.output, ran.errors, ran.status) == (answered, said, status)

    def __enter__(self) -> Typed:
        return self

    def __exit__(self, *_: object) -> None:
        os.close(self._typing)
        self.process.kill()
        self.process.communicate()
