"""A disk that is full for one program, from some moment on: then it can write no file behind its third page."""

from __future__ import annotations

import fcntl
import os
import resource
import signal
import struct
import subprocess
import termios

from harness.auctions import PAGE
from harness.programs import shown
from harness.serving import wait_until

SIZE = 3 * PAGE
SECONDS = 20


def no_signal() -> None:
    """From here on, a write of this process that is too long fails, and no signal ends it."""
    signal.signal(signal.SIGXFSZ, signal.SIG_IGN)


def fill_disk(process: subprocess.Popen[bytes]) -> None:
    """From now on the disk is full for this process."""
    most = resource.prlimit(process.pid, resource.RLIMIT_FSIZE)[1]
    resource.prlimit(process.pid, resource.RLIMIT_FSIZE, (SIZE, most))


def filled(process: subprocess.Popen[bytes], text: bytes) -> tuple[str, str, int]:
    """Sends this to a program, whose disk is full once it has read the first byte. Its output, its messages and its status."""
    assert process.stdin is not None
    pipe = process.stdin.fileno()
    try:
        os.write(pipe, text[:1])
        wait_until(lambda: not unread(pipe) or process.poll() is not None, SECONDS, "the first byte isn't read")
        fill_disk(process)
        written, errors = process.communicate(text[1:], SECONDS)
    finally:
        process.kill()
        process.wait()
    return shown(written), shown(errors), process.returncode


def unread(pipe: int) -> int:
    """How many bytes of a pipe nobody has read."""
    count: int = struct.unpack("i", fcntl.ioctl(pipe, termios.FIONREAD, b"\0" * 4))[0]
    return count
