"""Many bids that are sent at once, and when their answers leave: a program whose output is seen write by write."""

from __future__ import annotations

import socket
import subprocess
import time
from pathlib import Path

from harness.bidding import LICENCES, bidders_definition
from harness.programs import Program
from harness.streams import opened

BIDDERS = 64
MOST_BIDS = BIDDERS * LICENCES
JOURNAL = 64
# How long a write may take to come, in seconds.
PATIENCE = 5


def bids(count: int) -> bytes:
    """So many bids, 4,096 at most, all of which are accepted in this order."""
    return b"".join(b"BID b%d %d l%d 100\n" % (place % BIDDERS, place // BIDDERS + 1, place // BIDDERS) for place in range(count))


def new_file(program: Program, file: Path) -> Path:
    """A new auction of 64 bidders and licences, with a journal of 64 pages."""
    file.unlink(missing_ok=True)
    assert program.format(file, journal=JOURNAL, text=bidders_definition(BIDDERS)).status == 0
    return file


class Flood:
    """A run that is sent so many bids at once. It is killed at the end of `with`."""

    def __init__(self, program: Program, file: Path, count: int, batch: int, every: int = 0) -> None:
        self._socket, theirs = socket.socketpair(socket.AF_UNIX, socket.SOCK_SEQPACKET)
        self._socket.settimeout(PATIENCE)
        text = file.with_name("bids")
        text.write_bytes(bids(count))
        self.began = time.monotonic()
        words = ("run", "--file", file, "--batch", batch, "--every", every)
        with opened(text) as lines, theirs:
            self._process = program.start(*words, input=lines, output=theirs.fileno(), errors=subprocess.DEVNULL)

    def next(self) -> int:
        """How many answers are written next, 0 at the end. TimeoutError if none come for long."""
        return self._socket.recv(1 << 20).count(b"OK ")

    def rest(self) -> list[int]:
        """How many were written each time, up to the end."""
        return list(iter(self.next, 0))

    def kill(self) -> None:
        """Ends it by SIGKILL. What it has written can still be read."""
        self._process.kill()
        self._process.wait()

    def __enter__(self) -> Flood:
        return self

    def __exit__(self, *_: object) -> None:
        self.kill()
        self._socket.close()
