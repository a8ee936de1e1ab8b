"""Calls of a program to the system that fail, wait or are left out, by a library that is loaded before the C library
(tests/fail_calls.c), and memory that both have."""

from __future__ import annotations

import contextlib
import enum
import errno
import mmap
import os
import struct
from dataclasses import dataclass
from pathlib import Path

from harness.building import SOURCES
from harness.conditions import NORMAL, Conditions

SOURCE = SOURCES / "fail_calls.c"
# A call that is as good as the last one.
EVER = 1 << 62
MOST_RELEASED = 4096
DELAY = struct.Struct("=q")
RULE = struct.Struct("=9q")
RULES = 2
BEGUN, MET = 7, 8


class Call(enum.IntFlag):
    """The kinds of calls."""

    WRITE = 1 << 0
    SYNC = 1 << 1
    READ = 1 << 2
    OPEN = 1 << 3
    LOCK = 1 << 4
    ADVICE = 1 << 5
    PORT = 1 << 6
    THREAD = 1 << 7
    ACCEPT = 1 << 8
    WAKE = 1 << 9
    REQUEST = 1 << 10
    RECEIVE = 1 << 11
    SEND = 1 << 12
    PROMPT = 1 << 13
    TOP = 1 << 14
    NAME = 1 << 15


class Way(enum.IntEnum):
    """What becomes of a call: the source says what each is."""

    MADE = 0
    NOTHING = 1
    HALF = 2
    ALL = 3
    SHORT = 4
    LEFT_OUT = 5
    HELD = 6


class By(enum.IntEnum):
    """The thread that makes a call."""

    ANYBODY = 0
    COMMITTER = 1
    CHECKPOINTER = 2


@dataclass(frozen=True)
class Rule:
    """Of these calls the first one, or each so-manieth from the first to the last, become this."""

    calls: Call
    way: Way
    first: int = 1
    last: int | None = None
    step: int = 1
    thread: By = By.ANYBODY
    error: int = errno.EIO

    def packed(self, calls: int) -> bytes:
        """As the library reads it, for these calls."""
        last = self.first if self.last is None else self.last
        return RULE.pack(calls, self.thread, self.first, last, self.step, self.way, self.error, 0, 0)


NONE = RULE.pack(0, By.ANYBODY, 1, 1, 1, Way.MADE, 0, 0, 0)


class FailingCalls:
    """What becomes of the calls of programs that are run under these conditions, one at a time. Nothing fails at first."""

    def __init__(self, library: Path, folder: Path) -> None:
        self._library, self._file = library, folder / "faults"
        self._file.write_bytes(bytes(DELAY.size + RULES * RULE.size))
        with self._file.open("r+b") as opened:
            self._shared = mmap.mmap(opened.fileno(), 0)
        gate = folder / f"{self._file.name}.gate"
        os.mkfifo(gate)
        self._gate = os.open(gate, os.O_RDWR | os.O_NONBLOCK)
        self.forget()

    def conditions(self, beside: Conditions = NORMAL) -> Conditions:
        """Those of a program whose calls may fail. A library that is loaded before sees the calls as they then went."""
        return beside.with_library(self._library, FAULTS=str(self._file))

    def forget(self, delay: int = 0) -> None:
        """Nothing fails or is released any more, and all is counted anew. Each sync takes so many microseconds more than its own time."""
        with contextlib.suppress(BlockingIOError):
            os.read(self._gate, MOST_RELEASED)
        self._shared[:] = DELAY.pack(delay) + NONE * RULES

    def release(self) -> None:
        """Lets one more call go on that is held."""
        os.write(self._gate, b"x")

    def close(self) -> None:
        """Ends the use of the calls."""
        os.close(self._gate)
        self._shared.close()

    def set(self, *rules: Rule) -> None:
        """From now on, up to two rules at a time. What they count begins anew. The kinds of calls come last: they begin a rule."""
        for place, rule in enumerate(rules):
            at = DELAY.size + place * RULE.size
            self._shared[at : at + RULE.size] = rule.packed(0)
            struct.pack_into("=q", self._shared, at, rule.calls)

    def begun(self, place: int = 0) -> int:
        """How many calls of a rule were begun."""
        return self._number(place, BEGUN)

    def met(self, place: int = 0) -> int:
        """How many of them became what the rule says."""
        return self._number(place, MET)

    def _number(self, place: int, field: int) -> int:
        number: int = RULE.unpack_from(self._shared, DELAY.size + place * RULE.size)[field]
        return number
