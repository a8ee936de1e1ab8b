"""The log of a front: what strangers and names do, an object of JSON on each line, and never a token (docs/FRONT.md).

A thread writes the lines, so nobody waits for a disk or a terminal. Lines are left out if more of their kind come than may, or if they come
faster than they can be written. A line of kind `left_out` counts them.
"""
import errno
import json
import os
import re
import socket
import time
from _thread import allocate_lock
from collections.abc import Callable, Mapping
from dataclasses import dataclass, field
from typing import Protocol

from hpb.own_files import give_name, is_at, open_own
from hpb.threads import Keeper, Lines

Field = str | int | float | bool | None | list[str]

STANDARD_ERROR = "stderr"
JOURNAL = "journal"
JOURNAL_SOCKET = "/run/systemd/journal/socket"
# How each line begins.
BEGINNING = b'{"at":"'
# So many bytes of a file show whether it is a log.
LOOKED_AT = 4_096
# So many lines wait to be written.
MOST_WAITING = 10_000
# A text is cut to so many characters. No field of a front is longer, except by mistake.
MOST_TEXT = 400
# The fields that others write, and the words in them that may be tokens: each is neither a name nor a number of docs/PROTOCOL.md.
SAID_BY_OTHERS = ("line", "path")
MAY_BE_TOKEN = re.compile(r"(?<![!-~])(?![a-z0-9_]{16}(?![!-~])|[0-9]{16,20}(?![!-~]))[!-~]{16,}")
# Seconds between two lines of kind `left_out`, and between two warnings that nothing can be written.
COUNT_SECONDS, WARN_SECONDS = 1.0, 60.0
# Seconds until the next try after a failure for which there was no memory to count it.
PAUSE = 0.05
BURST_SECONDS = 2


class Sink(Protocol):
    """Takes whole lines and writes them somewhere."""

    def write(self, line: bytes) -> None:
        """Writes a line, and returns once the system has it. An OSError says that it can't be written."""


@dataclass
class Stream:
    """An open descriptor, such as standard error. If only a part of a line could be written, that part gets an LF before the next line."""

    descriptor: int
    is_torn: bool = False

    def write(self, line: bytes) -> None:
        rest = b"\n" + line if self.is_torn else line
        while rest:
            written = os.write(self.descriptor, rest)
            rest = rest[written:]
            self.is_torn = bool(rest)


@dataclass
class Journal:
    """The journal of systemd, by its own protocol: each entry is a datagram."""

    path: str = JOURNAL_SOCKET
    connection: socket.socket | None = None

    def write(self, line: bytes) -> None:
        if self.connection is None:
            self.connection = socket.socket(socket.AF_UNIX, socket.SOCK_DGRAM | socket.SOCK_CLOEXEC)
        self.connection.sendto(b"PRIORITY=6\nSYSLOG_IDENTIFIER=hpb-front\nMESSAGE=" + line, self.path)


@dataclass
class Rotated:
    """A file, and older ones beside it: `front.log`, `front.log.1`, .. Together they have `files * most_bytes` bytes at most. If another
    program moves or removes the file, the next line begins a new one."""

    path: str
    most_bytes: int
    files: int
    stream: Stream | None = None

    def write(self, line: bytes) -> None:
        if self.stream and not is_at(self.stream.descriptor, self.path):
            self.close()
        stream = self.stream or self.open()
        length = os.fstat(stream.descriptor).st_size
        if length and length + len(line) > self.most_bytes:
            self.rotate()
            stream = self.open()
        stream.write(line)

    def close(self) -> None:
        if self.stream:
            stream, self.stream = self.stream, None
            os.close(stream.descriptor)

    def open(self) -> Stream:
        file = open_log(self.path)
        try:
            length = os.fstat(file).st_size
            self.stream = Stream(file, bool(length) and os.pread(file, 1, length - 1) != b"\n")
        except BaseException:
            os.close(file)
            raise
        return self.stream

    def rotate(self) -> None:
        """Gives each file the name of the next older one, up to the first name that is free. If none is free, the oldest file is replaced.
        If one of them is no log, an OSError says so, and nothing is moved."""
        names = [self.path, *(f"{self.path}.{number}" for number in range(1, self.files))]
        free = next((place for place, name in enumerate(names) if not os.path.lexists(name)), len(names))
        for name in names[:free]:
            os.close(open_log(name))
        if free == len(names):
            free -= 1
            os.unlink(names[free])
        for place in reversed(range(free)):
            give_name(names[place], names[place + 1])
        self.close()


def open_log(path: str) -> int:
    """Opens a log, or makes it if there is none. An OSError says that the file is something else, or belongs to somebody else."""
    file = open_own(path, os.O_RDWR | os.O_APPEND)
    try:
        begun = os.pread(file, LOOKED_AT, 0).lstrip(b"\0")
        if not (begun.startswith(BEGINNING) or BEGINNING.startswith(begun)):
            raise OSError(errno.EEXIST, "it is no log of a front; move it, or name another one", path)
    except BaseException:
        os.close(file)
        raise
    return file


@dataclass
class Bucket:
    """How many more lines of one kind may come now, and how many were left out."""

    per_second: float
    credit: float
    seen: float
    left_out: int = 0

    def may(self, now: float) -> bool:
        self.credit = min(self.credit + (now - self.seen) * self.per_second, BURST_SECONDS * self.per_second)
        self.seen = now
        if self.credit < 1:
            self.left_out += 1
            return False
        self.credit -= 1
        return True


@dataclass
class Log:
    """Takes lines from any thread, and writes them in the order in which they came.

    `per_second` says how many lines of each kind may come, on the average; twice as many may come at once. Kinds that aren't named there
    are limited only by how fast lines can be written. If nothing can be written, `warn` gets the error, once a minute at most.
    """

    sink: Sink
    per_second: dict[str, int] = field(default_factory=dict)
    warn: Callable[[str], None] = lambda text: None

    def __post_init__(self) -> None:
        self.lines, self.lock = Lines(MOST_WAITING), allocate_lock()
        now = time.monotonic()
        self.buckets = {kind: Bucket(rate, BURST_SECONDS * rate, now) for kind, rate in self.per_second.items()}
        self.lost: dict[str, int] = {}
        self.has_begun = False
        # Gets each line, also if it is left out.
        self.seen: Callable[[str, Mapping[str, Field]], None] | None = None
        self.counted = self.warned = -WARN_SECONDS
        self.writer = Keeper(self.write_or_fail, PAUSE)

    def start(self) -> "Log":
        """Starts the thread. A RuntimeError says that the system has none."""
        self.writer.start()
        self.has_begun = True
        return self

    def write(self, kind: str, **fields: Field) -> None:
        """Adds a line, and never waits. If there is no room for it, it is only counted."""
        if self.seen:
            self.seen(kind, fields)
        self.lock.acquire()
        try:
            bucket = self.buckets.get(kind)
            if bucket and not bucket.may(time.monotonic()):
                return
        finally:
            self.lock.release()
        if not self.lines.add(line_of(kind, fields)):
            self.lose(kind)

    def lose(self, kind: str) -> None:
        self.lock.acquire()
        try:
            self.lost[kind] = self.lost.get(kind, 0) + 1
        finally:
            self.lock.release()

    def write_or_fail(self) -> None:
        try:
            self.write_next()
        except Exception as fault:
            self.fail(fault)

    def write_next(self) -> None:
        line = self.lines.first(COUNT_SECONDS)
        if line is None:
            self.count()
            return
        try:
            if line:
                self.sink.write(line)
            self.count(is_last=not line)
        finally:
            self.lines.drop()

    def fail(self, fault: Exception) -> None:
        """A log that can't be written stops no bidder."""
        self.lose("unwritten")
        now = time.monotonic()
        if now - self.warned > WARN_SECONDS:
            self.warned = now
            self.warn(f"the log can't be written: {says(fault)}")

    def count(self, is_last: bool = False) -> None:
        """Writes how many lines were left out: at the end, and in between at most once a second."""
        now = time.monotonic()
        if now - self.counted < COUNT_SECONDS and not is_last:
            return
        self.counted = now
        for kind, number in sorted(self.take_counts().items()):
            self.sink.write(line_of("left_out", {"of": kind, "count": number}))

    def take_counts(self) -> dict[str, int]:
        self.lock.acquire()
        try:
            counts, self.lost = self.lost, {}
            for kind, bucket in self.buckets.items():
                if bucket.left_out:
                    counts[kind] = counts.get(kind, 0) + bucket.left_out
                    bucket.left_out = 0
            return counts
        finally:
            self.lock.release()

    def end(self, seconds: float) -> None:
        """Waits until all is written, at most so many seconds."""
        end = time.monotonic() + seconds
        self.lines.add(b"")
        while self.has_begun and not self.writer.has_ended and not self.lines.is_empty() and time.monotonic() < end:
            time.sleep(0.01)


def says(fault: Exception) -> str:
    """The words of a fault, with its file, if there is one."""
    if not isinstance(fault, OSError) or not fault.strerror:
        return repr(fault)
    return f"{fault.filename}: {fault.strerror}" if fault.filename else fault.strerror


def line_of(kind: str, fields: dict[str, Field]) -> bytes:
    entry: dict[str, Field] = {"at": time_now(), "kind": kind, **{name: shown(name, value) for name, value in fields.items()}}
    return json.dumps(entry, separators=(",", ":")).encode() + b"\n"


def shown(name: str, value: Field) -> Field:
    """A field in a form that anyone may read: if it is a line or a path that might hold a token, the token is left out."""
    if not isinstance(value, str):
        return value
    if name == "line" and value.lstrip().lower().startswith("token"):
        return "TOKEN .."
    if name in SAID_BY_OTHERS:
        value = MAY_BE_TOKEN.sub("..", value)
    return value if len(value) <= MOST_TEXT else f"{value[:MOST_TEXT]}.."


def time_now() -> str:
    """UTC, to the microsecond."""
    seconds, nanoseconds = divmod(time.time_ns(), 1_000_000_000)
    return time.strftime("%Y-%m-%dT%H:%M:%S", time.gmtime(seconds)) + f".{nanoseconds // 1000:06}Z"
