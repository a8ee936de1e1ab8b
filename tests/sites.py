"""Makes each call site of a front or its page fail once, by the library of `faults.c`; and copies of them, which share their imports."""

from __future__ import annotations

import array
import mmap
import os
import re
import select
import signal
import socket
import struct
import subprocess
import sys
import threading
from collections.abc import Mapping, Sequence
from dataclasses import dataclass
from pathlib import Path
from types import CodeType
from typing import cast

from faults import calls
from harness.conditions import NORMAL
from harness.fronts import with_package
from harness.serving import Ended

SECONDS = 60
MOST_ERRORS, MOST_TRIED, MOST_DONE, MOST_TEXT = 4, 1 << 17, 1 << 20, 2048
MOST_LANES, MOST_ONLY = 64, 64
AT_REST, ARMED, FAILED = 0, 1, 2
# A `struct lane` of sites.h: the state, the last key, how many failed, and the last place. Behind all lanes: parts, part, and sites alone.
LANE, HEAD = struct.Struct(f"=IIQQ{MOST_TEXT}s"), struct.Struct(f"=II{MOST_ONLY}Q")


class Sweep:
    """The file that the tests share with processes: which sites may fail, and which of them were tried. If the file is there already, those
    that were tried stay tried.
    """

    def __init__(self, path: Path, errors: Mapping[str, Sequence[int]], part: int = 0, parts: int = 1, only: Sequence[int] = ()) -> None:
        self.path, rows = path, len(calls())
        head = LANE.size * MOST_LANES
        errors_at = head + HEAD.size
        done_at = errors_at + rows * MOST_ERRORS * 4 + MOST_TRIED * 8
        size = done_at + MOST_DONE * 8
        with open(path, "a+b") as file:
            # The addresses of places that are done are those of one process and its copies.
            file.truncate(min(done_at, os.fstat(file.fileno()).st_size))
            file.truncate(size)
            self.room = mmap.mmap(file.fileno(), size)
        self.room[:head] = bytes(head)
        HEAD.pack_into(self.room, head, parts, part, *only, *[0] * (MOST_ONLY - len(only)))
        for place, call in enumerate(calls()):
            some = errors.get(call, ())
            struct.pack_into(f"={len(some)}i", self.room, errors_at + place * MOST_ERRORS * 4, *some)

    def lane(self, number: int = 0) -> Lane:
        return Lane(self.room, number)


@dataclass(frozen=True)
class Lane:
    """The faults of one process after the other. Lanes of one sweep share which sites were tried."""

    room: mmap.mmap
    number: int

    def arm(self) -> None:
        """The next call fails whose site and error weren't tried before."""
        self._set(ARMED)

    def disarm(self) -> bool:
        """Nothing fails any more. Whether something has since it was armed."""
        state, *_ = self._now()
        self._set(AT_REST)
        return state == FAILED

    def count(self) -> int:
        """How many calls have failed."""
        return self._now()[3]

    def last(self) -> str:
        """The site that failed last, with its key, in words."""
        _, _, key, _, text = self._now()
        first, *frames = text.split(b"\0")[0].decode(errors="replace").split("\n")
        return f"site {key:x}: {first}\n" + "\n".join(f"    {told(frame)}" for frame in frames)

    def _now(self) -> tuple[int, int, int, int, bytes]:
        return cast("tuple[int, int, int, int, bytes]", LANE.unpack_from(self.room, LANE.size * self.number))

    def _set(self, state: int) -> None:
        struct.pack_into("=I", self.room, LANE.size * self.number, state)


def told(frame: str) -> str:
    """A frame in words: file, line and function. The library gives the function's first line and the instruction."""
    found = re.fullmatch(r"(begun by )?(.+) (\S+) (\d+) (-?\d+)", frame)
    if not found:
        return frame
    before, file, name, first, instruction = found[1] or "", found[2], found[3], int(found[4]), int(found[5])
    return f"{before}{file}:{line_of(file, name, first, instruction)} {name}"


def line_of(file: str, name: str, first: int, instruction: int) -> int:
    """The line of an instruction of a function."""
    try:
        code = compile(Path(file).read_text(), file, "exec")
    except (OSError, ValueError):
        return first
    found = [code]
    for one in found:
        found += [part for part in one.co_consts if isinstance(part, CodeType)]
        if (one.co_name, one.co_firstlineno) == (name, first):
            return next((line for start, end, line in one.co_lines() if start <= instruction < end and line), first)
    return first


class Copy:
    """A copy of a process at its function `main`, with its output in a pipe: as much of a Popen as the tests need."""

    def __init__(self, nursery: Nursery, pid: int, descriptor: int, output: int) -> None:
        self.nursery, self.pid, self.descriptor = nursery, pid, descriptor
        self.stdout = open(output, "rb")
        self.returncode: int | None = None

    def poll(self) -> int | None:
        return self._ended(0)

    def _ended(self, seconds: float) -> int | None:
        """Its status, if it ends within so many seconds."""
        if self.returncode is None and select.select([self.descriptor], [], [], seconds)[0]:
            os.close(self.descriptor)
            self.returncode = os.waitstatus_to_exitcode(self.nursery.ask(f"end {self.pid}"))
        return self.returncode

    def wait(self, timeout: float = SECONDS) -> int:
        if (status := self._ended(timeout)) is None:
            raise subprocess.TimeoutExpired(str(self.pid), timeout)
        return status

    def communicate(self, timeout: float = SECONDS) -> tuple[bytes, None]:
        """Waits for its end, and returns the rest of its output. That is less than a pipe holds."""
        self.wait(timeout)
        os.set_blocking(self.stdout.fileno(), False)
        rest = self.stdout.read() or b""
        self.stdout.close()
        return rest, None

    def send_signal(self, number: int) -> None:
        if self.poll() is None:
            os.kill(self.pid, number)

    def kill(self) -> None:
        self.send_signal(signal.SIGKILL)


class Nursery:
    """A process that has done all its imports, and of which copies go on, each in a lane of the sweep. Any thread may use it."""

    def __init__(self, library: Path, module: str, words: Sequence[str], sweep: Sweep) -> None:
        self.socket, its = socket.socketpair(socket.AF_UNIX, socket.SOCK_SEQPACKET)
        self.socket.settimeout(SECONDS)
        self.lock = threading.RLock()
        conditions = NORMAL.with_library(
            library, FAULT_IN=module, FAULT_FROM="", FAULT_SITES=str(sweep.path), FAULT_COPIES=str(its.fileno()), PYTHONMALLOC="malloc"
        )
        self.process = subprocess.Popen(
            [sys.executable, "-P", "-m", module, *words],
            stdin=subprocess.DEVNULL,
            stdout=subprocess.DEVNULL,
            env=with_package(conditions.variables()),
            pass_fds=[its.fileno()],
        )
        its.close()

    def ask(self, message: str, descriptors: Sequence[int] = ()) -> int:
        """The answer to a message. If the process is gone, Ended is raised."""
        rights = [(socket.SOL_SOCKET, socket.SCM_RIGHTS, array.array("i", descriptors))] if descriptors else []
        with self.lock:
            try:
                self.socket.sendmsg([message.encode()], rights)
                answer = self.socket.recv(4)
            except TimeoutError:
                # An answer that comes later would be taken for that of the next message.
                self.socket.close()
                raise Ended("the process that makes copies doesn't answer") from None
        if not answer:
            raise Ended("no copies can be made any more")
        return int.from_bytes(answer, sys.byteorder, signed=True)

    def begin(self, lane: Lane, folder: Path, errors: int, **others: int) -> Copy:
        """A copy that goes on in this folder, with its messages in this file. Of `others` each has the number behind its first letter."""
        reader, writer = os.pipe()
        given = {1: writer, 2: errors, **{int(name[1:]): descriptor for name, descriptor in others.items()}}
        try:
            # Nobody else may ask meanwhile: then the status of a copy is taken, and its number is free.
            with self.lock:
                pid = self.ask(f"begin {lane.number} {' '.join(map(str, given))}\n{folder}", list(given.values()))
                descriptor = os.pidfd_open(pid)
        finally:
            os.close(writer)
        return Copy(self, pid, descriptor, reader)

    def end(self) -> None:
        self.socket.close()
        self.process.wait(SECONDS)
