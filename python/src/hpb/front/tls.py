"""TLS of a front's connections: the costly part of it is done by a thread that gives way to bidders (docs/FRONT.md).

A handshake costs a signature. One thread does all handshakes, step by step. Addresses take turns, and the number of handshakes per second
is limited, for each address and for all together. The rest of TLS is cheap, and the event loop does it.
"""
import asyncio
import collections
import contextlib
import contextvars
import os
import queue
import ssl
import time
from _thread import get_native_id
from collections.abc import Callable
from typing import Protocol

from hpb.threads import Thread

# The client's part of a handshake has some hundred bytes, or a few thousand with the data that it may send along.
MOST_HANDSHAKE = 65_536
MOST_READ = 65_536
# So many records of a client may carry nothing to read, as a change of keys does. Each costs as much as a line, and no limit of lines holds
# for it. What comes is decrypted in pieces of so many bytes, so that such records are noticed early.
MOST_SILENT, PIECE = 32, 4_096
# A record's header: its kind, a version of two bytes, and the length of the rest.
HEADER_BYTES, LENGTH_AT = 5, 3
# By so much the thread's priority is lower than that of the others (nice).
NICE = 10
# So many seconds' worth of handshakes may come at once.
AHEAD_SECONDS = 0.25


class Inner(Protocol):
    """Reads and writes in clear: an asyncio.Protocol that also learns why TLS has ended."""

    def connection_made(self, transport: "Tls") -> None: ...
    def connection_lost(self, fault: Exception | None) -> None: ...
    def data_received(self, data: bytes) -> None: ...
    def eof_received(self) -> bool | None: ...
    def pause_writing(self) -> None: ...
    def resume_writing(self) -> None: ...
    def tls_failed(self, why: str) -> None: ...


class Handshakes:
    """The handshakes that wait for their next step, and the thread that does these steps one after the other."""

    def __init__(self, per_second: float, fail: Callable[[str], None]) -> None:
        self.per_second, self.fail = per_second, fail
        self.loop, self.context = asyncio.get_running_loop(), contextvars.copy_context()
        self.waiting: collections.OrderedDict[str, collections.deque[Tls]] = collections.OrderedDict()
        self.at_work, self.next_at = False, 0.0
        self.steps: queue.SimpleQueue[Tls] = queue.SimpleQueue()
        self.thread = Thread(self.keep_working)

    def start(self) -> None:
        """A RuntimeError says that the system has no thread."""
        self.thread.start()

    def add(self, one: "Tls") -> None:
        """Adds a handshake whose next step can be done."""
        self.waiting.setdefault(one.address, collections.deque()).append(one)
        self.go_on()

    def go_on(self) -> None:
        """Hands the thread its next step, if it is free. Addresses take turns."""
        if self.at_work or not self.waiting:
            return
        self.at_work = True
        now = self.loop.time()
        self.next_at = max(self.next_at, now)
        if self.next_at > now + AHEAD_SECONDS:
            self.loop.call_at(self.next_at - AHEAD_SECONDS, self.hand_over)
        else:
            self.hand_over()

    def hand_over(self) -> None:
        while self.waiting:
            one = self.next()
            if one.is_closing():
                continue
            if one.is_first_step():
                self.next_at += 1 / self.per_second
            self.steps.put(one)
            return
        self.at_work = False

    def next(self) -> "Tls":
        address, some = self.waiting.popitem(last=False)
        one = some.popleft()
        if some:
            self.waiting[address] = some
        return one

    def keep_working(self) -> None:
        """Any failure ends the front: without this thread nobody is let in any more."""
        try:
            self.give_way()
            while True:
                one = self.steps.get()
                self.loop.call_soon_threadsafe(self.done, one, one.step(), context=self.context)
        except Exception as fault:
            self.fail(f"a fault in a handshake: {fault!r}")

    def give_way(self) -> None:
        """Other threads come first, as far as the system allows that."""
        try:
            os.setpriority(os.PRIO_PROCESS, get_native_id(), NICE)
        except OSError:
            pass

    def done(self, one: "Tls", outcome: "Outcome") -> None:
        self.at_work = False
        try:
            one.stepped(outcome)
        finally:
            self.go_on()


class Outcome:
    """The result of a step: the handshake is done, needs more from the client, or has failed."""

    def __init__(self, is_up: bool, fault: str = "") -> None:
        self.is_up, self.fault = is_up, fault


class Records:
    """Counts the records of TLS in the bytes that a client sends, which may come in any pieces."""

    def __init__(self) -> None:
        # The header as far as it has come, and how many bytes of the record behind it are still to come.
        self.header, self.left = bytearray(), 0

    def count(self, data: bytes) -> int:
        """How many records end within these bytes."""
        ended = at = 0
        while at < len(data):
            if self.left:
                taken = min(self.left, len(data) - at)
                self.left -= taken
            else:
                taken = min(HEADER_BYTES - len(self.header), len(data) - at)
                self.header += data[at : at + taken]
                if len(self.header) < HEADER_BYTES:
                    break
                self.left = int.from_bytes(self.header[LENGTH_AT:], "big")
                self.header.clear()
            at += taken
            ended += not self.left
        return ended


class Tls(asyncio.Protocol):
    """TLS between a connection's transport and the protocol that reads and writes in clear. For that protocol, it is the transport."""

    def __init__(self, inner: Inner, context: ssl.SSLContext, handshakes: Handshakes, address: str) -> None:
        self.inner, self.handshakes, self.address = inner, handshakes, address
        self.incoming, self.outgoing = ssl.MemoryBIO(), ssl.MemoryBIO()
        self.object = context.wrap_bio(self.incoming, self.outgoing, server_side=True)
        self.transport: asyncio.Transport | None = None
        # The bytes that came during the handshake and aren't decrypted yet; and whether a step of it is being done.
        self.raw, self.is_busy, self.is_up, self.steps = bytearray(), False, False, 0
        # How many records had nothing to read, since the handshake.
        self.records, self.silent = Records(), 0
        self.began = time.monotonic()

    # Calls of the transport.

    def connection_made(self, transport: asyncio.BaseTransport) -> None:
        assert isinstance(transport, asyncio.Transport)
        self.transport = transport

    def connection_lost(self, fault: Exception | None) -> None:
        self.inner.connection_lost(fault)

    def pause_writing(self) -> None:
        self.inner.pause_writing()

    def resume_writing(self) -> None:
        self.inner.resume_writing()

    def data_received(self, data: bytes) -> None:
        if self.is_up:
            for at in range(0, len(data), PIECE):
                self.take_piece(data[at : at + PIECE])
            return
        self.records.count(data)
        self.raw += data
        if len(self.raw) > MOST_HANDSHAKE:
            self.end_badly("its handshake is too long")
        elif not self.is_busy:
            self.begin_step()

    def eof_received(self) -> bool:
        if self.is_up:
            self.inner.eof_received()
        self.close()
        return False

    # The handshake.

    def begin_step(self) -> None:
        self.is_busy = True
        self.incoming.write(self.raw)
        self.raw.clear()
        self.handshakes.add(self)

    def is_first_step(self) -> bool:
        """The costly step."""
        return self.steps == 0

    def step(self) -> Outcome:
        """Runs in the thread of handshakes. Nothing else uses the handshake meanwhile."""
        try:
            self.object.do_handshake()
        except ssl.SSLWantReadError:
            return Outcome(False)
        except (OSError, ValueError) as fault:
            return Outcome(False, getattr(fault, "reason", None) or str(fault))
        return Outcome(True)

    def stepped(self, outcome: Outcome) -> None:
        self.is_busy, self.steps = False, self.steps + 1
        if not self.transport or self.transport.is_closing():
            return
        self.flush()
        if outcome.fault:
            self.end_badly(outcome.fault)
        elif outcome.is_up:
            self.is_up = True
            self.incoming.write(self.raw)
            self.raw.clear()
            self.inner.connection_made(self)
            self.read()
        elif self.raw:
            self.begin_step()

    def end_badly(self, why: str) -> None:
        self.inner.tls_failed(why)
        if self.transport:
            # TLS has an alert of a few bytes for the client: it is sent at once, or not at all.
            self.transport.close()

    # In clear.

    def take_piece(self, data: bytes) -> None:
        if self.is_closing():
            return
        self.incoming.write(data)
        self.silent += self.records.count(data)
        self.read()
        if self.silent > MOST_SILENT:
            self.end_badly("too many records with nothing to read")

    def read(self) -> None:
        """Hands on what has come."""
        try:
            while self.transport and not self.transport.is_closing() and (part := self.object.read(MOST_READ)):
                # Those of the handshake's last bytes weren't counted.
                self.silent = max(0, self.silent - 1)
                self.inner.data_received(part)
        except ssl.SSLWantReadError:
            pass
        except ssl.SSLZeroReturnError:
            self.eof_received()
        except ssl.SSLError as fault:
            self.end_badly(fault.reason or str(fault))
        self.flush()

    def flush(self) -> None:
        if self.transport and self.outgoing.pending and not self.transport.is_closing():
            self.transport.write(self.outgoing.read())

    # Calls of the protocol in clear.

    def write(self, data: bytes) -> None:
        try:
            self.object.write(data)
        except ssl.SSLError as fault:
            self.end_badly(fault.reason or str(fault))
        self.flush()

    def is_closing(self) -> bool:
        return not self.transport or self.transport.is_closing()

    def pause_reading(self) -> None:
        if self.transport and not self.transport.is_closing():
            self.transport.pause_reading()

    def resume_reading(self) -> None:
        if self.transport and not self.transport.is_closing():
            self.transport.resume_reading()

    def close(self) -> None:
        """Tells the client that TLS ends, and ends it."""
        if not self.transport or self.transport.is_closing():
            return
        if self.is_up:
            with contextlib.suppress(ssl.SSLError):
                self.object.unwrap()
            self.flush()
        self.transport.close()

    def abort(self) -> None:
        if self.transport:
            self.transport.abort()
