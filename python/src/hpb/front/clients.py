"""The connections of a front: its listener, and what each connection reads and writes (docs/FRONT.md)."""
import asyncio
import collections
import ipaddress
import itertools
import socket
import time
from collections.abc import Callable
from typing import Protocol

from hpb.front.core.effects import Abort, Answer, End, Take, Wait
from hpb.front.core.events import Came, Event, Gone, Line, LinesEnded, Opened, Stuffed, TooLong, Waited
from hpb.front.limits import BURST_SECONDS
from hpb.front.shell import Shell
from hpb.front.terms import Terms
from hpb.front.tls import Handshakes, Tls

NO_DESCRIPTORS_PAUSE = 0.1
# A connection that is ending has so many seconds to read its last line.
LEAVE_SECONDS = 2
# After so many silent seconds the system checks that the other end is still there: how often, in seconds, and how many times.
KEEPALIVE = {socket.TCP_KEEPIDLE: 30, socket.TCP_KEEPINTVL: 10, socket.TCP_KEEPCNT: 3}
NETWORK_BITS = 64
# More than any limits allow.
MOST_CONNECTIONS = 1_000_000_000
# So many addresses are remembered.
MOST_ADDRESSES = 10_000
# The reason for refusing a connection before its first line: its address begins too many TLS handshakes.
HANDSHAKES = "handshakes"

Post = Callable[[Event], None]


class Carrier(Protocol):
    """The transport of a connection, or TLS over one."""

    def write(self, data: bytes) -> None: ...
    def is_closing(self) -> bool: ...
    def pause_reading(self) -> None: ...
    def resume_reading(self) -> None: ...
    def close(self) -> None: ...
    def abort(self) -> None: ...


class Connection(asyncio.Protocol):
    """One connection. Each time the front allows it, it hands in one line; it reads no more until then."""

    def __init__(self, number: int, post: Post, forget: Callable[[int], None], is_tls: bool) -> None:
        self.number, self.post, self.forget, self.is_tls = number, post, forget, is_tls
        # The carrier, once it can be written to; and the transport below it, which can be aborted before.
        self.transport: Carrier | None = None
        self.below: asyncio.BaseTransport | None = None
        # The bytes that aren't handed in yet; and the most bytes of the next line, 0 as long as none is allowed.
        self.rest, self.most = bytearray(), 0
        self.has_ended = self.is_full = self.is_leaving = self.is_waiting = False
        self.why = ""

    # Calls of the carrier.

    def connection_made(self, transport: Carrier) -> None:  # type: ignore[override]
        self.transport = transport
        self.post(Opened(self.number))
        self.pump()

    def connection_lost(self, fault: Exception | None) -> None:
        self.forget(self.number)
        self.post(Gone(self.number, self.why or ("lost" if fault else "ended")))

    def tls_failed(self, why: str) -> None:
        self.why = f"TLS: {why}"

    def pause_writing(self) -> None:
        self.is_full = True
        self.post(Stuffed(self.number, True))
        self.pump()

    def resume_writing(self) -> None:
        self.is_full = False
        self.post(Stuffed(self.number, False))
        self.pump()

    def data_received(self, data: bytes) -> None:
        if not self.is_leaving:
            self.rest += data
            self.pump()

    def eof_received(self) -> bool:
        self.has_ended = True
        self.pump()
        return not self.is_tls

    # Calls of the front.

    def take(self, most: int) -> None:
        self.most = most
        self.pump()

    def write(self, line: bytes) -> None:
        if self.transport and not self.transport.is_closing():
            self.transport.write(line + b"\n")

    def end(self) -> None:
        self.is_leaving = True
        if self.transport:
            self.transport.close()
            asyncio.get_running_loop().call_later(LEAVE_SECONDS, self.transport.abort)

    def abort(self) -> None:
        self.is_leaving = True
        carrier = self.transport or self.below
        if carrier:
            carrier.abort()  # type: ignore[union-attr]

    def pump(self) -> None:
        """Hands in the next line, if the front allows one and it has come. Nothing more is read as long as a line has to wait."""
        if self.most and not self.is_full and (self.rest or self.has_ended) and (event := self.next(self.most)):
            self.most = 0
            self.post(event)
        is_to_wait = self.is_full or (not self.most and bool(self.rest))
        if is_to_wait is not self.is_waiting and self.transport and not self.transport.is_closing() and not self.has_ended:
            self.is_waiting = is_to_wait
            if is_to_wait:
                self.transport.pause_reading()
            else:
                self.transport.resume_reading()

    def next(self, most: int) -> Event | None:
        """The event for the next line, or for the end of lines."""
        end = self.rest.find(b"\n", 0, most + 1)
        if end >= 0:
            line = bytes(self.rest[:end])
            del self.rest[: end + 1]
            return Line(self.number, line)
        beginning = bytes(self.rest[:most])
        if len(self.rest) > most:
            self.rest.clear()
            return TooLong(self.number, beginning)
        return LinesEnded(self.number, beginning) if self.has_ended else None


class Rates:
    """How many handshakes each address may still begin."""

    def __init__(self, per_second: float) -> None:
        self.per_second = per_second
        self.credits: collections.OrderedDict[str, tuple[float, float]] = collections.OrderedDict()

    def may(self, address: str, now: float) -> bool:
        most = BURST_SECONDS * self.per_second
        credit, seen = self.credits.pop(address, (most, now))
        credit = min(credit + (now - seen) * self.per_second, most)
        is_right = credit >= 1
        self.credits[address] = (credit - is_right, now)
        if len(self.credits) > MOST_ADDRESSES:
            self.credits.popitem(last=False)
        return is_right


class Clients:
    """Takes connections, and carries out the effects on them. `terms` are those in force."""

    def __init__(self, listener: socket.socket, terms: Terms, post: Post, shell: Shell, fail: Callable[[str], None]) -> None:
        self.listener, self.terms, self.post, self.log, self.say = listener, terms, post, shell.log, shell.teller.say
        self.is_tls = terms.certificate is not None
        # So many connections are taken at a time, whatever the limits are: the system gives no descriptors for more.
        self.most = MOST_CONNECTIONS
        self.connections: dict[int, Connection] = {}
        self.numbers = itertools.count(1)
        self.rates = Rates(terms.limits.handshakes_per_second)
        self.handshakes = Handshakes(terms.limits.all_handshakes_per_second, fail)

    def change(self, terms: Terms) -> None:
        """Puts other terms in force."""
        self.terms = terms
        self.rates.per_second = terms.limits.handshakes_per_second
        self.handshakes.per_second = terms.limits.all_handshakes_per_second

    # Effects of the front.

    def take(self, effect: Take) -> None:
        if connection := self.connections.get(effect.connection):
            connection.take(effect.most_bytes)

    def wait(self, effect: Wait) -> None:
        asyncio.get_running_loop().call_later(effect.seconds, self.post, Waited(effect.connection))

    def answer(self, effect: Answer) -> None:
        if connection := self.connections.get(effect.connection):
            connection.write(effect.line)

    def end(self, effect: End) -> None:
        if connection := self.connections.get(effect.connection):
            connection.end()

    def abort(self, effect: Abort) -> None:
        if connection := self.connections.get(effect.connection):
            connection.abort()

    # New connections.

    def start(self) -> None:
        """Call it before the first connection is taken. A RuntimeError says that the system has no thread."""
        if self.is_tls:
            self.handshakes.start()

    async def admit(self) -> None:
        """Takes connections until it is cancelled."""
        loop, told = asyncio.get_running_loop(), False
        while True:
            while len(self.connections) >= self.most:
                await asyncio.sleep(NO_DESCRIPTORS_PAUSE)
            try:
                taken, address = await loop.sock_accept(self.listener)
            except OSError as fault:
                if not told:
                    self.say(f"a connection can't be taken: {fault.strerror}")
                told = True
                await asyncio.sleep(NO_DESCRIPTORS_PAUSE)
                continue
            told = False
            await self.let_in(taken, *address[:2])
            # Connections that are in have their turn before the next one is taken.
            await asyncio.sleep(0)

    async def let_in(self, taken: socket.socket, address: str, port: int) -> None:
        peer, network = f"{address} {port}", network_of(address)
        if self.is_tls and not self.rates.may(network, time.monotonic()):
            self.log.write("connection", peer=peer, outcome="refused", why=HANDSHAKES)
            taken.close()
            return
        number = next(self.numbers)
        connection = Connection(number, self.post, self.forget, self.is_tls)
        self.connections[number] = connection
        self.post(Came(number, peer, network))
        try:
            set_up(taken)
            protocol = self.over_tls(connection, network)
            connection.below, _ = await asyncio.get_running_loop().connect_accepted_socket(lambda: protocol, taken)
            self.log.write("connection", peer=peer, outcome="taken")
        except OSError as fault:
            self.log.write("connection", peer=peer, outcome="lost", why=fault.strerror)
            taken.close()
            self.forget(number)
            self.post(Gone(number, "lost"))

    def over_tls(self, connection: Connection, network: str) -> asyncio.Protocol:
        """The connection, or TLS before it."""
        certificate = self.terms.certificate
        return Tls(connection, certificate.context, self.handshakes, network) if self.is_tls and certificate else connection

    def forget(self, number: int) -> None:
        self.connections.pop(number, None)


def network_of(address: str) -> str:
    """The network of an address; its connections count as one address. For IPv6 it is the network of 64 bits, since one machine may use any
    address of it. An IPv4 address inside an IPv6 address counts as itself."""
    found = ipaddress.ip_address(address)
    if isinstance(found, ipaddress.IPv4Address):
        return str(found)
    if found.ipv4_mapped:
        return str(found.ipv4_mapped)
    return str(ipaddress.ip_network((int(found), NETWORK_BITS), strict=False))


def set_up(taken: socket.socket) -> None:
    taken.setblocking(False)
    taken.setsockopt(socket.IPPROTO_TCP, socket.TCP_NODELAY, 1)
    taken.setsockopt(socket.SOL_SOCKET, socket.SO_KEEPALIVE, 1)
    for option, value in KEEPALIVE.items():
        taken.setsockopt(socket.IPPROTO_TCP, option, value)
