"""Limits connections before a request is read:

- how many there may be;
- how long the head of the first request may take;
- how many requests may wait behind the one that is answered;
- how long a reader may take nothing.
"""
import asyncio
import collections
from collections.abc import Callable
from typing import Final, cast

# Of all addresses, and of one. Behind a proxy all connections are those of the proxy.
MOST_CONNECTIONS, MOST_OF_ADDRESS = 1_024, 128
# So many seconds a connection has to send the head of its first request.
HEAD_SECONDS: Final = 10.0
# A reader that takes nothing for so many seconds loses its connection.
TAKE_SECONDS: Final = 20.0
# So many requests may wait on one connection. It is looked at once in so many bytes.
MOST_AHEAD: Final = 64
_PIECE: Final = 2_048
_END: Final = b"\r\n\r\n"


class Doors:
    """Makes a protocol for each connection, and knows those that are there."""

    def __init__(self, make: Callable[[], asyncio.Protocol], most_of_address: int = MOST_OF_ADDRESS) -> None:
        self.make, self.most_of_address, self.head_seconds, self.take_seconds = make, most_of_address, HEAD_SECONDS, TAKE_SECONDS
        self.inside: collections.Counter[str] = collections.Counter()

    def __call__(self) -> "Door":
        """For asyncio."""
        return Door(self)

    def has_room(self, address: str) -> bool:
        """Whether one more may come."""
        return self.inside.total() < MOST_CONNECTIONS and self.inside[address] < self.most_of_address

    def left(self, address: str) -> None:
        """A connection of this address has ended."""
        self.inside[address] -= 1
        self.inside += collections.Counter()


class Door(asyncio.Protocol):
    """One connection. All that it brings goes to the protocol behind it."""

    def __init__(self, doors: Doors) -> None:
        self._doors, self._behind = doors, doors.make()
        self._address: str | None = None
        self._head = b""
        self._late: asyncio.TimerHandle | None = None
        self._stuck: asyncio.TimerHandle | None = None
        self._transport: asyncio.Transport | None = None

    def connection_made(self, transport: asyncio.BaseTransport) -> None:
        """For asyncio. If there is no room, the connection ends."""
        address = str((transport.get_extra_info("peername") or ("",))[0])
        whole = cast(asyncio.Transport, transport)
        if not self._doors.has_room(address):
            whole.abort()
            return
        self._address, self._transport = address, whole
        # So each answer that isn't taken at once is known by `pause_writing`.
        whole.set_write_buffer_limits(high=0)
        self._doors.inside[address] += 1
        self._late = asyncio.get_running_loop().call_later(self._doors.head_seconds, whole.abort)
        self._behind.connection_made(transport)

    def data_received(self, data: bytes) -> None:
        """For asyncio."""
        if self._address is None:
            return
        if self._late:
            self._head = self._head[-len(_END) :] + data
            if _END in self._head:
                self._late.cancel()
                self._late, self._head = None, b""
        for place in range(0, len(data), _PIECE):
            self._behind.data_received(data[place : place + _PIECE])
            if self._waiting() > MOST_AHEAD and self._transport:
                self._transport.abort()
                return

    def _waiting(self) -> int:
        """How many requests wait: aiohttp has a list of them, which has no limit and no public name."""
        return len(getattr(self._behind, "_messages"))

    def eof_received(self) -> bool | None:
        """For asyncio."""
        return self._behind.eof_received() if self._address is not None else None

    def connection_lost(self, fault: Exception | None) -> None:
        """For asyncio."""
        if self._address is None:
            return
        for timer in (self._late, self._stuck):
            if timer:
                timer.cancel()
        self._doors.left(self._address)
        self._behind.connection_lost(fault)

    def pause_writing(self) -> None:
        """For asyncio."""
        if self._address is not None and self._transport:
            self._stuck = asyncio.get_running_loop().call_later(self._doors.take_seconds, self._transport.abort)
            self._behind.pause_writing()

    def resume_writing(self) -> None:
        """For asyncio."""
        if self._address is not None:
            if self._stuck:
                self._stuck.cancel()
            self._behind.resume_writing()
