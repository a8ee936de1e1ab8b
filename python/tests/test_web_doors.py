"""Connections that want too much: requests without end, readers that take nothing, bodies that are packed, and the memory that all that takes."""
from __future__ import annotations

import asyncio
import gzip
import logging
import pathlib
import resource
import socket
from collections.abc import AsyncIterator
from contextlib import asynccontextmanager, suppress

import pytest

from hpb.web import doors, server
from hpb.web.api import OPENAPI as OPENAPI_DOCUMENT
from hpb.web.notes import Notes
from hpb.web.server import serve
from web_front import Front
from web_site import SECONDS, config_of, run

# The most bytes of a connection that the system holds until they are sent.
MOST_OF_SYSTEM = int(pathlib.Path("/proc/sys/net/ipv4/tcp_wmem").read_text().split()[2])
OPENAPI = b"GET /v1/openapi.json HTTP/1.1\r\nHost: localhost\r\n\r\n"


@asynccontextmanager
async def served() -> AsyncIterator[tuple[str, int]]:
    """The address of a site that is served in this process. Its front is away."""
    until, addresses = asyncio.Event(), asyncio.Queue[str]()
    task = asyncio.create_task(serve(config_of(Front()), Notes(logging.Logger("site")), addresses.put_nowait, until))
    host, _, port = (await addresses.get()).removeprefix("http://").removesuffix("/").rpartition(":")
    try:
        yield host, int(port)
    finally:
        until.set()
        await task


async def ended(reader: asyncio.StreamReader) -> bytes:
    """All that came until the connection ended."""
    found = b""
    try:
        while part := await reader.read(65_536):
            found += part
    except ConnectionError:
        pass
    return found


async def sent(writer: asyncio.StreamWriter, data: bytes) -> None:
    """Sends data, as far as the site takes it."""
    try:
        writer.write(data)
        await writer.drain()
    except ConnectionError:
        pass


async def answers(host: str, port: int) -> bool:
    """Whether a new connection is answered."""
    reader, writer = await asyncio.open_connection(host, port)
    writer.write(OPENAPI)
    found = await reader.readuntil(b"\r\n")
    writer.close()
    return found == b"HTTP/1.1 200 OK\r\n"


def test_requests_that_come_faster_than_answers_end_the_connection() -> None:
    async def look() -> None:
        async with served() as (host, port):
            reader, writer = await asyncio.open_connection(host, port)
            before = resource.getrusage(resource.RUSAGE_SELF).ru_maxrss
            await sent(writer, b"GET / HTTP/1.1\r\nHost: localhost\r\n\r\n" * 100_000)
            found = await ended(reader)
            assert found.count(b"HTTP/1.1 ") < 1_000, "it isn't answered for ever"
            assert resource.getrusage(resource.RUSAGE_SELF).ru_maxrss - before < 65_536, "in KiB: a request that waits takes more than a kibibyte"
            assert await answers(host, port)

    run(look)


def test_a_few_requests_ahead_are_answered() -> None:
    async def look() -> None:
        async with served() as (host, port):
            reader, writer = await asyncio.open_connection(host, port)
            await sent(writer, OPENAPI * 9 + OPENAPI.replace(b"Host", b"Connection: close\r\nHost"))
            assert (await ended(reader)).count(b"HTTP/1.1 200 OK") == 10

    run(look)


@pytest.mark.slow
def test_a_reader_that_takes_nothing_loses_its_connection(monkeypatch: pytest.MonkeyPatch) -> None:
    monkeypatch.setattr(doors, "TAKE_SECONDS", 0.3)

    async def look() -> None:
        async with served() as (host, port):
            lazy = socket.socket()
            lazy.setsockopt(socket.SOL_SOCKET, socket.SO_RCVBUF, 2_048)
            lazy.setblocking(False)
            loop = asyncio.get_running_loop()
            await loop.sock_connect(lazy, (host, port))
            # More than the buffers of the system take, and fewer requests behind that than may wait.
            with suppress(ConnectionError):
                for _ in range(MOST_OF_SYSTEM // len(OPENAPI_DOCUMENT) + 40):
                    await loop.sock_sendall(lazy, OPENAPI)
                    await asyncio.sleep(0.002)
                async with asyncio.timeout(SECONDS):
                    while lazy.getsockopt(socket.SOL_SOCKET, socket.SO_ERROR) == 0:
                        await asyncio.sleep(0.05)
            lazy.close()
            assert await answers(host, port)

    run(look)


def test_a_reader_that_is_slow_but_takes_something_gets_all(monkeypatch: pytest.MonkeyPatch) -> None:
    monkeypatch.setattr(doors, "TAKE_SECONDS", 5.0)

    async def look() -> None:
        async with served() as (host, port):
            reader, writer = await asyncio.open_connection(host, port, limit=2_048)
            await sent(writer, OPENAPI * 19 + OPENAPI.replace(b"Host", b"Connection: close\r\nHost"))
            found = b""
            while part := await reader.read(20_000):
                found += part
                await asyncio.sleep(0.001)
            assert found.count(b"HTTP/1.1 200 OK") == 20

    run(look)


def test_what_is_packed_isnt_unpacked_and_no_connection_changes_its_protocol() -> None:
    packed = gzip.compress(b" " * 50_000_000)
    assert len(packed) < 65_536
    host_ = b"Host: localhost\r\n"
    rows = {
        "a packed body": b"POST /v1/commands HTTP/1.1\r\n" + host_ + b"Content-Encoding: gzip\r\nContent-Length: %d\r\n\r\n" % len(packed) + packed,
        "a websocket": b"GET /v1/events HTTP/1.1\r\n" + host_ + b"Connection: Upgrade\r\nUpgrade: websocket\r\nSec-WebSocket-Key: AAAAAAAAAAAAAAAAAAAAAA==\r\nSec-WebSocket-Version: 13\r\n\r\n",
        "a tunnel": b"CONNECT localhost:22 HTTP/1.1\r\n" + host_ + b"\r\n",
    }

    async def look() -> None:
        async with served() as (host, port):
            before = resource.getrusage(resource.RUSAGE_SELF).ru_maxrss
            for what, data in rows.items():
                reader, writer = await asyncio.open_connection(host, port)
                await sent(writer, data + b"x" * 1_000_000)
                found = await ended(reader)
                statuses = [line.split()[1] for line in found.split(b"\r\n") if line.startswith(b"HTTP/1.")]
                assert len(statuses) <= 1 and all(status in (b"400", b"405", b"415") for status in statuses), (what, found)
            assert resource.getrusage(resource.RUSAGE_SELF).ru_maxrss - before < 40_000

    run(look)


def test_there_are_descriptors_for_all_connections() -> None:
    soft, hard = resource.getrlimit(resource.RLIMIT_NOFILE)
    try:
        resource.setrlimit(resource.RLIMIT_NOFILE, (256, hard))
        server.allow_descriptors()
        assert resource.getrlimit(resource.RLIMIT_NOFILE)[0] >= min(2 * doors.MOST_CONNECTIONS, hard)
    finally:
        resource.setrlimit(resource.RLIMIT_NOFILE, (soft, hard))
