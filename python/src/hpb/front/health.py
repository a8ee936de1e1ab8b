"""A small server of HTTP for the machines that look after a front: its metrics, and whether it lives and is ready (docs/FRONT.md).

It is served by the front's own loop: if the loop hangs, there is no answer, and that is the answer.
"""
import asyncio
import contextlib
import socket
from collections.abc import Callable

# A request has at most so many bytes, has to be there in so many seconds, and its answer has to be read in as many.
MOST_BYTES, SECONDS = 8_192, 5.0
# So many connections are served at a time. One more ends at once.
MOST_CONNECTIONS = 16
TEXT = "text/plain; charset=utf-8"
WORDS = {200: "OK", 400: "Bad Request", 404: "Not Found", 405: "Method Not Allowed", 503: "Service Unavailable"}

# What a page answers: its status, its type and its bytes. It gets the types that the asker accepts.
Page = Callable[[str], tuple[int, str, bytes]]


class Health:
    """Answers GET and HEAD of a few pages, one request a connection."""

    def __init__(self, listener: socket.socket, pages: dict[str, Page]) -> None:
        self.listener, self.pages, self.connections = listener, pages, 0

    async def serve(self) -> None:
        """Serves until it is cancelled."""
        async with await asyncio.start_server(self.take, sock=self.listener, limit=MOST_BYTES) as server:
            await server.serve_forever()

    async def take(self, reader: asyncio.StreamReader, writer: asyncio.StreamWriter) -> None:
        """Serves one connection. Whatever is wrong with it, it ends, and nobody else notices."""
        if self.connections >= MOST_CONNECTIONS:
            writer.transport.abort()
            return
        self.connections += 1
        try:
            with contextlib.suppress(OSError, asyncio.TimeoutError):
                await asyncio.wait_for(self.answer(reader, writer), SECONDS)
        finally:
            self.connections -= 1
            writer.transport.abort()

    async def answer(self, reader: asyncio.StreamReader, writer: asyncio.StreamWriter) -> None:
        try:
            head = (await reader.readuntil(b"\r\n\r\n")).decode("latin-1")
        except asyncio.LimitOverrunError:
            head = ""
        except asyncio.IncompleteReadError:
            return
        first, *fields = head.split("\r\n")
        writer.write(written(*self.answered(first, fields)))
        await writer.drain()
        writer.close()
        await writer.wait_closed()

    def answered(self, first: str, fields: list[str]) -> tuple[int, str, bytes, bool]:
        """The status, the type and the bytes for a request, and whether the bytes are wanted."""
        words = first.split(" ")
        if len(words) != 3 or not words[2].startswith("HTTP/1."):
            return *said(400, "this is no request of HTTP/1"), True
        method, path = words[0], words[1].partition("?")[0]
        if method not in ("GET", "HEAD"):
            return *said(405, "GET and HEAD alone are answered"), True
        accept = next((field.partition(":")[2] for field in fields if field.lower().startswith("accept:")), "")
        page = self.pages.get(path)
        return *(page(accept) if page else said(404, f"there are {', '.join(self.pages)}")), method == "GET"


def said(status: int, words: str) -> tuple[int, str, bytes]:
    """A page of one line."""
    return status, TEXT, f"{words}\n".encode()


def written(status: int, kind: str, body: bytes, is_wanted: bool) -> bytes:
    """An answer with its head."""
    allow = "Allow: GET, HEAD\r\n" if status == 405 else ""
    head = f"HTTP/1.1 {status} {WORDS[status]}\r\nContent-Type: {kind}\r\nContent-Length: {len(body)}\r\n{allow}Cache-Control: no-store\r\nConnection: close\r\n\r\n"
    return head.encode() + (body if is_wanted else b"")
