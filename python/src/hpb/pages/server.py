"""Serves an auction's page to the browsers that may see it, with its events, and limits each viewer (docs/BOARD.md)."""
import collections
import contextlib
import os
import select
import socket
import socketserver
import ssl
import sys
import time
from _thread import allocate_lock
from collections.abc import Callable, Iterable, Mapping
from types import TracebackType
from typing import Any, Final

from hpb.pages.page import HEADERS, ICONS, PICTURE, PICTURE_POLICY
from hpb.pages.requests import REQUEST_SECONDS, Bad, Request, is_own, read_request
from hpb.pages.walls import MOST_VIEWERS, Guests, Wall
from hpb.streams import STANDARD_ERROR
from hpb.threads import Places, Thread

MOST_CONNECTIONS: Final = 256
# If a viewer doesn't take an event for so long, the connection ends, and the page makes another one.
_VIEWER_SECONDS = 20
_BEAT_SECONDS = 5
# How many bytes of events the system keeps for a viewer that doesn't take them.
_MOST_UNREAD = 65_536
# How long a connection may take to close, when it has to make room.
_ROOM_SECONDS = 0.2
_LOOK_SECONDS = 0.005
_REASONS: Final = {
    200: "OK",
    400: "Bad Request",
    401: "Unauthorized",
    404: "Not Found",
    405: "Method Not Allowed",
    408: "Request Timeout",
    421: "Misdirected Request",
    503: "Service Unavailable",
}
_TEXT = "text/plain; charset=utf-8"
# This makes a browser ask for name and token.
_WHO_ARE_YOU: Final = {"WWW-Authenticate": 'Basic realm="Auction: name and token", charset="UTF-8"'}
# Without this, a proxy that collects output would hold events back.
_EVENT_HEADERS: Final = {**HEADERS, "Content-Type": "text/event-stream; charset=utf-8", "X-Accel-Buffering": "no", "Connection": "close"}

# Called for each request, with the address it came from, the name that signed in, the path, and the status.
Note = Callable[[str, str | None, str | None, int], None]


def _no_note(peer: str, name: str | None, path: str | None, status: int) -> None:
    """This server keeps no notes about requests."""


def _cry(text: str) -> None:
    """On standard error, if that takes it at once: no viewer waits until somebody reads it."""
    with contextlib.suppress(OSError):
        if select.select([], [STANDARD_ERROR], [], 0)[1]:
            os.write(STANDARD_ERROR, f"board: {text}\n".encode(errors="backslashreplace"))


class Viewer(socketserver.BaseRequestHandler):
    """One connection, for one request."""

    server: "Server"
    request: socket.socket

    def handle(self) -> None:
        """For `socketserver`."""
        try:
            self._begin()
            self._answer_or_refuse()
        except OSError:
            pass  # The viewer has gone, or takes nothing.

    def _answer_or_refuse(self) -> None:
        self._path: str | None = None
        try:
            self._answer(read_request(self.request))
        except Bad as bad:
            status = bad.status
            self._note(None, status)
            self._give(status, _TEXT, f"{status} {_REASONS[status]}\n".encode(), _WHO_ARE_YOU if status == 401 else {})

    def _note(self, name: str | None, status: int) -> None:
        self.server.note(" ".join(map(str, self.client_address[:2])), name, self._path, status)

    def _begin(self) -> None:
        if isinstance(self.request, ssl.SSLSocket):
            self.request.settimeout(REQUEST_SECONDS)
            self.request.do_handshake()

    def _answer(self, request: Request) -> None:
        self._path = request.path
        self.server.has_asked(self.request)
        self.request.settimeout(_VIEWER_SECONDS)
        if request.method not in ("GET", "HEAD"):
            raise Bad(405)
        if not is_own(request.one("host"), self.server.names):
            raise Bad(421)
        wall = self.server.guests.wall_of((request.all("authorization") or [""])[0])
        name = request.path.removeprefix("/")
        if name == "events" and request.method == "GET":
            self._follow(wall)
        else:
            kind, data, headers = _found(wall, name)
            self._note(wall.name, 200)
            self._give(200, kind, data, headers, request.method == "GET")

    def _give(self, status: int, kind: str, data: bytes, headers: Mapping[str, str], has_body: bool = True) -> None:
        head = {**HEADERS, "Content-Type": kind, "Content-Length": str(len(data)), "Connection": "close", **headers}
        self._send(_head_of(status, head) + (data if has_body else b""))

    def _send(self, data: bytes) -> None:
        self.request.sendall(data)

    def _follow(self, wall: Wall) -> None:
        with _Taken(self.server.viewers), _Taken(wall.viewers):
            self.request.setsockopt(socket.SOL_SOCKET, socket.SO_SNDBUF, _MOST_UNREAD)
            self._note(wall.name, 200)
            self._send(_head_of(200, _EVENT_HEADERS) + b"retry: 2000\n\n")
            self._send_events(wall)

    def _send_events(self, wall: Wall) -> None:
        _, known, number = wall.now()
        self._send(wall.page.event(None, known))
        while True:
            model, newest, said = wall.next(number, _BEAT_SECONDS)
            if newest == number:
                self._send(b"event: beat\ndata: " + time.strftime("%H:%M:%S").encode() + b"\n\n")
            else:
                self._send(wall.page.event(known, model, said))
            known, number = model, newest


class _Taken:
    """One of a number of places, given back at the end. If none is left, the request is refused."""

    def __init__(self, places: Places) -> None:
        self._places = places

    def __enter__(self) -> None:
        if not self._places.take():
            raise Bad(503)

    def __exit__(self, kind: type[BaseException] | None, fault: BaseException | None, trace: TracebackType | None) -> None:
        self._places.give_back()


def _found(wall: Wall, name: str) -> tuple[str, bytes, Mapping[str, str]]:
    """The contents at a path, their type, and fields of their own."""
    view, model, _ = wall.now()
    if name == "":
        return "text/html; charset=utf-8", wall.page.html(model), {}
    name = ICONS.get(name, name)
    if name in wall.page.assets:
        return *wall.page.assets[name], {}
    picture = wall.page.picture(view) if name == PICTURE else None
    if picture is None:
        raise Bad(404)
    return "image/svg+xml", picture, {"Content-Security-Policy": PICTURE_POLICY}


def _head_of(status: int, fields: Mapping[str, str]) -> bytes:
    lines = [f"HTTP/1.1 {status} {_REASONS[status]}", *(f"{name}: {value}" for name, value in fields.items())]
    return ("\r\n".join(lines) + "\r\n\r\n").encode()


class Server(socketserver.ThreadingTCPServer):
    """A server with a thread for each connection, up to a limit. At the limit, a new connection makes it close an idle one, which
    hasn't asked for anything yet: the oldest of the address that has the most. If there is none, the new connection is closed.
    """

    daemon_threads = allow_reuse_address = True
    block_on_close = False
    request_queue_size = 128

    def __init__(
        self, address: tuple[str, int], names: Iterable[str], guests: Guests, context: ssl.SSLContext | None = None,
        listener: socket.socket | None = None, note: Note = _no_note,
    ) -> None:
        """Listens at an address, or uses a socket that listens already. The page may be asked for by `names`, too."""
        # `look` is called about twice a second.
        self.note = note
        self.look: Callable[[], None] = lambda: None
        self.address_family = listener.family if listener else socket.AF_INET6 if ":" in address[0] else socket.AF_INET
        self.names, self.guests, self._context = {"localhost", *(name.lower() for name in names)}, guests, context
        self._room, self.viewers = Places(MOST_CONNECTIONS), Places(MOST_VIEWERS)
        self._silent: dict[socket.socket, str] = {}
        self._inside: set[socket.socket] = set()
        self._lock = allocate_lock()
        self._is_refused = False
        super().__init__(address, Viewer, bind_and_activate=listener is None)
        if listener:
            self.socket.close()
            self.socket, self.server_address = listener, listener.getsockname()

    def url(self) -> str:
        """The address of the page."""
        host, port = self.socket.getsockname()[:2]
        return f"http{'s' if self._context else ''}://{f'[{host}]' if ':' in host else host}:{port}/"

    def get_request(self) -> tuple[socket.socket, Any]:
        """For `socketserver`."""
        try:
            request, address = super().get_request()
        except BlockingIOError:
            raise  # The caller is gone again.
        except OSError as fault:
            self._wait_after(fault)
            raise
        self._is_refused = False
        if self._context:
            request = self._context.wrap_socket(request, server_side=True, do_handshake_on_connect=False)
        return request, address

    def _wait_after(self, fault: OSError) -> None:
        """The connection still waits to be taken, for example because there are no descriptors left. That is reported once, and
        then tried again.
        """
        if not self._is_refused:
            _cry(f"a connection can't be taken: {fault.strerror or fault}")
        self._is_refused = True
        time.sleep(_ROOM_SECONDS)

    def service_actions(self) -> None:
        """For `socketserver`."""
        self.look()

    def process_request(self, request: Any, address: Any) -> None:
        """For `socketserver`."""
        if not self._room.take() and not (self._end_silent() and self._takes_room()):
            self.shutdown_request(request)
            return
        try:
            self._let_in(request, address[0])
            Thread(lambda: self.process_request_thread(request, address)).start()
        except BaseException:
            # No thread runs for it that would give its place back.
            self._give_back(request)
            raise

    def _let_in(self, request: socket.socket, address: str) -> None:
        """Notes a connection that has asked for nothing yet."""
        self._lock.acquire()
        try:
            self._inside.add(request)
            self._silent[request] = address
        finally:
            self._lock.release()

    def _takes_room(self) -> bool:
        """Waits a moment for a place."""
        end = time.monotonic() + _ROOM_SECONDS
        while not (has_room := self._room.take()) and time.monotonic() < end:
            time.sleep(_LOOK_SECONDS)
        return has_room

    def process_request_thread(self, request: Any, address: Any) -> None:
        """For `socketserver`."""
        try:
            super().process_request_thread(request, address)
        finally:
            self._give_back(request)

    def _give_back(self, request: socket.socket) -> None:
        """Gives a connection's place back, once."""
        self._lock.acquire()
        try:
            self._silent.pop(request, None)
            if request not in self._inside:
                return
            self._inside.discard(request)
        finally:
            self._lock.release()
        self._room.give_back()

    def has_asked(self, request: socket.socket) -> None:
        """A connection has asked for something, so it won't be ended to make room."""
        self._lock.acquire()
        try:
            self._silent.pop(request, None)
        finally:
            self._lock.release()

    def _end_silent(self) -> bool:
        """Ends the oldest idle connection of the address that has the most of them. Returns whether there was one."""
        self._lock.acquire()
        try:
            if not self._silent:
                return False
            crowd = collections.Counter(self._silent.values()).most_common(1)[0][0]
            first = next(request for request, address in self._silent.items() if address == crowd)
            del self._silent[first]
        finally:
            self._lock.release()
        with contextlib.suppress(OSError):
            # Its thread then reads the end. A connection over TLS is ended below TLS.
            socket.socket.shutdown(first, socket.SHUT_RDWR)
        return True

    def handle_error(self, request: object, address: object) -> None:
        """For `socketserver`."""
        _cry(repr(sys.exc_info()[1]))
