"""A browser's request: its method, path and fields."""
import ipaddress
import socket
import time
from collections.abc import Collection
from typing import Final

REQUEST_SECONDS: Final = 10
_MOST_REQUEST = 8_192


class Bad(Exception):
    """A request that gets a status and a line instead of a page."""

    def __init__(self, status: int) -> None:
        super().__init__(status)
        self.status = status


class Request:
    """The method, path and fields of a request."""

    def __init__(self, text: str) -> None:
        """The text excludes the empty line at its end. If it is no request, `Bad` is raised."""
        first, *lines = text.split("\r\n")
        words = first.split(" ")
        if len(words) != 3 or not words[2].startswith("HTTP/1."):
            raise Bad(400)
        self.method, self.path = words[0], _path_of(words[1])
        self._fields = [(name.lower(), value.strip()) for name, _, value in (line.partition(":") for line in lines)]

    def one(self, name: str) -> str:
        """The value of a field that has to occur exactly once; else `Bad` is raised."""
        values = self.all(name)
        if len(values) != 1:
            raise Bad(400)
        return values[0]

    def all(self, name: str) -> list[str]:
        """All values of a field. The name is in lower case."""
        return [value for known, value in self._fields if known == name]


def read_request(connection: socket.socket) -> Request:
    """A request. If it doesn't come whole and in time, `Bad` is raised."""
    end, received = time.monotonic() + REQUEST_SECONDS, b""
    while b"\r\n\r\n" not in received:
        connection.settimeout(max(0.001, end - time.monotonic()))
        try:
            part = connection.recv(_MOST_REQUEST)
        except TimeoutError:
            raise Bad(408) from None
        received += part
        if not part or len(received) > _MOST_REQUEST:
            raise Bad(400)
    return Request(received.split(b"\r\n\r\n")[0].decode("latin-1"))


def is_own(host: str, names: Collection[str]) -> bool:
    """Whether the page was asked for by an address, or by a name that the operator gave: no other name may lead here."""
    name = host.rsplit(":", 1)[0] if not host.endswith("]") else host
    name = name.strip("[]").lower()
    try:
        ipaddress.ip_address(name)
        return True
    except ValueError:
        return name in names


def _path_of(target: str) -> str:
    """Behind a proxy, a whole address may stand instead of the path."""
    for scheme in ("http://", "https://"):
        if target.lower().startswith(scheme):
            target = "/" + target[len(scheme) :].partition("/")[2]
    return target.split("?", 1)[0]
