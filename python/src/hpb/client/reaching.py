"""How a client reaches its auction: addresses in turn, TLS, the token, and how long to wait. Times are in seconds."""
import os
import pathlib
import re
import socket
import ssl
import stat
from dataclasses import dataclass, field
from typing import Final

from hpb.client.outcomes import NotWelcome
from hpb.hosts import may_be_host

_TOKEN: Final = re.compile(r"[!-~]{16,128}")
_FIRST_PAUSE, _MOST_PAUSE = 0.05, 2.0
# If the other end is silent, the system probes it: after how many seconds, then how often, and how many times.
_KEEPALIVE: Final = {socket.TCP_KEEPIDLE: 30, socket.TCP_KEEPINTVL: 10, socket.TCP_KEEPCNT: 3}


@dataclass(frozen=True)
class Settings:
    """How a client reaches its auction, with times in seconds.

    - `timeout`: how long a call waits in all.
    - `silence`: how long the other end may owe an answer before the connection counts as lost.
    - `connecting`: how long making a connection may take.

    `is_mock` says whether the auction has to be a mock, or none; None takes either.
    """

    addresses: tuple[tuple[str, int], ...]
    token: str | None = None
    context: ssl.SSLContext | None = None
    timeout: float = 150.0
    silence: float = 60.0
    connecting: float = 10.0
    is_mock: bool | None = None


def settings(
    host: str,
    port: int,
    others: tuple[tuple[str, int], ...] = (),
    token: str | None = None,
    ca: str | os.PathLike[str] | None = None,
    plain: bool = False,
    timeout: float = 150.0,
    silence: float = 60.0,
    mock: bool | None = None,
) -> Settings:
    """The settings for a client's arguments. With a token everything goes over TLS, unless `plain` is set. `ca` is the certificate
    to trust (default: those that the system trusts). If the arguments don't fit together, ValueError is raised; if `ca` can't be
    read, OSError.
    """
    if token is not None and not _TOKEN.fullmatch(token):
        raise ValueError("a token has 16 to 128 characters, none of them a space")
    if plain and ca is not None:
        raise ValueError("`ca` is for TLS, and `plain` is without")
    if mock is not None and token is None:
        raise ValueError("`mock` is for a front, and so goes with `token`")
    for where in ((host, port), *others):
        if not may_be_host(where[0]):
            raise ValueError(f"{where[0]!r} is no host")
        if not 1 <= where[1] <= 65535:
            raise ValueError(f"{where[1]} is no port")
    is_tls = not plain and (token is not None or ca is not None)
    context = ssl.create_default_context(cafile=ca) if is_tls else None
    return Settings(((host, port), *others), token, context, timeout, silence, is_mock=mock)


def read_token(path: str | os.PathLike[str], name: str | None = None) -> str:
    """The token in a file of one token, or the token of a name in a file of all. ValueError is raised if others may read the file,
    or if it has no such token.
    """
    with open(path, encoding="ascii") as file:
        status = os.fstat(file.fileno())
        if stat.S_ISREG(status.st_mode) and status.st_mode & 0o077:
            raise ValueError(f"{path}: others may read it; `chmod 600` it")
        rows = [line.split() for line in file if line.strip() and not line.startswith("#")]
    found = [row[-1] for row in rows if len(row) <= 2 and (not name or len(row) == 1 or row[0] == name)]
    if len(found) != 1:
        raise ValueError(f"{pathlib.Path(path)}: it has {len(found)} tokens{f' of {name}' if name else ''}, and not one")
    return found[0]


@dataclass
class Turns:
    """Which address to try next, and how long to wait before that. Addresses take turns, and the pause doubles after each turn."""

    addresses: tuple[tuple[str, int], ...]
    _tried: int = field(default=0, init=False)
    _place: int = field(default=0, init=False)

    def next(self) -> tuple[tuple[str, int], float]:
        """The next address, and the pause before it, at most two seconds."""
        turn, first = divmod(self._tried, len(self.addresses))
        pause = 0.0 if turn == 0 else min(_MOST_PAUSE, _FIRST_PAUSE * 2 ** min(turn, 10)) if first == 0 else 0.0
        address = self.addresses[self._place % len(self.addresses)]
        self._tried += 1
        return address, pause

    def failed(self) -> None:
        """The address that was taken last doesn't answer, so another one is next."""
        self._place += 1

    def answered(self) -> None:
        """The address answers. It stays the first, and the pauses start over."""
        self._tried = 0


def set_up(connection: socket.socket) -> None:
    """Makes the connection send at once, and probe a silent other end. If the connection leads to itself, ConnectionError is
    raised.

    If nobody listens at a port of this machine, the system may give that port to the connection itself. Then everything that is
    sent comes back.
    """
    if connection.getsockname() == connection.getpeername():
        raise ConnectionRefusedError("nobody listens there, and the connection led to itself")
    connection.setsockopt(socket.IPPROTO_TCP, socket.TCP_NODELAY, 1)
    connection.setsockopt(socket.SOL_SOCKET, socket.SO_KEEPALIVE, 1)
    for option, value in _KEEPALIVE.items():
        connection.setsockopt(socket.IPPROTO_TCP, option, value)


def not_trusted(fault: ssl.SSLCertVerificationError, host: str) -> NotWelcome:
    """The error for a certificate that isn't trusted."""
    return NotWelcome(f"{host} isn't known by its certificate: {fault.verify_message}")
