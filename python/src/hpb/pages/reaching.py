"""How a client reaches a front: its address, its certificate, and the token that is sent first (docs/FRONT.md)."""
import argparse
import errno
import os
import re
import socket
import ssl
import stat
from collections.abc import Callable

from hpb.hosts import may_be_host
from hpb.rounds import MOCK

ADDRESS = "127.0.0.1"
TOKEN = re.compile(r"[!-~]{16,128}")
# These lines answer no question: with them a connection, or its session, is ended.
ENDS = (b"ERR 95 order", b"ERR front idle", b"ERR front many")
# This one answers no question either: the token was taken away meanwhile, and trying again can't help.
TAKEN_AWAY = b"ERR front token"
MOST_WELCOME = 256

# Gets whether a greeting says that the auction is a mock.
Greeted = Callable[[bool], None]


class GivesUp(Exception):
    """A fault that trying again can't mend."""


def read_place(text: str) -> tuple[str, int]:
    """A host and a port, or a port of this machine: `auction.example:6000`, `[::1]:6000`, `5000`."""
    found = re.fullmatch(r"(?:(?:\[([^\[\]]+)\]|([^:\[\]]+)):)?([0-9]{1,5})", text)
    if not found or not 1 <= int(found[3]) <= 65535 or not may_be_host(found[1] or found[2] or ADDRESS):
        raise argparse.ArgumentTypeError(f"{text!r} is no port, and no host and port as localhost:6000 is")
    return found[1] or found[2] or ADDRESS, int(found[3])


def add_options(words: argparse.ArgumentParser) -> None:
    """Adds the options for a front, besides its address."""
    words.add_argument("--token", metavar="FILE", help="for a front: a file with the token, which only you may read")
    words.add_argument("--name", help="the name whose token it is, if the file has several")
    words.add_argument("--ca", metavar="FILE", help="the certificate to trust for a front (default: those that the system trusts)")
    words.add_argument("--plain", action="store_true", help="for a front without a certificate: token and lines are sent unencrypted")


def look_at_options(words: argparse.ArgumentParser, given: argparse.Namespace) -> None:
    """If the options don't go together, ends the program."""
    if not given.token and (given.name or given.ca or given.plain):
        words.error("--name, --ca and --plain go with --token")
    if given.ca and given.plain:
        words.error("--ca and --plain don't go together")


def read_token(path: str, name: str | None) -> str:
    """The token in a file, alone in a line or after its name. Only the file's owner may have the right to read it."""
    with open(path, encoding="ascii") as file:
        status = os.fstat(file.fileno())
        if stat.S_ISREG(status.st_mode) and status.st_mode & 0o077:
            raise GivesUp(f"{path}: others may read it; `chmod 600` it")
        rows = [line.split() for line in file if line.strip() and not line.startswith("#")]
    found = [row[-1] for row in rows if len(row) <= 2 and (not name or len(row) == 1 or row[0] == name)]
    if not found or (len(found) > 1 and not name):
        raise GivesUp(f"{path}: {f'there is no token of {name}' if name else 'it has not one token; say --name'}")
    if not TOKEN.fullmatch(found[0]):
        raise GivesUp(f"{path}: a token has 16 to 128 characters")
    return found[0]


def context_of(given: argparse.Namespace) -> ssl.SSLContext | None:
    """The settings of TLS, or None if everything is sent in clear."""
    if given.plain:
        return None
    try:
        return ssl.create_default_context(cafile=given.ca)
    except OSError as fault:
        raise GivesUp(f"{given.ca}: {fault.strerror or fault}") from None


def connected(
    place: tuple[str, int], token: str | None, context: ssl.SSLContext | None, patience: float, greeted: Greeted = lambda says_mock: None,
) -> socket.socket:
    """A connection. If there is a token, the front has welcomed it, and `greeted` got the greeting. After an OSError, another try may
    succeed."""
    connection = dialled(place, patience)
    try:
        if context:
            connection = over_tls(connection, place, context)
        if token:
            greeted(be_welcome(connection, token))
    except BaseException:
        connection.close()
        raise
    return connection


def dialled(place: tuple[str, int], patience: float) -> socket.socket:
    """A connection to a place. If nobody listens at the port, the system may give the connection that very port, so that it leads
    to itself. Then it is refused, as if the port were closed.
    """
    connection = socket.create_connection(place, patience)
    if connection.getsockname() == connection.getpeername():
        connection.close()
        raise ConnectionRefusedError(errno.ECONNREFUSED, os.strerror(errno.ECONNREFUSED))
    return connection


def over_tls(connection: socket.socket, place: tuple[str, int], context: ssl.SSLContext) -> ssl.SSLSocket:
    try:
        return context.wrap_socket(connection, server_hostname=place[0])
    except ssl.SSLCertVerificationError as fault:
        raise GivesUp(f"{place[0]} isn't known by its certificate: {fault.verify_message}") from None
    except (ssl.SSLEOFError, ssl.SSLZeroReturnError):
        # It was broken off, and may work later.
        raise
    except ssl.SSLError as fault:
        raise GivesUp(f"no TLS with {place[0]}, port {place[1]}: {fault.reason or fault}") from None


def be_welcome(connection: socket.socket, token: str) -> bool:
    """Says the token. Returns whether the greeting says that the auction is a mock."""
    connection.sendall(f"TOKEN {token}\n".encode())
    line = b""
    # Byte by byte, because the bytes after the welcome are for others to read.
    while not line.endswith(b"\n") and len(line) < MOST_WELCOME:
        if not (part := connection.recv(1)):
            raise ConnectionError("it ends the connection")
        line += part
    answer = line.rstrip(b"\n")
    if answer in ENDS:
        raise ConnectionError(f"it answers {answer.decode()}")
    if not answer.startswith(b"WELCOME "):
        raise GivesUp(f"the token is answered {answer.decode('latin-1')}")
    return answer.endswith(f" {MOCK}".encode())
