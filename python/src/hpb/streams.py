"""Standard streams as a script may find them: closed, or made non-blocking by another program."""
import os
import select
from collections.abc import Iterator

STANDARD_INPUT, STANDARD_OUTPUT, STANDARD_ERROR = 0, 1, 2
_PIECE = 65_536


def hold_closed_streams() -> None:
    """Fills the numbers of closed streams, so that no file opened later gets one of them. Writing to such a stream fails, as before."""
    for number in range(STANDARD_ERROR + 1):
        try:
            os.fstat(number)
        except OSError:
            os.set_inheritable(os.open(os.devnull, os.O_RDONLY), True)


def write_all(stream: int, data: bytes) -> None:
    """Writes all bytes, and waits if a non-blocking stream takes none for now. If it can't be written, OSError is raised."""
    while data:
        try:
            data = data[os.write(stream, data) :]
        except BlockingIOError:
            select.select([], [stream], [])


def lines_of(stream: int) -> Iterator[bytes]:
    """Each line, with its LF, as soon as all of it has come; the last one may have none. Waits for a stream that has nothing now and is set
    not to block. An OSError says that it can't be read."""
    rest = bytearray()
    while part := _read(stream):
        rest += part
        if b"\n" in part:
            whole, _, last = rest.rpartition(b"\n")
            rest = bytearray(last)
            yield from (bytes(line) + b"\n" for line in whole.split(b"\n"))
    if rest:
        yield bytes(rest)


def _read(stream: int) -> bytes:
    while True:
        try:
            return os.read(stream, _PIECE)
        except BlockingIOError:
            select.select([stream], [], [])
