"""The file of an auction and the end of its record, both of one moment, also while its front runs."""
import socket
import time
from collections.abc import Callable, Iterator
from contextlib import contextmanager
from dataclasses import dataclass

from hpb.auctions.folder import Auction, CantDo, failing
from hpb.auctions.parts import Parts, own_name, standing
from hpb.file import read_image
from hpb.front.control import FREEZE, FROZEN, MICROSECONDS, THAW, THAWED, short_name
from hpb.record.entries import Place
from hpb.refusals import Refused

# A front answers within its own limit; this one is longer.
SECONDS = 15.0


@dataclass(frozen=True)
class Moment:
    """The bytes of the file, and the place in the record up to which they belong together; None for all of it. `seconds` is how long commands
    waited, if a front runs."""

    image: bytes
    place: Place | None = None
    seconds: float | None = None


def moment_of(auction: Auction, parts: Parts) -> Moment:
    """Of a front that runs the commands are frozen until the file is read. Otherwise nothing may have file or record meanwhile."""
    file = auction.folder / parts.file
    if auction.is_served():
        return frozen(auction, lambda: still_image(lambda: read_image(file, is_quiet=False)))
    with standing(auction.folder / parts.record):
        try:
            return Moment(read_image(file))
        except Refused as fault:
            raise CantDo(f"{file}: {fault.brief}") from None


def still_image(read: Callable[[], bytes]) -> bytes:
    """The bytes of a file into which a checkpoint may still be written: two readings in a row that are equal show them as they were at one
    moment."""
    before, end = read(), time.monotonic() + SECONDS
    while (image := read()) != before:
        if time.monotonic() > end:
            raise CantDo("the file changes though its front has let no command in")
        before = image
    return before


def frozen(auction: Auction, read: Callable[[], bytes]) -> Moment:
    """Reads while the front's commands stand still."""
    with connected(auction) as front:
        lines = front.makefile("rb")
        front.sendall(FREEZE)
        word, *told = lines.readline().decode("latin-1").split()
        if word != FROZEN:
            raise CantDo(f"{auction.name}: another backup has its front: try again")
        image = read()
        front.sendall(THAW)
        thawed = lines.readline().decode("latin-1").split()
        if thawed[:1] != [THAWED]:
            raise CantDo(f"{auction.name}: its front didn't wait until all was read: nothing was made")
    return Moment(image, Place(int(told[1]), told[2]), int(thawed[1]) / MICROSECONDS)


@contextmanager
def connected(auction: Auction) -> Iterator[socket.socket]:
    """A connection to the socket of an auction's front."""
    word = auction.fields().get("control")
    if word is None:
        raise CantDo(f'{auction.name}: its front can\'t be asked to wait: add control = "front.control" to {auction.configuration}, and start it again')
    path = auction.folder / own_name(auction.folder, "control", word)
    try:
        with socket.socket(socket.AF_UNIX, socket.SOCK_STREAM) as front, failing(path), short_name(str(path)) as name:
            front.settimeout(SECONDS)
            front.connect(name)
            yield front
    except (TimeoutError, ValueError, IndexError):
        raise CantDo(f"{auction.name}: its front doesn't answer at {path}") from None
