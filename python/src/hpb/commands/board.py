"""Serves a web page about an auction of `hpb serve`, and keeps it up to date.

    tools/board --port 5000 --definition definition.json --bidders x,y
    tools/board --port 5000 --definition definition.json --listen 127.0.0.1:8080 --places 3

Once the page can be opened, it writes `BOARD` and the page's address. It asks questions only, over one connection, which takes one
of the places of `hpb serve --sessions`. If the connection is lost, it connects again, provided that --places gave it more than one.
Anyone who can reach the address sees the page, without a password. A front serves the page itself, over TLS and only to holders of
a token. docs/BOARD.md describes the page.
"""
import argparse
import sys
from collections.abc import Callable

from hpb.commands import parser
from hpb.commands.shell import end_by_signals, from_shell, say
from hpb.pages.following import Follower, NotFollowed, at_port, started
from hpb.pages.options import add_options, followed
from hpb.pages.server import Server
from hpb.pages.walls import Anybody, Wall
from hpb.refusals import HpbError, says


@from_shell
def main() -> int:
    """Reads the arguments, and returns the status."""
    end_by_signals()
    try:
        _serve(_read_words())
    except HpbError as fault:
        say(says(fault))
    return 1


def _read_words() -> argparse.Namespace:
    words = parser(__doc__)
    words.add_argument(
        "--listen", type=_listen_address, default=("127.0.0.1", 8080), help="the page's address (default 127.0.0.1:8080; with port 0 the system chooses one)"
    )
    words.add_argument(
        "--name", action="append", default=[], help="another name for the page, besides addresses and localhost"
    )
    add_options(words)
    return words.parse_args()


def _listen_address(text: str) -> tuple[str, int]:
    host, _, port = text.rpartition(":")
    if not host or not port.isdecimal() or int(port) > 65_535:
        raise argparse.ArgumentTypeError(f"{text!r} is no ADDRESS:PORT")
    return host.strip("[]"), int(port)


def _serve(given: argparse.Namespace) -> None:
    """Serves the page until the auction can't be followed any more; then raises the reason."""
    auction = followed(given)
    # The follower makes the first view, with which the wall begins; the wall gets each later view.
    follower = Follower(auction.tree, auction.bidders, at_port(given.port), lambda view: guests.hang(view), auction.places, auction.pace)
    guests = Anybody(Wall(auction.tree, auction.bidders, follower.view))
    faults: list[HpbError] = []
    with _listening(given, guests) as server:
        started(_keep_following, follower, server.shutdown, faults)
        print(f"BOARD {server.url()}", flush=True)
        server.serve_forever()
    raise faults[0]


def _listening(given: argparse.Namespace, guests: Anybody) -> Server:
    try:
        return Server(given.listen, given.name, guests)
    except OSError as fault:
        raise NotFollowed(f"{given.listen[0]}, port {given.listen[1]}: {fault.strerror or fault}") from None


def _keep_following(follower: Follower, end: Callable[[], None], faults: list[HpbError]) -> None:
    """Asks until there is nothing more to ask. If the served auction has another definition, or anything fails here, the board ends."""
    try:
        follower.follow()
    except HpbError as fault:
        faults.append(fault)
        end()
    except Exception as fault:  # Any fault at all: a page that stops changing without a word would be worse.
        faults.append(NotFollowed(f"following ended: {fault!r}"))
        end()


if __name__ == "__main__":
    sys.exit(main())
