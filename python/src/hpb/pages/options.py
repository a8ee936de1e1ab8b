"""The options that tools/board and tools/watch share: the auction's place, its definition, and the bidders to show."""
import argparse
import pathlib
import socket
from typing import Final, NamedTuple

from hpb.pages import reaching
from hpb.pages.following import PACE, NotFollowed, Opens
from hpb.pages.view import ENDLESS
from hpb.refusals import Refused
from hpb.rules.tree import Tree, tree_of
from hpb.rules.writing import read_script

_LEAST_PACE: Final = 0.05
_MOST_PACE: Final = 3_600.0
_MOST_PORT: Final = 65_535


class Followed(NamedTuple):
    """The options' values: the auction's tree, the bidders to show, how many connections may be made, and the seconds between two
    questions.
    """

    tree: Tree
    bidders: list[str]
    places: float
    pace: float


def add_options(words: argparse.ArgumentParser, with_front: bool = False) -> None:
    """Adds these options. With `with_front`, it adds those of a front too."""
    where = words.add_mutually_exclusive_group(required=True)
    where.add_argument("--port", type=int, help="the port of 127.0.0.1 at which hpb serve listens")
    if with_front:
        where.add_argument("--front", type=reaching.read_place, metavar="HOST:PORT", help="the address of a front")
        reaching.add_options(words)
    words.add_argument("--definition", required=True, help="the auction's definition: JSON, or a script whose first line it is")
    own = words.add_mutually_exclusive_group()
    own.add_argument("--bidders", default="", help="the bidders whose standing is shown, as x,y (default: none)")
    own.add_argument("--all-bidders", action="store_true", help="show the standing of every bidder")
    words.add_argument(
        "--places", type=int, help="how many connections may be made in all; each uses up a place of hpb serve (default 1)"
    )
    words.add_argument("--pace", type=float, default=PACE, help=f"seconds between two questions (default {PACE:g})")


def followed(given: argparse.Namespace) -> Followed:
    """The options' values. If they make no sense, `NotFollowed` is raised."""
    try:
        tree = tree_of(read_script(pathlib.Path(given.definition).read_bytes()))
    except OSError as fault:
        raise NotFollowed(f"{given.definition}: {fault}") from None
    except Refused as fault:
        raise NotFollowed(f"the definition is refused: {fault.detail or fault.meaning}") from None
    places = given.places if given.places is not None else 1 if given.port is not None else ENDLESS
    if places < 1 or not _LEAST_PACE <= given.pace <= _MOST_PACE:
        raise NotFollowed(f"at least one place is needed, and a pace of {_LEAST_PACE} s to an hour")
    if given.port is not None and not 1 <= given.port <= _MOST_PORT:
        raise NotFollowed(f"there is no port {given.port}")
    names = list(tree.bidders) if given.all_bidders else list(dict.fromkeys(name for name in given.bidders.split(",") if name))
    for name in names:
        if name not in tree.bidders:
            raise NotFollowed(f"the definition has no bidder {name!r}")
    return Followed(tree, names, places, given.pace)


def at_front(given: argparse.Namespace, greeted: reaching.Greeted) -> Opens:
    """A function that makes connections to a front, as the owner of a token. `greeted` gets each greeting. If the token or certificate can't be used,
    `NotFollowed` is raised.
    """
    try:
        token, context = reaching.read_token(given.token, given.name), reaching.context_of(given)
    except (reaching.GivesUp, OSError, UnicodeDecodeError) as fault:
        raise NotFollowed(str(fault)) from None

    def connected(patience: float) -> socket.socket:
        try:
            return reaching.connected(given.front, token, context, patience, greeted)
        except reaching.GivesUp as fault:
            raise NotFollowed(str(fault)) from None

    return connected
