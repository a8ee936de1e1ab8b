"""The page of a front, in a process of its own that the front starts: whoever floods it takes nothing from those who bid.

    python3 -m hpb.front.viewers CONFIG DESCRIPTOR GIVEN

Standard input is a connection to the front, over which it asks questions. DESCRIPTOR is a listening socket. GIVEN is a file in which the
front has put the parts of the configuration CONFIG, of the tokens and of the certificate that the page needs.

Once the page can be opened, it writes `BOARD` and the page's address, and then a line of JSON for each request. It ends when the front
does. docs/BOARD.md says who sees what.
"""
import faulthandler
import os
import signal
import socket
import sys
from typing import NoReturn

from hpb.front.faults import Wrong
from hpb.front.given import Given, read, read_all
from hpb.front.log import Log, Stream
from hpb.front.sight import limit_of
from hpb.front.words import cry
from hpb.pages.following import Follower
from hpb.pages.server import Server
from hpb.pages.view import State, View
from hpb.pages.walls import Known, Limit, Wall
from hpb.refusals import HpbError, says
from hpb.streams import STANDARD_ERROR
from hpb.threads import Thread

# By so much the page's priority is lower than the front's (nice): viewers wait, and bidders don't.
NICE = 5


def front_connection(patience: float) -> socket.socket:
    """The connection to the front. An answer has to come within so many seconds."""
    connection = socket.socket(fileno=os.dup(0))
    connection.settimeout(patience)
    return connection


def known_of(given: Given, view: View) -> Known:
    """A wall for each name, which shows the bidders about whom the name may ask."""
    tree = given.tree
    walls = {name: Wall(tree, role.seen(tree), view, given.viewers, name, limit_for(given, name)) for name, role in given.roles.items()}
    return Known(given.tokens, walls)


def limit_for(given: Given, name: str) -> Limit | None:
    """Without rules on information nothing is hidden but bidders of other names."""
    return limit_of(given.information, given.tree, name, given.roles[name]) if given.information else None


def followed(follower: Follower) -> None:
    """If the page can't follow the auction any more, the process ends, and the front starts it again."""
    try:
        follower.follow()
        if follower.view.contact.state == State.OVER:
            return
        end("the front is gone")
    except HpbError as fault:
        end(says(fault))
    except BaseException as fault:  # Any fault at all: a page that stops changing without a word would be worse.
        end(f"following ended: {fault!r}")


def look_at(following: Thread, follower: Follower) -> None:
    """The same if there was no memory for the first call of following, or for the words about its end."""
    if following.has_ended and follower.view.contact.state != State.OVER:
        end("following ended, and there was no memory to say why")


def end(text: object) -> NoReturn:
    """Writes the reason, unless nobody reads standard error, and ends the process."""
    try:
        cry(f"board: {text}\n".encode(errors="backslashreplace"))
    finally:
        os._exit(1)


def serve(given: Given, listener: socket.socket) -> None:
    """Serves the page until the process ends."""
    bidders, names = list(given.tree.bidders), list(given.roles)
    follower = Follower(given.tree, bidders, front_connection, lambda view: guests.hang(view), names=names)
    guests = known_of(given, follower.view)
    os.nice(NICE)
    # The front puts these lines into its log.
    log = Log(Stream(1), {"page": given.log_lines_per_second}).start()

    def note(peer: str, name: str | None, path: str | None, status: int) -> None:
        log.write("page", peer=peer, name=name, path=path, status=status)

    context = given.certificate.context if given.certificate else None
    with Server(("", 0), given.host_names, guests, context, listener, note) as server:
        following = Thread(lambda: followed(follower)).start()
        server.look = lambda: look_at(following, follower)
        print(f"BOARD {server.url()}", flush=True)
        server.serve_forever()


def main() -> int:
    """Reads the words, and returns the status."""
    signal.signal(signal.SIGTERM, lambda *_: sys.exit(0))
    signal.signal(signal.SIGINT, signal.SIG_IGN)
    # As in the front: a library of C may end by a signal.
    faulthandler.enable(STANDARD_ERROR)
    if len(sys.argv) != 4 or not all(word.isdecimal() for word in sys.argv[2:]):
        print(__doc__, end="")
        return 0 if sys.argv[1:] in (["-h"], ["--help"]) else 2
    try:
        serve(read(read_all(int(sys.argv[3]))), socket.socket(fileno=int(sys.argv[2])))
    except HpbError as fault:
        end(says(fault))
    except (Wrong, OSError, RuntimeError) as fault:
        end(fault)
    except Exception as fault:  # No failure may end it in silence.
        end(repr(fault))
    return 0


if __name__ == "__main__":
    sys.exit(main())
