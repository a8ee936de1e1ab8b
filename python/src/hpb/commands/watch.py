"""Shows an auction of `hpb serve` or of a front in a terminal, and follows it.

    tools/watch --port 5000 --definition definition.json --bidders x,y
    tools/watch --port 5000 --definition definition.json --once
    tools/watch --front localhost:6000 --token ann.token --ca front.pem --definition definition.json --bidders x

In a terminal the picture is drawn again whenever something changes. Arrows, page keys, g and G move it, and q ends it. If standard
output is no terminal, the picture is written once, followed by a line for each change. It asks questions only, over one connection,
which takes one of the places of `hpb serve --sessions`. A front has no such places, so it connects again as often as it has to.
docs/BOARD.md describes what it shows.
"""
import argparse
import contextlib
import os
import re
import select
import shutil
import sys
import termios
import threading
import time
import tty
from typing import Final

from hpb.commands import parser
from hpb.commands.shell import end_by_signals, from_shell, say
from hpb.pages.following import Follower, NotFollowed, at_port, started
from hpb.pages.options import add_options, at_front, followed
from hpb.pages.reaching import look_at_options
from hpb.pages.telling import clock, contact_says
from hpb.pages.terminal import DIM, Style, changes, picture
from hpb.pages.view import State, View
from hpb.refusals import HpbError, says

_ALTERNATE, _NORMAL = "\x1b[?1049h\x1b[?25l", "\x1b[?25h\x1b[?1049l"
_HOME, _CLEAR_LINE, _CLEAR_BELOW = "\x1b[H", "\x1b[K", "\x1b[J"
_ONCE_SECONDS = 10
_LINES: Final = {"\x1b[A": -1, "k": -1, "\x1b[B": 1, "j": 1}
_PAGES: Final = {"\x1b[5~": -1, "b": -1, "\x1b[6~": 1, " ": 1}
_ENDS: Final = {"g": -1, "G": 1}
_KEY = re.compile(r"\x1b\[[0-9;]*[A-Za-z~]|.", re.S)


class Watch:
    """The views that were seen, and whether there are new ones. `fault` is the reason why it can't go on following."""

    def __init__(self, given: argparse.Namespace) -> None:
        auction = followed(given)
        self.tree = auction.tree
        opens = at_port(given.port) if given.front is None else at_front(given, lambda says_mock: self.follower.greeted(says_mock))
        # A front is asked for its news, too.
        names = [""] if given.front else []
        self.follower = Follower(auction.tree, auction.bidders, opens, self._take, auction.places, auction.pace, names=names)
        self.changed, self.ended = threading.Event(), threading.Event()
        self.fault: HpbError | None = None
        self._views, self._lock = [self.follower.view], threading.Lock()

    def start(self) -> None:
        """Starts following, in a thread of its own."""
        started(self._follow)

    def taken(self) -> list[View]:
        """The views that came since the last call."""
        with self._lock:
            self.changed.clear()
            views, self._views = self._views, []
        return views

    def newest(self, view: View) -> View:
        """The last view that came, or the given one if none did."""
        return [view, *self.taken()][-1]

    def _take(self, view: View) -> None:
        with self._lock:
            self._views.append(view)
        self.changed.set()

    def _follow(self) -> None:
        try:
            self.follower.follow()
        except HpbError as fault:
            self.fault = fault
        except Exception as fault:  # Any fault at all: a picture that stops changing without a word would be worse.
            self.fault = NotFollowed(f"following ended: {fault!r}")
        self.ended.set()
        self.changed.set()


def once(watch: Watch, style: Style) -> int:
    """Writes the first view. It fails if there is no server, or if the server doesn't answer."""
    end = time.monotonic() + _ONCE_SECONDS
    view = watch.follower.view
    while view.seen is None and time.monotonic() < end and not watch.ended.is_set():
        watch.changed.wait(max(0, end - time.monotonic()))
        view = watch.newest(view)
        if view.contact.state == State.LOST:
            break
    watch.follower.stop()
    if watch.fault:
        raise watch.fault
    if view.seen is None:
        raise NotFollowed(contact_says(view.contact))
    print(*picture(watch.tree, view, style), sep="\n")
    return 0


def as_lines(watch: Watch, style: Style) -> int:
    """Writes the picture once, and then a line for each change, until nothing more can come."""
    known: View | None = None
    while not watch.ended.is_set() or watch.changed.is_set():
        watch.changed.wait()
        for view in watch.taken():
            if view.seen is not None and (known is None or known.seen is None):
                print(*picture(watch.tree, view, style), "", sep="\n", flush=True)
            else:
                for line in changes(watch.tree, known or view, view):
                    print(f"{clock(time.time())}  {line}", flush=True)
            known = view
    if watch.fault:
        raise watch.fault
    return 0 if known and known.contact.state == State.OVER else 1


class Screen:
    """The picture in a terminal. If it is higher than the terminal, it can be scrolled."""

    def __init__(self, watch: Watch, style: Style) -> None:
        self._watch, self._style, self._view = watch, style, watch.follower.view
        # The first line on the screen, the number of lines on it, and the greatest first line.
        self._top, self._room, self._most = 0, 1, 0

    def run(self) -> int:
        """Draws the picture until `q` is typed. If following fails, the reason is raised."""
        before = termios.tcgetattr(sys.stdin)
        sys.stdout.write(_ALTERNATE)
        try:
            tty.setcbreak(sys.stdin)
            while not self._watch.fault:
                self._draw()
                if not all([self._obeys(key) for key in _keys()]):
                    break
        finally:
            # A terminal that is gone has nothing to be put back. One that is stopped isn't waited for, but for the last line.
            with contextlib.suppress(termios.error):
                termios.tcsetattr(sys.stdin, termios.TCSANOW, before)
            sys.stdout.write(_NORMAL)
            sys.stdout.flush()
        if self._watch.fault:
            raise self._watch.fault
        return 0

    def _draw(self) -> None:
        self._view = self._watch.newest(self._view)
        width, height = shutil.get_terminal_size()
        lines = list(picture(self._watch.tree, self._view, Style(False)))
        coloured = list(picture(self._watch.tree, self._view, self._style))
        self._room = max(1, height - 1)
        self._most = max(0, len(lines) - self._room)
        self._top = min(self._top, self._most)
        shown = [whole if len(plain) <= width else plain[: width - 1] + "\N{HORIZONTAL ELLIPSIS}" for plain, whole in zip(lines, coloured)]
        foot = time.strftime("%H:%M:%S  q ends") + (
            f", arrows move: lines {self._top + 1} to {self._top + self._room} of {len(lines)}" if self._most else ""
        )
        page = [*shown[self._top : self._top + self._room], self._style.of(foot[:width], DIM)]
        sys.stdout.write(_HOME + "\r\n".join(line + _CLEAR_LINE for line in page) + _CLEAR_BELOW)
        sys.stdout.flush()

    def _obeys(self, key: str) -> bool:
        """Obeys a key, and returns whether to go on."""
        move = _LINES.get(key, 0) + _PAGES.get(key, 0) * self._room + _ENDS.get(key, 0) * self._most
        self._top = min(max(0, self._top + move), self._most)
        return key != "q"


def _keys() -> list[str]:
    """The keys that were typed within a second."""
    ready, _, _ = select.select([sys.stdin], [], [], 1)
    return _KEY.findall(os.read(sys.stdin.fileno(), 1_024).decode(errors="replace")) if ready else []


def _read_words() -> argparse.Namespace:
    words = parser(__doc__)
    words.add_argument("--once", action="store_true", help="write the auction as it is now, and end")
    add_options(words, with_front=True)
    given = words.parse_args()
    look_at_options(words, given)
    if bool(given.front) != bool(given.token):
        words.error("--front and --token go together")
    return given


def _shown(given: argparse.Namespace) -> int:
    watch = Watch(given)
    watch.start()
    is_terminal = sys.stdout.isatty() and os.environ.get("TERM") != "dumb"
    style = Style(is_terminal and not os.environ.get("NO_COLOR"))
    if given.once:
        return once(watch, style)
    return Screen(watch, style).run() if is_terminal and sys.stdin.isatty() else as_lines(watch, style)


@from_shell
def main() -> int:
    """Reads the arguments, and returns the status."""
    given = _read_words()
    end_by_signals()
    try:
        return _shown(given)
    except BrokenPipeError:
        os.dup2(os.open(os.devnull, os.O_WRONLY), sys.stdout.fileno())
    except HpbError as fault:
        say(says(fault))
    return 1


if __name__ == "__main__":
    sys.exit(main())
