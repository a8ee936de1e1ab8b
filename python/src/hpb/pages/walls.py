"""Which viewers see which bidders of an auction: a wall for each set of bidders, and the guests who may look at it."""
import base64
import binascii
from _thread import LockType, allocate_lock
from collections.abc import Callable, Mapping, Sequence
from typing import Final, Protocol

from hpb.pages.model import Model, model_of
from hpb.pages.page import Page
from hpb.pages.requests import Bad
from hpb.pages.telling import announcement
from hpb.pages.view import View
from hpb.rules.tree import Tree
from hpb.threads import Places, held_lock

MOST_VIEWERS: Final = 200

# Limits a view to what a viewer may know. None says that this isn't known yet.
Limit = Callable[[View], View | None]


class Wall:
    """The newest model for some bidders. Viewers look at it whenever they like, so nothing waits for a viewer. The model is made on
    demand.
    """

    def __init__(
        self, tree: Tree, bidders: Sequence[str], view: View, most: int = MOST_VIEWERS, name: str | None = None, limit: Limit | None = None,
    ) -> None:
        """`most` is how many viewers may follow the wall at once. `name` is its owner, if it has one, and `limit` hides what it may not know."""
        self.name, self._limit = name, limit
        self.page = Page(tree, bidders)
        self.viewers = Places(most)
        self._bidders = bidders
        self._view, self._number, self._said = view.only(bidders, name or ""), 0, ""
        self._model: Model | None = None
        self._lock = allocate_lock()
        # Those who wait for the next view: each holds its lock until it comes.
        self._waiting: list[LockType] = []

    def hang(self, view: View) -> None:
        """Replaces the current view by a newer one."""
        own: View | None = view.only(self._bidders, self.name or "")
        if self._limit and own:
            own = self._limit(own)
        self._lock.acquire()
        try:
            if own is None or (self._limit and self._is_same(own)):
                return
            self._said = announcement(self._view, own)
            self._view, self._model, self._number = own, None, self._number + 1
            waiting, self._waiting = self._waiting, []
        finally:
            self._lock.release()
        for one in waiting:
            one.release()

    def now(self) -> tuple[View, Model, int]:
        """The current view, its model and its number."""
        self._lock.acquire()
        try:
            return self._view, self._made(), self._number
        finally:
            self._lock.release()

    def next(self, number: int, seconds: float) -> tuple[Model, int, str]:
        """The model after number `number`, its own number, and its announcement. If none comes within `seconds`, it is the current one."""
        hung = held_lock()
        self._wait(hung, number)
        if not hung.acquire(timeout=seconds):
            self._forget(hung)
        self._lock.acquire()
        try:
            return self._made(), self._number, self._said
        finally:
            self._lock.release()

    def _wait(self, hung: LockType, number: int) -> None:
        """Frees the lock once the view after this number hangs."""
        self._lock.acquire()
        try:
            if self._number == number:
                self._waiting.append(hung)
            else:
                hung.release()
        finally:
            self._lock.release()

    def _forget(self, hung: LockType) -> None:
        self._lock.acquire()
        try:
            self._waiting = [one for one in self._waiting if one is not hung]
        finally:
            self._lock.release()

    def _is_same(self, own: View) -> bool:
        """Whether a view shows nothing new. An event about it would say that something happened that its viewers may not know."""
        return not announcement(self._view, own) and model_of(self.page.tree, self._bidders, own) == self._made()

    def _made(self) -> Model:
        if self._model is None:
            self._model = model_of(self.page.tree, self._bidders, self._view)
        return self._model


class Guests(Protocol):
    """Decides who may look at which wall."""

    def wall_of(self, said: str) -> Wall:
        """The wall for the text of the field `Authorization`, which is empty if the field is missing. If there is none, `Bad` is raised."""

    def hang(self, view: View) -> None:
        """Hangs a newer view on each wall."""


class Anybody:
    """Lets anyone who reaches the address see the one wall."""

    def __init__(self, wall: Wall) -> None:
        self._wall = wall

    def wall_of(self, said: str) -> Wall:
        """See `Guests`."""
        return self._wall

    def hang(self, view: View) -> None:
        """See `Guests`."""
        self._wall.hang(view)


class KnownTokens(Protocol):
    """The tokens and their names."""

    def name_of(self, token: bytes) -> str | None:
        """The name to which a token belongs, or None."""


class Known:
    """Anyone who gives a name and its token sees the wall of that name."""

    def __init__(self, tokens: KnownTokens, walls: Mapping[str, Wall]) -> None:
        self._tokens, self._walls = tokens, walls

    def wall_of(self, said: str) -> Wall:
        """See `Guests`."""
        name, token = _read_basic(said)
        if self._tokens.name_of(token) != name:
            raise Bad(401)
        return self._walls[name]

    def hang(self, view: View) -> None:
        """See `Guests`."""
        for wall in self._walls.values():
            wall.hang(view)


def _read_basic(said: str) -> tuple[str, bytes]:
    """Name and token in a field `Authorization`. If it has none, the name and the token are empty, and match nobody."""
    kind, _, coded = said.partition(" ")
    try:
        name, _, token = base64.b64decode(coded.strip(), validate=True).partition(b":")
        return (name.decode(), token) if kind.lower() == "basic" else ("", b"")
    except (binascii.Error, ValueError):
        return "", b""
