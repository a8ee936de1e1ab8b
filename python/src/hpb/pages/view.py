"""Everything known about an auction that is followed: its state now, its state before the last close, and how the round began."""
from collections.abc import Iterable, Mapping
from dataclasses import replace
from enum import StrEnum
from typing import Final, NamedTuple

from hpb.lines import Shown, WhoShown
from hpb.rounds import News, Schedule
from hpb.rules.told import Told as Standing
from hpb.rules.tree import Tree

# A front doesn't limit the number of connections.
ENDLESS: Final = float("inf")


class State(StrEnum):
    """The state of the connection to the server."""

    WAITING = "waiting"
    LIVE = "live"
    SILENT = "silent"
    LOST = "lost"
    OVER = "over"


class Contact(NamedTuple):
    """The state of the connection to the server, since when in seconds of the system's clock, and how many more connections may be made."""

    state: State
    since: float
    places: float


class Begin(NamedTuple):
    """A round as it was first seen. It is exact if nothing had been accepted in the round before that."""

    shown: Shown
    whos: Mapping[str, WhoShown]
    is_exact: bool


class Seen(NamedTuple):
    """The state of an auction. `before` is the last state seen before the last close, or None if no close was seen. If a front's rules hide
    it, the count is that of the last close, or there is no revenue."""

    standing: Standing
    before: Standing | None
    begin: Begin
    hides_count: bool = False
    hides_revenue: bool = False

    def accepted(self) -> int:
        """How many bids and waivers were seen to be accepted in this round; 0 if that is hidden."""
        if self.hides_count:
            return 0
        now, then = self.standing.shown, self.begin.shown
        return now.count - then.count - (now.stage - then.stage)

    def would_end(self) -> bool | None:
        """Whether a close now would end the auction, or None if that can't be known."""
        if self.standing.shown.is_over or self.accepted() > 0:
            return False
        return True if self.begin.is_exact and not self.hides_count else None

    def only(self, bidders: Iterable[str]) -> "Seen":
        """The same, with these bidders only."""
        names = list(bidders)
        before = self.before and _only(self.before, names)
        return self._replace(standing=_only(self.standing, names), before=before, begin=self.begin._replace(whos=_kept(self.begin.whos, names)))


class Told(NamedTuple):
    """The last news for a name, and the number up to which it has read them."""

    news: tuple[News, ...] = ()
    read: int = 0


class View(NamedTuple):
    """Everything known. `seen` is None until the first answers, and so is `schedule` without a front. `told` has the news of each name.
    `information` is a front's answer to `INFORMATION`, which is empty if it has no rules on that, and `seal` its last seal.
    `is_mock` says whether it is a mock."""

    seen: Seen | None
    contact: Contact
    schedule: Schedule | None = None
    told: Mapping[str, Told] = {}
    information: str = ""
    is_mock: bool = False
    seal: str = ""

    def only(self, bidders: Iterable[str], name: str = "") -> "View":
        """The same, with these bidders and the news of this name only."""
        told = {"": self.told[name]} if name in self.told else {}
        return self._replace(seen=self.seen and self.seen.only(bidders), told=told)

    @property
    def own(self) -> Told:
        """The news of the one name that is left."""
        return self.told.get("", Told())


def _only(told: Standing, bidders: Iterable[str]) -> Standing:
    return replace(told, whos=_kept(told.whos, bidders))


def _kept(whos: Mapping[str, WhoShown], bidders: Iterable[str]) -> dict[str, WhoShown]:
    return {name: whos[name] for name in bidders if name in whos}


def taken(tree: Tree, bidders: Iterable[str], old: Seen | None, now: Standing) -> Seen:
    """The knowledge after new answers. `old` is the knowledge before them."""
    if old is None or _is_another(old.standing, now):
        return Seen(now, None, _begin_of(tree, bidders, None, now))
    if period(old.standing.shown) != period(now.shown):
        return Seen(now, old.standing, _begin_of(tree, bidders, old.standing, now))
    return old._replace(standing=now)


def period(shown: Shown) -> tuple[int, bool]:
    """The period between two closes: nodes and winners don't change within it."""
    return shown.round, shown.is_over


def _is_another(old: Standing, now: Standing) -> bool:
    """Whether the answers don't continue the earlier ones: for example, an older copy of the file is served now."""
    same_period = period(now.shown) == period(old.shown)
    return now.shown.count < old.shown.count or (same_period and now.nodes != old.nodes)


def _begin_of(tree: Tree, bidders: Iterable[str], old: Standing | None, now: Standing) -> Begin:
    """How this round began. `old` is the last state seen before it, if any was."""
    shown = now.shown
    if shown.round == 1 and not shown.is_over:
        waivers = tree.definition.waivers
        whos = {name: WhoShown(name, tree.bidders[name].units, 0, 0, waivers) for name in bidders}
        return Begin(Shown(1, 1, False, 0, 0), whos, True)
    is_exact = old is not None and not shown.is_over and shown.round == old.shown.round + 1 and shown.count == old.shown.count + 1
    return Begin(shown, now.whos, is_exact)
