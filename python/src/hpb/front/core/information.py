"""The facts that each name may know (docs/FRONT.md): all that a front and its page say goes through `seen_by`.

A viewer is a name with its rights now. Without the table `[information]` each viewer has the rule that hides nothing.
"""
import enum
import re
from collections.abc import Iterable
from dataclasses import dataclass, replace
from typing import TypeVar

from hpb.front.rights import AUCTIONEER, Role, sender_and_ticket
from hpb.lines import NodeShown, Shown, WhoShown
from hpb.record.news import ALL, News
from hpb.rules.preview import Preview

@dataclass(frozen=True)
class Receipt:
    """The receipt of a command with this line. It is empty until there is a seal behind it."""

    command: bytes
    text: str


Fact = TypeVar("Fact", News, Preview, Receipt, Shown, NodeShown, WhoShown, Shown | NodeShown | WhoShown)
PSEUDONYM = "other"


class NotYet(Exception):
    """The fact tells of a close that the front doesn't know yet."""


class Identities(enum.StrEnum):
    """High bidders with names: all; the viewer's own, and pseudonyms for others; or the viewer's own alone."""

    ALL = enum.auto()
    OWN = enum.auto()
    NONE = enum.auto()


@dataclass(frozen=True)
class Rule:
    """The facts that names may know in a phase: which high bidders have names, and whether the revenue is shown. An exact `COUNT` is that of
    now; else it is that of the last close."""

    identities: Identities = Identities.ALL
    is_count_exact: bool = True
    has_revenue: bool = True

    def shows_all_of(self, other: "Rule") -> bool:
        """Whether it hides nothing that the other rule shows."""
        order = list(Identities)
        is_count, is_revenue = self.is_count_exact >= other.is_count_exact, self.has_revenue >= other.has_revenue
        return order.index(self.identities) <= order.index(other.identities) and is_count and is_revenue


EVERYTHING = Rule()


@dataclass(frozen=True)
class Information:
    """The table `[information]`: the rule while the auction runs, the one after it is unveiled, and the observers that see all."""

    running: Rule = EVERYTHING
    unveiled: Rule = EVERYTHING
    observers: tuple[str, ...] = ()


@dataclass(frozen=True)
class Veil:
    """The parts of the auction's past that rules need. `counts` has how many commands were accepted by the close with number `first`, and by
    each one behind it. `order` has the bidders in the order of their first high bids. `is_lifted` says whether all is unveiled, by the entry
    with the number `entry` since the front's start."""

    is_lifted: bool = False
    first: int = 0
    counts: tuple[int, ...] = (0,)
    order: tuple[str, ...] = ()
    entry: int = 0

    @property
    def closes(self) -> int:
        """How many closes it knows of."""
        return self.first + len(self.counts) - 1

    def count_after(self, closes: int) -> int:
        """How many commands were accepted by so many closes. A NotYet says that it isn't known."""
        if closes > self.closes:
            raise NotYet
        return self.counts[max(0, closes - self.first)]

    def closed(self, closes: int, count: int) -> "Veil":
        """Another close was accepted, as command number `count`."""
        return replace(self, counts=(*self.counts, *[count] * (closes - self.closes)))

    def met(self, bidders: Iterable[str | None]) -> "Veil":
        """These bidders have high bids."""
        return replace(self, order=tuple(dict.fromkeys([*self.order, *(bidder for bidder in bidders if bidder)])))


@dataclass(frozen=True)
class Viewer:
    """A name with its rights now. Pseudonyms begin with `prefix`."""

    name: str
    role: Role
    rule: Rule = EVERYTHING
    veil: Veil = Veil()
    prefix: str = PSEUDONYM

    @property
    def is_trusted(self) -> bool:
        """Whether it sees all, whatever the rules say."""
        return self.role.kind == AUCTIONEER or self.role.sees_all

    def name_for(self, bidder: str | None) -> str | None:
        """The name for a high bid's bidder, or None if it has none. A pseudonym stays the same as long as the auction lasts. A NotYet says that
        the bidder's first high bid isn't known yet."""
        if bidder is None or self.rule.identities is Identities.ALL or bidder in self.role.bidders:
            return bidder
        if self.rule.identities is Identities.NONE:
            return None
        others = [one for one in self.veil.order if one not in self.role.bidders]
        if bidder not in others:
            raise NotYet
        return f"{self.prefix}{others.index(bidder) + 1}"


def viewer_of(information: Information | None, veil: Veil, name: str, role: Role, prefix: str = PSEUDONYM) -> Viewer:
    """The viewer of a name."""
    viewer = Viewer(name, role, EVERYTHING, veil, prefix)
    if information is None or viewer.is_trusted:
        return viewer
    return replace(viewer, rule=information.unveiled if veil.is_lifted else information.running)


def prefix_for(bidders: Iterable[str]) -> str:
    """The beginning of pseudonyms. None of them is the name of one of these bidders."""
    names = list(bidders)
    prefixes = (PSEUDONYM + "_" * more for more in range(len(names) + 1))
    return next(prefix for prefix in prefixes if not any(re.fullmatch(rf"{prefix}[0-9]+", name) for name in names))


def closes_in(shown: Shown) -> int:
    """How many rounds are closed, by SHOW."""
    return shown.round - (not shown.is_over)


def seen_by(viewer: Viewer, fact: Fact) -> Fact | None:
    """The fact as a viewer may know it, or None if it may not. News are for all, or for one name and the auctioneer. A look at what a close
    would do is for the auctioneer, since it shows bids of the open round. A receipt is for the command's own sender. A NotYet says that the fact is
    to wait."""
    if isinstance(fact, Preview):
        return fact if viewer.role.kind == AUCTIONEER else None
    if isinstance(fact, News):
        return fact if fact.to in (ALL, viewer.name) or viewer.role.kind == AUCTIONEER else None
    if isinstance(fact, Receipt):
        sender, _ = sender_and_ticket(fact.command)
        is_own = viewer.role.kind == AUCTIONEER if sender is None else sender in viewer.role.bidders
        return fact if is_own else None
    if isinstance(fact, WhoShown):
        return fact if viewer.is_trusted or fact.bidder in viewer.role.bidders else None
    if isinstance(fact, NodeShown):
        return replace(fact, bidder=viewer.name_for(fact.bidder))
    rule = viewer.rule
    count = fact.count if rule.is_count_exact else viewer.veil.count_after(closes_in(fact))
    return replace(fact, count=count, revenue=fact.revenue if rule.has_revenue else 0)
