"""A name's connection to the front, and the questions over it. All requests of one token share a connection."""
import time
from collections.abc import Mapping, Sequence
from dataclasses import dataclass
from typing import Final, Protocol, TypeVar

from hpb.client.aio import AsyncClient
from hpb.client.calls import answers_of
from hpb.limits import MOST_COMMANDS
from hpb.lines import Accepted, Answer, NodeShown, Shown, WhoShown
from hpb.refusals import FrontRefused, HpbError
from hpb.rounds import Agreed, InformationShown, News, NoNews, Previewed, Prospect, ReadUpTo, Schedule
from hpb.rules.tree import Tree
from hpb.web.documents import ALL_SHOWN, bidders_of
from hpb.web.problems import problem, problem_of

Told = TypeVar("Told", Accepted, Shown, NodeShown, WhoShown, Schedule, News, ReadUpTo, Agreed, Previewed, Prospect)
# How many requests of one name may wait at a time.
MOST_WAITING: Final = 64
# For so many seconds a name's rights are known. A front may read its configuration again, and give it others.
IDENTITY_SECONDS: Final = 30.0
# So many news a front keeps.
MOST_NEWS: Final = 200
AUCTIONEER, BIDDER, OBSERVER = "auctioneer", "bidder", "observer"
# No auction comes to this round, since a round has a command at least besides its close. A front refuses a waiver for it before anything else happens to it: by `round`, if the waiver is the name's
# to send, and by `rights` if it isn't.
_NO_ROUND: Final = MOST_COMMANDS
_SHOW, _INFORMATION, _PREVIEW = "SHOW", "INFORMATION", "PREVIEW"


class Asks(Protocol):
    """A client of a front."""

    async def ask(self, lines: Sequence[str]) -> list[Answer | HpbError]:
        """The outcome of each line, in their order."""

    def name(self) -> str:
        """The name by which the front knows the client."""

    def is_mock(self) -> bool | None:
        """Whether the front said that its auction is a mock."""

    async def end(self) -> None:
        """Ends the connection."""


@dataclass(frozen=True)
class Identity:
    """A name, its kind, and the bidders about whom it may ask."""

    name: str
    kind: str
    bidders: tuple[str, ...]

    @property
    def own(self) -> tuple[str, ...]:
        """The bidders for whom it may bid."""
        return self.bidders if self.kind == BIDDER else ()


@dataclass(frozen=True)
class Standing:
    """The auction after the last close, as a name may know it."""

    shown: Shown
    nodes: Mapping[str, NodeShown]
    information: InformationShown


class Link:
    """One name's questions and commands, over one client."""

    def __init__(self, client: Asks, tree: Tree) -> None:
        self.client, self.tree, self.used = client, tree, time.monotonic()
        self._identity: Identity | None = None
        self._asked = 0.0
        self._standing: Standing | None = None
        self._news: list[News] = []
        self._waiting = 0

    async def answers(self, *lines: str) -> list[Answer]:
        """The answers to lines, refusals included. If there is none in time, or the token isn't known any more, a `Problem` is raised."""
        if self._waiting >= MOST_WAITING:
            raise problem("busy", Retry_After="1")
        self._waiting += 1
        self.used = time.monotonic()
        try:
            return answers_of(await self.client.ask(lines))
        except HpbError as fault:
            raise problem_of(fault) from None
        finally:
            self._waiting -= 1

    async def one(self, line: str, kind: type[Told]) -> Told:
        """The answer to a line, which has to be of this kind. A refusal is raised as a `Problem`."""
        return read_as((await self.answers(line))[0], kind)

    async def all(self, lines: Sequence[str], kind: type[Told]) -> list[Told]:
        """The same for several lines."""
        return [read_as(answer, kind) for answer in (await self.answers(*lines) if lines else ())]

    async def identity(self) -> Identity:
        """The name, its kind and its bidders. The front has no line for that, so it is found by what the front refuses."""
        now = time.monotonic()
        if self._identity is None or now - self._asked > IDENTITY_SECONDS:
            self._identity, self._asked = await self._found(), now
        return self._identity

    async def _found(self) -> Identity:
        answers = await self.answers(*(f"WHO {bidder}" for bidder in bidders_of(self.tree)))
        seen = tuple(answer.bidder for answer in answers if isinstance(answer, WhoShown))
        if not seen:
            return Identity(self.client.name(), OBSERVER, ())
        waiver, preview = await self.answers(f"IN {_NO_ROUND} WAIVE {seen[0]} 0", _PREVIEW)
        if _is_refused(waiver, "round"):
            return Identity(self.client.name(), BIDDER, seen)
        return Identity(self.client.name(), OBSERVER if _is_refused(preview, "rights") else AUCTIONEER, seen)

    async def shown(self) -> tuple[Shown, InformationShown]:
        """The state of the auction, and what the name may know of it."""
        shown, information = await self.answers(_SHOW, _INFORMATION)
        return read_as(shown, Shown), information if isinstance(information, InformationShown) else ALL_SHOWN

    async def standing(self) -> Standing:
        """All nodes after one close. They are asked for again if a close came, or if the name may know more."""
        shown, information = await self.shown()
        while self._standing is None or not _is_same(self._standing, shown, information):
            nodes = await self.all([f"NODE {name}" for name in self.tree.nodes], NodeShown)
            before, (shown, information) = (shown, information), await self.shown()
            if _period(before[0]) == _period(shown) and before[1] == information:
                self._standing = Standing(shown, {node.name: node for node in nodes}, information)
        self._standing = Standing(shown, self._standing.nodes, information)
        return self._standing

    async def whos(self, bidders: Sequence[str]) -> list[WhoShown]:
        """These bidders as of now."""
        return await self.all([f"WHO {bidder}" for bidder in bidders], WhoShown)

    async def news(self, after: int | None) -> News | None:
        """The first news behind a number, or behind those that the name has read."""
        answer = (await self.answers("EVENT" if after is None else f"EVENT {after}"))[0]
        return None if isinstance(answer, NoNews) else read_as(answer, News)

    async def all_news(self) -> list[News]:
        """The last news for the name, as many as a front keeps. Those that came before aren't asked for again."""
        while one := await self.news(self._news[-1].number if self._news else 0):
            self._news = [*self._news, one][-MOST_NEWS:]
        return self._news


def read_as(answer: Answer, kind: type[Told]) -> Told:
    """The answer as one of this kind. A refusal is raised as a `Problem`, and so is any other answer."""
    if isinstance(answer, HpbError):
        raise problem_of(answer)
    if not isinstance(answer, kind):
        raise problem("fault", f"the front answers {str(answer)[:100]!a}")
    return answer


def _is_refused(answer: Answer, word: str) -> bool:
    return isinstance(answer, FrontRefused) and answer.word == word


def _period(shown: Shown) -> tuple[int, bool]:
    return shown.round, shown.is_over


def _is_same(known: Standing, shown: Shown, information: InformationShown) -> bool:
    return _period(known.shown) == _period(shown) and known.information == information


def client_of(address: tuple[str, int], token: str, ca: str | None, plain: bool, seconds: float) -> AsyncClient:
    """A client of the front with this token. A text that can't be a token raises ValueError."""
    return AsyncClient(*address, token=token, ca=ca, plain=plain, timeout=seconds)
