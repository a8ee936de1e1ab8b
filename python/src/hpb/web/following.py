"""Follows an auction as a name may know it: changes become events, each once and in order, for any number of streams of the name.

An event's id is `COUNT-NEWS`: how many commands were accepted, as the name may know it, and the number of the last news that were sent.
A stream that begins behind an id gets the auction as it stands, and then all news behind that number. The front keeps the last 200 news;
a gap before them is an event, too.
"""
import asyncio
import contextlib
import json
import re
from collections.abc import AsyncGenerator
from dataclasses import dataclass
from typing import Final

from hpb.lines import Shown
from hpb.rounds import InformationShown, News
from hpb.rules.mock import is_mock
from hpb.web import documents
from hpb.web.links import Link
from hpb.web.problems import Problem, problem

# In seconds: between two questions, and until a silent stream gets a beat.
PACE, BEAT_SECONDS = 1.0, 5.0
# How many streams of one name there may be.
MOST_STREAMS: Final = 16
_ID: Final = re.compile(r"[0-9]{1,7}-([0-9]{1,9})")


@dataclass(frozen=True)
class Event:
    """`auction`, `news` or `missed`, with its document."""

    kind: str
    id: str
    document: documents.Document

    def text(self) -> bytes:
        """The event as it is sent."""
        return f"event: {self.kind}\nid: {self.id}\ndata: {json.dumps(self.document)}\n\n".encode()


@dataclass(frozen=True)
class State:
    """An auction as a name may know it, and the last news for the name."""

    shown: Shown
    information: InformationShown
    news: tuple[News, ...]

    @property
    def last(self) -> int:
        """The number of the last news; 0 if there are none."""
        return self.news[-1].number if self.news else 0


def read_id(text: str) -> int:
    """The number of the last news in a `Last-Event-ID`; 0 if there is none. A text that is no id is refused."""
    if not text:
        return 0
    if not (found := _ID.fullmatch(text)):
        raise problem("request", "Last-Event-ID: no id of an event")
    return int(found[1])


def events_between(link: Link, title: str, before: State | None, after: int, now: State) -> list[Event]:
    """The events of a stream that knows a state, or none, and was sent all news up to number `after`."""
    events, count, known = list[Event](), now.shown.count, after
    if before is None or (before.shown, before.information) != (now.shown, now.information):
        events.append(Event("auction", f"{count}-{after}", documents.auction_of(link.tree, now.shown, now.information, title, is_mock(link.tree.definition) or bool(link.client.is_mock()))))
    for one in now.news:
        if one.number <= known:
            continue
        if one.number > known + 1:
            events.append(Event("missed", f"{count}-{one.number - 1}", {"from": known + 1, "to": one.number - 1}))
        events.append(Event("news", f"{count}-{one.number}", documents.news_of(one)))
        known = one.number
    return events


class Following:
    """The changes of one name's auction. The front is asked while there are streams."""

    def __init__(self, link: Link, title: str, pace: float = PACE) -> None:
        self._link, self._title, self._pace = link, title, pace
        self._streams = 0
        self._state: State | None = None
        self._changed = asyncio.Condition()
        self._looking = asyncio.Lock()
        self._task: asyncio.Task[None] | None = None

    async def events(self, after: int) -> AsyncGenerator[list[Event], None]:
        """The events of a stream, those that belong together at a time. None at all are a beat.

        It begins with the auction as it stands, and with all news behind number `after`. If the token isn't known any more, the `Problem`
        is raised.
        """
        if self._streams >= MOST_STREAMS:
            raise problem("busy", Retry_After="5")
        self._streams += 1
        try:
            async for found in self._changes(after):
                yield found
        finally:
            self._streams -= 1
            if not self._streams and self._task:
                self._task.cancel()
                self._task = self._state = None

    async def _changes(self, after: int) -> AsyncGenerator[list[Event], None]:
        known: State | None = None
        await self._tried()
        while True:
            if self._task is None:
                self._task = asyncio.get_running_loop().create_task(self._follow())
            now = await self._next(known)
            if self._task and self._task.done():
                self._task.result()
            if now is None or now is known:
                yield []
                continue
            events = events_between(self._link, self._title, known, after, now)
            known, after = now, max(after, now.last)
            if events:
                yield events

    async def _next(self, known: State | None) -> State | None:
        """The state after a known one, or the same if there is no other in time."""
        async with self._changed:
            with contextlib.suppress(TimeoutError):
                async with asyncio.timeout(BEAT_SECONDS):
                    await self._changed.wait_for(lambda: self._state is not known or (self._task is not None and self._task.done()))
        return self._state

    async def _follow(self) -> None:
        """Asks again and again. If the front doesn't answer, the state stays."""
        try:
            while True:
                await self._tried()
                await asyncio.sleep(self._pace)
        finally:
            async with self._changed:
                self._changed.notify_all()

    async def _tried(self) -> None:
        try:
            async with self._looking:
                await self._look()
        except Problem as fault:
            if fault.word == "token":
                raise

    async def _look(self) -> None:
        shown, information = await self._link.shown()
        now = State(shown, information, tuple(await self._link.all_news()))
        if now != self._state:
            async with self._changed:
                self._state = now
                self._changed.notify_all()
