"""The names that use the site: a link for each token that the front knows, and how tries of other tokens are slowed."""
import asyncio
import hashlib
import math
import time
from collections.abc import Callable
from typing import Final

from hpb.client.outcomes import NotWelcome
from hpb.refusals import HpbError
from hpb.rules.tree import Tree
from hpb.web.links import Asks, Link
from hpb.web.notes import Notes
from hpb.web.problems import problem, problem_of
from hpb.web.slowing import Slowing

# So many tokens are tried at the front at a time, and so many more may wait for that.
MOST_TRIES, MOST_WAITING = 8, 64
# A link that nobody has used for so many seconds is ended.
IDLE_SECONDS: Final = 3_600.0

# Makes a client for a token. A text that can't be one raises ValueError.
Connects = Callable[[str], Asks]


def digest_of(token: str) -> str:
    """By this a token is known here: the site keeps no list of tokens."""
    return hashlib.sha256(token.encode("utf-8", "surrogateescape")).hexdigest()


class Names:
    """Links by token."""

    def __init__(self, tree: Tree, connects: Connects, notes: Notes, clock: Callable[[], float] = time.monotonic) -> None:
        self._tree, self._connects, self.notes, self._clock = tree, connects, notes, clock
        self._links: dict[str, Link] = {}
        self._tries = asyncio.Semaphore(MOST_TRIES)
        self._waiting = 0
        self._slowing = Slowing()

    async def link_of(self, token: str, address: str, said: str | None = None) -> Link:
        """The link of a token. `said` is the name by which somebody signs in with it. If the front doesn't know the token, or by another name,
        the `Problem` is `token`; if there were too many such tries, `slow`.
        """
        known = self._links.get(digest_of(token))
        if known and said in (None, known.client.name()):
            return known
        if wait := self._slowing.wait(address, said, self._clock()):
            self.notes.note("slowed", address=address, name=said)
            raise problem("slow", Retry_After=str(math.ceil(wait)))
        link = None if known else await self._tried(token)
        if link is None or said not in (None, link.client.name()):
            self._slowing.failed(address, said, self._clock())
            self.notes.note("token", address=address, name=said, outcome="unknown")
            raise problem("token", WWW_Authenticate="Bearer")
        self._slowing.succeeded(address, said)
        self.notes.note("token", address=address, name=link.client.name(), outcome="welcome")
        return link

    async def _tried(self, token: str) -> Link | None:
        """A link of a token that wasn't used yet, or None if the front doesn't know the token."""
        if self._waiting >= MOST_WAITING:
            raise problem("busy", Retry_After="1")
        self._waiting += 1
        try:
            async with self._tries:
                return await self._made(token)
        finally:
            self._waiting -= 1

    async def _made(self, token: str) -> Link | None:
        digest = digest_of(token)
        if known := self._links.get(digest):
            return known
        try:
            client = self._connects(token)
        except ValueError:
            return None
        outcome = (await client.ask(["SHOW"]))[0]
        if isinstance(outcome, NotWelcome):
            await client.end()
            return None
        if not client.name():
            await client.end()
            raise problem_of(outcome) if isinstance(outcome, HpbError) else problem("away")
        await self._end_idle()
        link = self._links[digest] = Link(client, self._tree)
        return link

    async def _end_idle(self) -> None:
        now = time.monotonic()
        for link in [link for link in self._links.values() if now - link.used > IDLE_SECONDS]:
            await self.forget(link)

    async def forget(self, link: Link) -> None:
        """Ends a link: nobody uses it, or the front doesn't know its token any more."""
        for digest, known in list(self._links.items()):
            if known is link:
                del self._links[digest]
        await link.client.end()

    def is_known(self, link: Link) -> bool:
        """Whether the link is one of those in use."""
        return any(known is link for known in self._links.values())

    async def end(self) -> None:
        """Ends all links."""
        for link in list(self._links.values()):
            await self.forget(link)
