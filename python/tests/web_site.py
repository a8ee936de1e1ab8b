"""A site in this process, over a front in memory."""
from __future__ import annotations

import asyncio
import dataclasses
import logging
import pathlib
from collections.abc import AsyncIterator, Awaitable, Callable
from contextlib import asynccontextmanager
from typing import Any, TypeVar

from aiohttp.test_utils import TestClient, TestServer
from hpb.web.config import Config
from hpb.web.drafts import Drafts
from hpb.web.names import Names
from hpb.web.notes import Notes
from hpb.web.sending import Sender
from hpb.web.server import application_of, site_of
from web_front import Front, token_of

Value = TypeVar("Value")
SECONDS = 60


class Noted(logging.Handler):
    """What the site notes."""

    def __init__(self) -> None:
        super().__init__()
        self.lines: list[str] = []

    def emit(self, record: logging.LogRecord) -> None:
        """For `logging`."""
        self.lines.append(record.getMessage())


class Visitor:
    """A client of the site for a name. Without a name it has no token."""

    def __init__(self, client: TestClient, noted: Noted, names: Names) -> None:
        self.client, self.noted, self.names = client, noted, names

    def stop_clock(self) -> None:
        """From now on no time passes for tries that are slowed, however busy the machine is."""
        self.names._clock = lambda: 0.0

    async def ask(self, method: str, path: str, name: str | None = "ann", **more: Any) -> Any:
        """The answer to a request, read: `status`, `headers`, and the body as `read()`."""
        fields = {**({"Authorization": f"Bearer {token_of(name)}"} if name else {}), **more.pop("headers", {})}
        answer = await self.client.request(method, path, headers=fields, allow_redirects=False, **more)
        await answer.read()
        return answer

    async def get(self, path: str, name: str | None = "ann", **headers: str) -> Any:
        """The document at a path."""
        answer = await self.ask("GET", path, name, headers=headers)
        assert answer.status == 200, (path, await answer.text())
        return await answer.json()


def config_of(front: Front, **fields: Any) -> Config:
    """A configuration of a site of this front."""
    known: dict[str, Any] = dict(
        tree=front.tree, title="A trial", front=("localhost", 1), ca=None, plain=True, listen=("127.0.0.1", 0), certificate=None, key=None,
        names=(), behind_proxy=False, public=None, results=None, drafts=None,
    )
    return Config(**{**known, **fields})


@asynccontextmanager
async def visited(front: Front, results: pathlib.Path | None = None, **fields: Any) -> AsyncIterator[Visitor]:
    """A site of the front, while it lasts."""
    noted, logger = Noted(), logging.Logger("site")
    logger.addHandler(noted)
    config, notes = config_of(front, **fields), Notes(logger)
    names = Names(front.tree, front.connect, notes)
    site = site_of(dataclasses.replace(config, results=results))
    sender = Sender(Drafts(config.drafts))
    server = TestServer(application_of(config, site, names, sender, notes))
    await server.start_server(auto_decompress=False, logger=logging.Logger("silent", logging.CRITICAL + 1))
    async with TestClient(server) as client:
        yield Visitor(client, noted, names)
    await sender.end()


def run(body: Callable[[], Awaitable[Value]]) -> Value:
    """Runs a test's body in a loop of its own, with a limit of time."""

    async def limited() -> Value:
        async with asyncio.timeout(SECONDS):
            return await body()

    return asyncio.run(limited())
