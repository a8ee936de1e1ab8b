"""`/v1` for programs: bearer tokens, JSON or CSV, problems of RFC 9457, and events. A shell of aiohttp round `resources`."""
import asyncio
import importlib.resources
import weakref
from collections.abc import Mapping
from typing import Final

from aiohttp import hdrs, web

from hpb.web.factors import Factors
from hpb.web.following import Event, Following, read_id
from hpb.web.intents import document_in
from hpb.web.links import Link
from hpb.web.names import Names
from hpb.web.problems import Problem, problem
from hpb.web.rendering import CSV, JSON, chosen, csv_of, json_of
from hpb.web.resources import RESOURCES, Asked, Reply, Resource, Site
from hpb.web.walls import Handler, Way, add_headers, address_of, certificate_of, in_time

# A stream whose reader takes nothing for so many seconds is ended.
STREAM_SECONDS: Final = 20.0
MOST_STREAMS: Final = 400
RETRY: Final = b"retry: 2000\n\n"
BEAT: Final = b": beat\n\n"
OPENAPI: Final = importlib.resources.files("hpb.web").joinpath("openapi.json").read_bytes()


def bearer_of(request: web.Request) -> str:
    """The token of a request. If it has none, or more than one, it is refused."""
    found: list[str] = request.headers.getall(hdrs.AUTHORIZATION, [])
    kind, _, token = found[0].partition(" ") if len(found) == 1 else ("", "", "")
    if kind.lower() != "bearer" or not token.strip():
        raise problem("token", WWW_Authenticate="Bearer")
    return token.strip()


class Api:
    """The handlers of `/v1`."""

    def __init__(self, site: Site, names: Names, factors: Factors, way: Way) -> None:
        self._site, self._names, self._factors, self._way = site, names, factors, way
        self._followings: weakref.WeakKeyDictionary[Link, Following] = weakref.WeakKeyDictionary()
        self._streams = 0

    def add_to(self, application: web.Application) -> None:
        """Adds the routes."""
        for (method, path), resource in RESOURCES.items():
            application.router.add_route(method, path, self._of(resource))
        application.router.add_get("/v1/events", self._events, allow_head=False)
        application.router.add_get("/v1/openapi.json", self._openapi, allow_head=False)

    async def _openapi(self, request: web.Request) -> web.Response:
        """The interface itself, which needs no token."""
        return web.Response(body=OPENAPI, content_type=JSON)

    def _of(self, resource: Resource) -> Handler:
        async def handle(request: web.Request) -> web.StreamResponse:
            kind = _look_at_accept(request)
            link = await self.link_of(request)
            body = await _body_of(request) if request.method == hdrs.METH_POST else {}
            try:
                return _rendered(await resource(self._site, Asked(link, request.match_info, body)), kind)
            except Problem as fault:
                await self._look_at(fault, link)
                raise

        return handle

    async def link_of(self, request: web.Request) -> Link:
        """The link of the request's token, whose name has come with its second factor if it has one."""
        link = await self._names.link_of(bearer_of(request), address_of(request, self._way.behind_proxy))
        self._factors.look(link.client.name(), certificate_of(request), is_session=False)
        return link

    async def _look_at(self, fault: Problem, link: Link) -> None:
        """If the front doesn't know a token any more, nor does the site."""
        if fault.word == "token":
            await self._names.forget(link)

    async def _events(self, request: web.Request) -> web.StreamResponse:
        after = read_id(request.headers.get("Last-Event-ID", ""))
        link = await self.link_of(request)
        return await self.stream(request, link, after)

    async def stream(self, request: web.Request, link: Link, after: int) -> web.StreamResponse:
        """Sends events until the reader goes, or takes nothing for too long."""
        if self._streams >= MOST_STREAMS:
            raise problem("busy", Retry_After="5")
        self._streams += 1
        events = self._followings.setdefault(link, Following(link, self._site.title)).events(after)
        try:
            first = await anext(events)
            response = web.StreamResponse(headers={"Content-Type": "text/event-stream; charset=utf-8", "X-Accel-Buffering": "no"})
            response.force_close()
            add_headers(response, self._way.is_secure)
            await response.prepare(request)
            await _send(response, RETRY + _text_of(first))
            async for found in events:
                await _send(response, _text_of(found))
        except (ConnectionError, TimeoutError):
            pass  # The reader has gone, or takes nothing.
        except Problem as fault:
            await self._look_at(fault, link)
            if "response" not in locals() or not response.prepared:
                raise
        finally:
            self._streams -= 1
            await events.aclose()
        return response


def _text_of(events: list[Event]) -> bytes:
    return b"".join(event.text() for event in events) or BEAT


async def _send(response: web.StreamResponse, data: bytes) -> None:
    async with asyncio.timeout(STREAM_SECONDS):
        await response.write(data)


def _look_at_accept(request: web.Request) -> str:
    """The form that a request accepts, or `Problem`. A command is answered by JSON alone."""
    kind = chosen(",".join(request.headers.getall(hdrs.ACCEPT, [])), (JSON, CSV) if request.method == hdrs.METH_GET else (JSON,))
    if kind is None:
        raise problem("accept")
    return kind


async def _body_of(request: web.Request) -> Mapping[str, object]:
    if request.content_type != JSON:
        raise problem("type")
    async with in_time():
        body = await request.read()
    return document_in(body)


def _rendered(reply: Reply, kind: str) -> web.Response:
    if kind == CSV and reply.columns:
        return web.Response(body=csv_of(reply.rows, reply.columns), content_type=CSV, charset="utf-8")
    if kind == CSV:
        raise problem("accept", "this is no list: accept application/json")
    return web.Response(body=json_of(reply.document), content_type=JSON)
