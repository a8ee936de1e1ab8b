"""The pages: signing in and out, and who may ask for which page. Each change needs the site's own origin, and the token of a form."""
import importlib.resources
import re
import secrets
import time
import urllib.parse
from collections.abc import AsyncIterator, Awaitable, Callable, Mapping, Sequence
from dataclasses import dataclass
from typing import Final, TypeAlias

from aiohttp import BodyPartReader, hdrs, web
from aiohttp.http import HttpProcessingError

from hpb.rounds import NOTICE
from hpb.web import bidding
from hpb.web.factors import Factors, NotUsable
from hpb.web.html import bar, notice, page
from hpb.web.links import Identity, Link
from hpb.web.names import Names
from hpb.web.problems import Problem, problem
from hpb.web.resources import Site
from hpb.web.sending import Sender
from hpb.web.sessions import COOKIE, FORM_COOKIE, Session, Sessions, Strangers, is_same
from hpb.web.walls import Handler, Way, address_of, certificate_of, in_time

STYLE: Final = importlib.resources.files("hpb.web").joinpath("site.css").read_bytes()
_MOST_FIELDS: Final = 300
# What the site itself gives a browser that opens the form to sign in.
_OF_FORM: Final = re.compile(r"[A-Za-z0-9_-]{43}")
_SAME_SITES: Final = ("same-origin", "none")
HOMES: Final = {"bidder": "/bid", "auctioneer": "/desk"}

Fields: TypeAlias = Mapping[str, str]


@dataclass(frozen=True)
class Visit:
    """A request of a session: its name, and the fields of its form, if it sends one."""

    request: web.Request
    session: Session
    identity: Identity
    fields: Fields

    @property
    def link(self) -> Link:
        """The name's connection to the front."""
        return self.session.link

    def field(self, name: str) -> str:
        """A field that the form has to have."""
        if name not in self.fields:
            raise problem("fields", f"{name}: missing")
        return self.fields[name]

    def number(self, name: str) -> int:
        """A field that is a whole number."""
        text = self.field(name)
        if not (text.isascii() and text.isdigit()) or len(text) > 10:
            raise problem("fields", f"{name}: no whole number")
        return int(text)

    def say(self, text: str, mark: str) -> None:
        """Says something on the session's next page."""
        self.session.said.append((text, mark))


Page: TypeAlias = Callable[[Visit], Awaitable[web.StreamResponse]]


class Pages:
    """The pages that everybody has, and the ways to the others."""

    def __init__(self, site: Site, names: Names, factors: Factors, sender: Sender, way: Way) -> None:
        self.site, self.sender = site, sender
        self._names, self._factors, self._notes, self._way = names, factors, names.notes, way
        self._sessions, self._strangers = Sessions(), Strangers()

    def add_to(self, application: web.Application) -> None:
        """Adds the routes."""
        router = application.router
        router.add_get("/site.css", self._style, allow_head=False)
        router.add_get("/", self._home, allow_head=False)
        router.add_get("/signin", self._sign_in_form, allow_head=False)
        router.add_post("/signin", self._sign_in)
        router.add_post("/signout", self.changing(self._sign_out))

    # Sessions.

    def seeing(self, show: Page, *kinds: str) -> Handler:
        """A page that is only looked at. Anybody who isn't signed in is asked to. Names of other kinds are refused."""

        async def handle(request: web.Request) -> web.StreamResponse:
            session = self._session_of(request)
            if session is None:
                return to_page("/signin")
            return await self._visit(request, session, {}, show, kinds)

        return handle

    def changing(self, change: Page, *kinds: str) -> Handler:
        """A form that is sent. It has to come from this site, with the token of the session's forms."""

        async def handle(request: web.Request) -> web.StreamResponse:
            self._look_at_origin(request)
            session = self._session_of(request)
            if session is None:
                raise problem("session")
            fields = await fields_of(request)
            if not is_same(fields.get("form", ""), session.form):
                raise problem("form")
            return await self._visit(request, session, fields, change, kinds)

        return handle

    async def _visit(self, request: web.Request, session: Session, fields: Fields, page_: Page, kinds: tuple[str, ...]) -> web.StreamResponse:
        self._factors.look(session.name, certificate_of(request), is_session=True)
        try:
            identity = await session.link.identity()
            if kinds and identity.kind not in kinds:
                raise problem("nothing", f"this page isn't for {identity.kind}s")
            return await page_(Visit(request, session, identity, fields))
        except Problem as fault:
            if fault.word != "token":
                raise
            self._sessions.end_of(session.link)
            await self._names.forget(session.link)
            raise problem("session", "the token isn't known any more") from None

    def _session_of(self, request: web.Request) -> Session | None:
        return self._sessions.find(cookie_of(request, COOKIE), time.monotonic())

    def _look_at_origin(self, request: web.Request) -> None:
        """A browser says from which site a form comes."""
        found: list[str] = request.headers.getall("Origin", [])
        scheme = "https" if self._way.is_secure else "http"
        if found != [f"{scheme}://{request.headers['Host']}"] or request.headers.get("Sec-Fetch-Site", "none") not in _SAME_SITES:
            raise problem("origin")

    # Pages.

    def answer(self, visit: Visit, heading: str, parts: Sequence[object], refresh: int = 0) -> web.Response:
        """A page of a session."""
        said = [notice(NOTICE)] if self.site.is_mock or visit.link.client.is_mock() else []
        said += [notice(text, mark) for text, mark in visit.session.said]
        visit.session.said.clear()
        top = bar(visit.session.name, visit.identity.kind, visit.session.form)
        return html(page(self.site.heading, heading, [*said, *parts], top, refresh))

    async def _style(self, request: web.Request) -> web.Response:
        return web.Response(body=STYLE, content_type="text/css", charset="utf-8")

    async def _home(self, request: web.Request) -> web.StreamResponse:
        session = self._session_of(request)
        if session is None:
            return to_page("/signin")
        return await self._visit(request, session, {}, self._way_home, ())

    async def _way_home(self, visit: Visit) -> web.StreamResponse:
        return to_page(HOMES.get(visit.identity.kind, "/results"))

    async def _sign_in_form(self, request: web.Request, status: int = 200, said: str = "") -> web.Response:
        known = cookie_of(request, FORM_COOKIE)
        cookie = known if _OF_FORM.fullmatch(known) else secrets.token_urlsafe(32)
        parts = [notice(NOTICE)] if self.site.is_mock else []
        parts += bidding.sign_in_page(self._strangers.form_of(cookie), said, self._factors.has_codes)
        response = html(page(self.site.heading, "Sign in", parts), status)
        put_cookie(response, FORM_COOKIE, cookie)
        return response

    async def _sign_in(self, request: web.Request) -> web.StreamResponse:
        self._look_at_origin(request)
        fields = await fields_of(request)
        cookie = cookie_of(request, FORM_COOKIE)
        if not cookie or not is_same(fields.get("form", ""), self._strangers.form_of(cookie)):
            raise problem("form")
        name, address = fields.get("name", "").strip()[:64], address_of(request, self._way.behind_proxy)
        try:
            link = await self._names.link_of(fields.get("token", "").strip(), address, name)
            self._look_at_factors(request, name, address, fields.get("code", "").strip())
        except Problem as fault:
            # Nobody learns here which of the two was wrong.
            said = self._wrong() if fault.word in ("token", "factor") else f"{fault.meaning.capitalize()}: {fault.advice}."
            response = await self._sign_in_form(request, fault.status, said)
            response.headers.update(fault.headers)
            return response
        response = to_page("/")
        self._sessions.end(cookie_of(request, COOKIE))
        put_cookie(response, COOKIE, self._sessions.begin(name, link, time.monotonic()))
        drop_cookie(response, FORM_COOKIE)
        self._notes.note("signin", address=address, name=name)
        return response

    def _wrong(self) -> str:
        said = "Name, token and code don't belong together" if self._factors.has_codes else "Name and token don't belong together"
        return f"{said}, or its certificate didn't come." if self._factors.has_certificates else f"{said}."

    def _look_at_factors(self, request: web.Request, name: str, address: str, code: str) -> None:
        """Looks at the second factors of a name that came with its token."""
        try:
            self._factors.look(name, certificate_of(request), is_session=True)
            self._factors.look_at_code(name, code, time.time())
        except Problem as fault:
            self._notes.note("factor", address=address, name=name, outcome=fault.word)
            raise
        except NotUsable as fault:
            self._notes.note("factor", address=address, name=name, outcome=str(fault))
            raise problem("kept") from None

    async def _sign_out(self, visit: Visit) -> web.StreamResponse:
        self._sessions.end(cookie_of(visit.request, COOKIE))
        self._notes.note("signout", address=address_of(visit.request, self._way.behind_proxy), name=visit.session.name)
        response = to_page("/signin")
        drop_cookie(response, COOKIE)
        return response


def html(data: bytes, status: int = 200) -> web.Response:
    """A page as an answer."""
    return web.Response(status=status, body=data, content_type="text/html", charset="utf-8")


def to_page(path: str) -> web.Response:
    """Leads a browser to a page of the site."""
    return web.Response(status=303, headers={"Location": path})


def put_cookie(response: web.Response, name: str, value: str) -> None:
    """A cookie for this host alone, over TLS, that no script reads and no other site sends."""
    response.headers.add("Set-Cookie", f"{name}={value}; Path=/; Secure; HttpOnly; SameSite=Strict")


def drop_cookie(response: web.Response, name: str) -> None:
    """The browser forgets the cookie."""
    response.headers.add("Set-Cookie", f"{name}=; Path=/; Secure; HttpOnly; SameSite=Strict; Max-Age=0")


def cookie_of(request: web.Request, name: str) -> str:
    """The value of a cookie; empty if there is none, or more than one of this name. Cookies of others may have any form."""
    pairs = [part.strip().partition("=") for part in ";".join(request.headers.getall("Cookie", [])).split(";")]
    found = [value for known, _, value in pairs if known == name]
    return found[0] if len(found) == 1 else ""


async def fields_of(request: web.Request) -> dict[str, str]:
    """The fields of a form, each once. A file's text is the field of its name."""
    read = {"application/x-www-form-urlencoded": _pairs_of, "multipart/form-data": _parts_of}.get(request.content_type)
    if read is None:
        raise problem("type", "the body isn't a form")
    found = dict[str, str]()
    try:
        async with in_time():
            async for name, value in read(request):
                if name in found or len(found) >= _MOST_FIELDS:
                    raise problem("fields", f"{name[:40]!a} stands twice, or there are too many fields")
                found[name] = value
    except (ValueError, LookupError, AssertionError, RuntimeError, HttpProcessingError) as fault:  # All that aiohttp has for a form that is none.
        raise problem("fields", f"the form can't be read: {str(fault)[:100]}") from None
    return found


async def _pairs_of(request: web.Request) -> AsyncIterator[tuple[str, str]]:
    """The fields of a short form, which is in UTF-8, whatever it says."""
    text = (await request.read()).decode("utf-8")
    for name, value in urllib.parse.parse_qsl(text, keep_blank_values=True, max_num_fields=_MOST_FIELDS):
        yield name, value


async def _parts_of(request: web.Request) -> AsyncIterator[tuple[str, str]]:
    """The fields of a form that may have a file. Nothing is unpacked."""
    parts = await request.multipart()
    while (part := await parts.next()) is not None:
        if not isinstance(part, BodyPartReader) or part.name is None:
            raise problem("fields", "a part of the form is no field")
        if part.headers.keys() & {hdrs.CONTENT_ENCODING, hdrs.CONTENT_TRANSFER_ENCODING}:
            raise problem("fields", f"{part.name[:40]!a} has a coding")
        try:
            yield part.name, bytes(await part.read()).decode("utf-8-sig")
        except UnicodeDecodeError:
            raise problem("fields", f"{part.name[:40]!a} isn't text in UTF-8") from None
