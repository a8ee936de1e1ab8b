"""What holds for each request, whatever it asks for: its host, its length, and the fields of each answer."""
import asyncio
import ipaddress
from collections.abc import AsyncIterator, Awaitable, Callable, Collection
from contextlib import asynccontextmanager
from dataclasses import dataclass
from typing import Final, TypeAlias

from aiohttp import hdrs, web

from hpb.markup import Markup, element, joined
from hpb.pages.requests import is_own
from hpb.web.factors import Certificate
from hpb.web.html import notice, page
from hpb.web.notes import Notes
from hpb.web.problems import Problem, problem
from hpb.web.rendering import PROBLEM, json_of

Handler: TypeAlias = Callable[[web.Request], Awaitable[web.StreamResponse]]
MOST_BODY: Final = 65_536
# So many seconds a body may take.
BODY_SECONDS: Final = 10.0
API: Final = "/v1/"
HEADERS: Final = {
    "Content-Security-Policy": (
        "default-src 'none'; script-src 'self'; style-src 'self'; img-src 'self'; connect-src 'self'; base-uri 'none'; form-action 'self'; "
        "frame-ancestors 'none'; require-trusted-types-for 'script'; trusted-types 'none'"
    ),
    "X-Content-Type-Options": "nosniff",
    "X-Frame-Options": "DENY",
    # With `no-referrer` a browser wouldn't say its origin when it sends a form.
    "Referrer-Policy": "same-origin",
    "Cross-Origin-Resource-Policy": "same-origin",
    "Cross-Origin-Opener-Policy": "same-origin",
    "Cache-Control": "no-store",
    # Nobody needs to know which program it is made of.
    "Server": "hpb",
}
HSTS: Final = {"Strict-Transport-Security": "max-age=31536000"}


@dataclass(frozen=True)
class Way:
    """How browsers reach the site: by TLS or not, and through a proxy or not."""

    is_secure: bool
    behind_proxy: bool


def certificate_of(request: web.Request) -> Certificate | None:
    """The certificate of a request's connection, if one came and is trusted."""
    found = request.get_extra_info("ssl_object")
    return Certificate.of(found.getpeercert(True), found.getpeercert() or {}) if found else None


def address_of(request: web.Request, behind_proxy: bool) -> str:
    """The address that a request comes from. Behind a proxy it is the last one that the proxy names."""
    named = ",".join(request.headers.getall("X-Forwarded-For", [])).rpartition(",")[2].strip() if behind_proxy else ""
    try:
        return str(ipaddress.ip_address(named))
    except ValueError:
        return request.remote or ""


def guarded(names: Collection[str], is_secure: bool, notes: Notes, title: str) -> Callable[[web.Request, Handler], Awaitable[web.StreamResponse]]:
    """A middleware: looks at each request, turns a `Problem` into an answer, and adds the fields of each answer."""
    hosts = {"localhost", *names}

    @web.middleware
    async def guard(request: web.Request, handler: Handler) -> web.StreamResponse:
        try:
            look(request, hosts)
            response = await handler(request)
        except Problem as fault:
            response = problem_response(request, fault, title)
        except web.HTTPException as fault:
            response = problem_response(request, _of_http(fault), title)
        except (ConnectionError, TimeoutError):
            raise
        except Exception as fault:  # A fault of ours is answered and noted: the site goes on.
            notes.note("fault", path=request.path, why=repr(fault))
            response = problem_response(request, problem("fault"), title)
        if not response.prepared:
            add_headers(response, is_secure)
        return response

    return guard


def add_headers(response: web.StreamResponse, is_secure: bool) -> None:
    """The fields that each answer has."""
    for name, value in {**HEADERS, **(HSTS if is_secure else {})}.items():
        response.headers.setdefault(name, value)


def look(request: web.Request, hosts: Collection[str]) -> None:
    """A request for another host is refused, and so is a body whose length isn't given, or is too long, before it is read. A body comes as it
    is, without a coding, and no connection becomes one of another protocol.
    """
    if len(request.headers.getall("Host", [])) != 1 or not is_own(request.headers["Host"], hosts):
        raise problem("host")
    if "Transfer-Encoding" in request.headers or (request.method == "POST" and len(request.headers.getall("Content-Length", [])) != 1):
        raise problem("length")
    if request.method == hdrs.METH_POST and "Content-Encoding" in request.headers:
        raise problem("type", "a body has no coding here")
    if request.method == hdrs.METH_CONNECT or "websocket" in ",".join(request.headers.getall("Upgrade", [])).lower():
        raise problem("method", "there is no other protocol here")
    if (request.content_length or 0) > MOST_BODY:
        raise problem("large")


@asynccontextmanager
async def in_time() -> AsyncIterator[None]:
    """A body that takes too long is refused, and its connection ends."""
    try:
        async with asyncio.timeout(BODY_SECONDS):
            yield
    except TimeoutError:
        raise problem("late") from None


def _of_http(fault: web.HTTPException) -> Problem:
    """The problem of an answer that aiohttp gives by itself."""
    found = {404: problem("nothing"), 405: problem("method"), 413: problem("large")}.get(fault.status)
    if found is None:
        found = problem("request")
        found.status = fault.status
    if "Allow" in fault.headers:
        found.headers = {"Allow": fault.headers["Allow"]}
    return found


def problem_response(request: web.Request, fault: Problem, title: str) -> web.Response:
    """A problem as JSON, or as a page. If not all of the request was read, the connection ends: nothing behind it is taken for a request."""
    if request.path.startswith(API):
        response = web.Response(status=fault.status, body=json_of(fault.document()), content_type=PROBLEM, headers=fault.headers)
    else:
        data = page(title, f"{fault.status} {fault.word}", [problem_says(fault)])
        response = web.Response(status=fault.status, body=data, content_type="text/html", charset="utf-8", headers=fault.headers)
    if request.can_read_body or fault.word in ("length", "large", "host", "late", "type", "method"):
        response.force_close()
    return response


def problem_says(fault: Problem) -> Markup:
    """A problem in words."""
    number = f"{fault.number} " if fault.number is not None else ""
    text = f"{number}{fault.word}: {fault.detail or fault.meaning}. What to do: {fault.advice}."
    return joined([notice(text, "bad"), element("p", element("a", "To the first page", href="/"))])
