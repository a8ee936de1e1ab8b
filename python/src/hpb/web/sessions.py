"""Sessions of browsers: a cookie that nobody can guess, and a token that each form of the session bears. No input or output.

A session is new each time that somebody signs in: no cookie that a browser brought before is ever taken for one. The site keeps digests
of cookies alone. Times are in seconds.
"""
import hashlib
import hmac
import secrets
from collections.abc import Callable
from dataclasses import dataclass, field
from typing import Final

from hpb.web.links import Link

# `__Host-` makes a browser take the cookie from this host alone, over TLS, for all paths.
COOKIE, FORM_COOKIE = "__Host-hpb", "__Host-hpb-form"
IDLE_SECONDS: Final = 3_600.0
MOST_SECONDS: Final = 43_200.0
# If a name signs in more often, its oldest session ends.
MOST_OF_NAME: Final = 16


@dataclass
class Session:
    """A name that signed in: its link, the token of its forms, and when it began and was used last. `said` is shown once, on its next page."""

    name: str
    link: Link
    form: str
    began: float
    used: float
    said: list[tuple[str, str]] = field(default_factory=list)


def _digest(cookie: str) -> str:
    return hashlib.sha256(cookie.encode("utf-8", "surrogateescape")).hexdigest()


class Sessions:
    """The sessions that haven't ended, by the digest of their cookie."""

    def __init__(self, make: Callable[[], str] = lambda: secrets.token_urlsafe(32)) -> None:
        self._make = make
        self._sessions: dict[str, Session] = {}

    def begin(self, name: str, link: Link, now: float) -> str:
        """A new session. Returns its cookie."""
        own = [digest for digest, one in self._sessions.items() if one.name == name]
        for digest in own[: max(0, len(own) - MOST_OF_NAME + 1)]:
            del self._sessions[digest]
        cookie = self._make()
        self._sessions[_digest(cookie)] = Session(name, link, self._make(), now, now)
        return cookie

    def find(self, cookie: str, now: float) -> Session | None:
        """The session of a cookie. One that wasn't used for too long, or is too old, has ended."""
        digest = _digest(cookie)
        found = self._sessions.get(digest)
        if found is None:
            return None
        if now - found.used > IDLE_SECONDS or now - found.began > MOST_SECONDS:
            del self._sessions[digest]
            return None
        found.used = now
        return found

    def end(self, cookie: str) -> None:
        """Somebody signs out."""
        self._sessions.pop(_digest(cookie), None)

    def end_of(self, link: Link) -> None:
        """The front doesn't know the token of this link any more."""
        self._sessions = {digest: one for digest, one in self._sessions.items() if one.link is not link}


class Strangers:
    """Tokens of the form by which somebody signs in: each goes with a cookie of its own."""

    def __init__(self, key: bytes | None = None) -> None:
        self._key = key or secrets.token_bytes(32)

    def form_of(self, cookie: str) -> str:
        """The token of the form that goes with this cookie."""
        return hmac.new(self._key, cookie.encode("utf-8", "surrogateescape"), hashlib.sha256).hexdigest()


def is_same(one: str, other: str) -> bool:
    """Whether two tokens are the same, in a time that doesn't depend on them."""
    return hmac.compare_digest(one.encode("utf-8", "surrogateescape"), other.encode("utf-8", "surrogateescape"))
