"""Problems of RFC 9457 (`application/problem+json`): what a request is answered if it isn't carried out.

`word` is the one of `hpb` or of the front, or one of `SITE`. `number` is that of `hpb`, if it has one. `advice` says what to do.
"""
from collections.abc import Mapping
from dataclasses import dataclass, field
from typing import Any, Final

from hpb.client.outcomes import NotWelcome, Unanswered
from hpb.lines import NoAnswer
from hpb.refusals import FrontRefused, HpbError, Refused

NAMES, STATE, VALUES = 404, 409, 422
# The status of each refusal of a command or a question.
STATUSES: Final[Mapping[int, int]] = {
    10: 400, 11: NAMES, 12: NAMES, 13: STATE, 14: STATE, 15: STATE, 20: STATE, 21: VALUES, 22: VALUES, 23: VALUES, 24: STATE, 25: STATE,
    26: STATE, 27: STATE, 28: STATE, 29: STATE,
}
# The same for the words of a front.
FRONT_STATUSES: Final[Mapping[str, int]] = {
    "rights": 403, "line": 400, "long": 400, "closed": STATE, "round": STATE, "clock": STATE, "end": STATE, "second": STATE,
    "unknown": NAMES, "running": STATE,
}
FRONT_ADVICE: Final[Mapping[str, str]] = {
    "rights": "sign in as a name that may do this",
    "closed": "look at the schedule, and send it when a round is open",
    "round": "look at the nodes, and bid in the new round",
    "clock": "look at the schedule: in a pause the auctioneer may close",
    "end": "say that the close is ending, if the auction is to end",
    "second": "have the second name agree first",
    "running": "wait for the end of the auction",
}


@dataclass(frozen=True)
class Kind:
    """A problem that the site itself has with a request."""

    status: int
    meaning: str
    advice: str


SITE: Final[Mapping[str, Kind]] = {
    "request": Kind(400, "the request isn't one of the interface", "compare it with /v1/openapi.json"),
    "token": Kind(401, "no token that the front knows", "send `Authorization: Bearer` and the token"),
    "factor": Kind(401, "the name needs its second factor", "come with its certificate, or sign in on the pages with a code that wasn't used"),
    "nothing": Kind(404, "there is nothing at this path", "compare it with /v1/openapi.json"),
    "absent": Kind(404, "the site doesn't have the results of this round", "take them from the record"),
    "method": Kind(405, "this path has no such method", "compare it with /v1/openapi.json"),
    "accept": Kind(406, "neither JSON nor CSV may be answered", "accept application/json or text/csv"),
    "late": Kind(408, "the body didn't come in time", "send it again"),
    "length": Kind(411, "the body's length isn't given", "send `Content-Length`"),
    "large": Kind(413, "the body is too long", "send 65,536 bytes at most"),
    "type": Kind(415, "the body isn't JSON", "send `Content-Type: application/json`"),
    "host": Kind(421, "the site isn't asked for by this name", "ask for it by one of its own names"),
    "slow": Kind(429, "too many tokens that nobody knows came from this address or for this name", "wait as long as `Retry-After` says"),
    "fault": Kind(500, "the site has a fault", "tell the operator; the same command may be sent again"),
    "busy": Kind(503, "too much of this name waits already", "wait as long as `Retry-After` says"),
    "away": Kind(503, "the front wasn't reached, and nothing was sent", "send it again later"),
    "unanswered": Kind(504, "the front didn't answer in time, so the command may be accepted or not", "send the same again: it counts once"),
}


# The same of pages alone.
PAGES: Final[Mapping[str, Kind]] = {
    "session": Kind(403, "nobody is signed in here, or not any more", "sign in; a draft that was sent before counts once"),
    "origin": Kind(403, "the form isn't one of this site", "load the page again, and send it from there"),
    "form": Kind(403, "the form isn't one of this session", "load the page again, and send it from there"),
    "fields": Kind(400, "a field of the form is missing or can't be read", "go back, and correct it"),
    "kept": Kind(503, "the site can't keep drafts now, so nothing was sent", "tell the operator"),
}


@dataclass(eq=False)
class Problem(Exception):
    """A request that isn't carried out, with its status and its words."""

    status: int
    word: str
    meaning: str
    advice: str
    number: int | None = None
    detail: str = ""
    headers: Mapping[str, str] = field(default_factory=dict)

    def document(self) -> dict[str, Any]:
        """The members of its JSON."""
        members: dict[str, Any] = {"type": f"/v1/problems#{self.word}", "title": self.meaning, "status": self.status, "word": self.word}
        if self.number is not None:
            members["number"] = self.number
        if self.detail:
            members["detail"] = self.detail
        return {**members, "advice": self.advice}


def problem(word: str, detail: str = "", **headers: str) -> Problem:
    """A problem of `SITE` or `PAGES`. Of a header's name `_` is `-`."""
    kind = SITE.get(word) or PAGES[word]
    return Problem(kind.status, word, kind.meaning, kind.advice, None, detail, {name.replace("_", "-"): value for name, value in headers.items()})


def problem_of(fault: HpbError) -> Problem:
    """The problem that a refusal or a lack of an answer is."""
    match fault:
        case Refused():
            return Problem(STATUSES.get(fault.number, 503), fault.word, fault.meaning, fault.advice, fault.number, fault.detail)
        case FrontRefused():
            meaning, advice = FrontRefused.MEANINGS.get(fault.word, "the front refuses it"), FRONT_ADVICE.get(fault.word, "look at docs/FRONT.md")
            return Problem(FRONT_STATUSES.get(fault.word, 503), fault.word, meaning, advice)
        case NotWelcome():
            return problem("token", WWW_Authenticate="Bearer")
        case Unanswered():
            return problem("unanswered" if fault.may_count else "away", Retry_After="2")
        case NoAnswer():
            return problem("fault", str(fault))
    return problem("away", str(fault), Retry_After="2")
