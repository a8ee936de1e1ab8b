"""The lines and answers of a front whose rounds keep time (docs/ROUNDS.md). `hpb serve` itself has none of them.

`AskFront("SCHEDULE")` is such a line. A line that changes something may be sent twice if its connection is lost; only `SAY` then counts twice.
"""
import re
from dataclasses import dataclass
from typing import Final, TypeAlias

from hpb.limits import NAME

# The word that a front's greeting ends with if its auction is a mock, and the sentence for people.
MOCK: Final = "MOCK"
NOTICE: Final = "MOCK auction: a rehearsal. Nothing of it counts."


@dataclass(frozen=True, slots=True)
class AskFront:
    """A line that a front answers by itself."""

    text: str


@dataclass(frozen=True, slots=True)
class Schedule:
    """The answer to `SCHEDULE`: the auction's round, and what the round clock does: `none`, `waits`, `open`, `closing`, `paused` or `over`.

    Times are UTC, as `2026-12-02T09:30:00Z`; None if there is none. `left` is how many seconds the open round has left. `now` is the
    front's time.
    """

    round: int
    state: str
    opens: str | None
    until: str | None
    left: int
    now: str


@dataclass(frozen=True, slots=True)
class News:
    """The answer to `EVENT`: a change of the clock, or an announcement. Announcements begin with `SAY` and for whom they are."""

    number: int
    time: str
    text: str

    @property
    def said(self) -> str | None:
        """The text of an announcement. If it is other news, None."""
        return self.text.split(" ", 2)[2].encode("latin-1").decode(errors="replace") if self.text.startswith("SAY ") else None


@dataclass(frozen=True, slots=True)
class NoNews:
    """The answer to `EVENT` if there is nothing new."""


@dataclass(frozen=True, slots=True)
class ReadUpTo:
    """The answer to `READ`: the number of the last news that the name has read."""

    number: int


@dataclass(frozen=True, slots=True)
class Agreed:
    """The answer to `AGREE`: a second name agrees that the close with this ticket ends the auction."""

    ticket: int


@dataclass(frozen=True, slots=True)
class Previewed:
    """The answer to `PREVIEW`: what a close would do now. The numbers count bidders: those that lack activity, of whom a waiver would be taken,
    who would lose eligibility. `revenue` is that after the close.
    """

    round: int
    revenue: int
    short: int
    waivers: int
    losing: int
    ends: bool


@dataclass(frozen=True, slots=True)
class Prospect:
    """The answer to `PREVIEW bidder`. `short` is how many units it lacks; `waiver` is `own` if it sent one, `auto` if the close takes one, else
    `none`; `after` is its eligibility after the close.
    """

    bidder: str
    eligibility: int
    activity: int
    short: int
    waiver: str
    after: int


@dataclass(frozen=True, slots=True)
class InformationShown:
    """The answer to `INFORMATION`: what this name may know now. A front whose configuration has no such rules refuses the question.

    `phase` is `running` or `unveiled`. `identities` is `all`, `own` (others have pseudonyms) or `none` (others have no name). If the count
    isn't exact, `COUNT` is that of the last close. If the revenue isn't shown, `REVENUE` is 0.
    """

    phase: str
    identities: str
    is_count_exact: bool
    has_revenue: bool


@dataclass(frozen=True, slots=True)
class SealShown:
    """The answer to `SEAL`: a seal's number, and the whole answer, which `hpb-verify --seals` takes (docs/VERIFY.md)."""

    number: int
    text: str


@dataclass(frozen=True, slots=True)
class ReceiptGiven:
    """The answer to `RECEIPT`: a command's number, and its receipt in JSON, which `hpb-verify --receipt` takes."""

    number: int
    text: str


FrontAnswer: TypeAlias = Schedule | News | NoNews | ReadUpTo | Agreed | Previewed | Prospect | InformationShown | SealShown | ReceiptGiven

_WHOLE, _NAME, _TIME = r"(0|[1-9][0-9]{0,19})", NAME.pattern, r"([0-9]{4}-[0-9]{2}-[0-9]{2}T[0-9]{2}:[0-9]{2}:[0-9]{2}Z)"
_SCHEDULE = re.compile(rf"SCHEDULE ROUND {_WHOLE} STATE ([a-z]+) OPENS (?:-|{_TIME}) UNTIL (?:-|{_TIME}) LEFT {_WHOLE} NOW {_TIME}")
_EVENT = re.compile(rf"EVENT ([1-9][0-9]{{0,8}}) {_TIME} ([A-Z]+ .*)", re.DOTALL)
_READ, _AGREE = re.compile(rf"READ {_WHOLE}"), re.compile(rf"AGREE {_WHOLE}")
_SUM = re.compile(rf"PREVIEW ROUND {_WHOLE} REVENUE {_WHOLE} SHORT {_WHOLE} WAIVERS {_WHOLE} LOSING {_WHOLE} ENDS (yes|no)")
_PROSPECT = re.compile(
    rf"PREVIEW ({_NAME}) ELIGIBILITY {_WHOLE} ACTIVITY {_WHOLE} SHORT {_WHOLE} WAIVER (own|auto|none) AFTER {_WHOLE}"
)

_SEAL = re.compile(r"SEAL ([1-9][0-9]{0,9}) AT .* SIGNED [0-9a-f]{128}( .*)?")
_RECEIPT = re.compile(r"RECEIPT ([1-9][0-9]{0,6}) (\{.*\})")
_INFORMATION = re.compile(r"INFORMATION (running|unveiled) IDENTITIES (all|own|none) COUNT (exact|closes) REVENUE (yes|no)")


def parse_front_answer(text: str) -> FrontAnswer | None:
    """The answer in a line, if it is one of a front itself."""
    if found := _SCHEDULE.fullmatch(text):
        return Schedule(int(found[1]), found[2], found[3], found[4], int(found[5]), found[6])
    if found := _EVENT.fullmatch(text):
        return News(int(found[1]), found[2], found[3])
    if text == "EVENT -":
        return NoNews()
    if found := _READ.fullmatch(text):
        return ReadUpTo(int(found[1]))
    if found := _AGREE.fullmatch(text):
        return Agreed(int(found[1]))
    if found := _SUM.fullmatch(text):
        round_, revenue, short, waivers, losing = (int(word) for word in found.groups()[:5])
        return Previewed(round_, revenue, short, waivers, losing, found[6] == "yes")
    if found := _PROSPECT.fullmatch(text):
        return Prospect(found[1], int(found[2]), int(found[3]), int(found[4]), found[5], int(found[6]))
    if found := _INFORMATION.fullmatch(text):
        return InformationShown(found[1], found[2], found[3] == "exact", found[4] == "yes")
    if found := _SEAL.fullmatch(text):
        return SealShown(int(found[1]), text)
    if found := _RECEIPT.fullmatch(text):
        return ReceiptGiven(int(found[1]), found[2])
    return None


def format_front_answer(answer: FrontAnswer) -> str:
    """The text of such an answer."""
    match answer:
        case Schedule(round_, state, opens, until, left, now):
            return f"SCHEDULE ROUND {round_} STATE {state} OPENS {opens or '-'} UNTIL {until or '-'} LEFT {left} NOW {now}"
        case News(number, time, text):
            return f"EVENT {number} {time} {text}"
        case NoNews():
            return "EVENT -"
        case ReadUpTo(number):
            return f"READ {number}"
        case Agreed(ticket):
            return f"AGREE {ticket}"
        case Previewed(round_, revenue, short, waivers, losing, ends):
            sums = f"SHORT {short} WAIVERS {waivers} LOSING {losing}"
            return f"PREVIEW ROUND {round_} REVENUE {revenue} {sums} ENDS {'yes' if ends else 'no'}"
        case Prospect(bidder, eligibility, activity, short, waiver, after):
            return f"PREVIEW {bidder} ELIGIBILITY {eligibility} ACTIVITY {activity} SHORT {short} WAIVER {waiver} AFTER {after}"
        case InformationShown(phase, identities, is_count_exact, has_revenue):
            count = "exact" if is_count_exact else "closes"
            return f"INFORMATION {phase} IDENTITIES {identities} COUNT {count} REVENUE {'yes' if has_revenue else 'no'}"
        case SealShown(_, text):
            return text
        case ReceiptGiven(number, text):
            return f"RECEIPT {number} {text}"
