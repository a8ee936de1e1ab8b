"""The round clock as a value: the plan, and when the open round ends. `rounds` moves it on.

All times are UTC, in seconds, and whole ones but for readings.
"""
import enum
from collections.abc import Mapping
from dataclasses import dataclass, field
from typing import Any

from hpb.front.times import UTC, Zone, exact_text_of_time, read_exact_time
from hpb.record.entries import Entry

# If UTC moves by more than this against the time that passes, the clock was set.
JUMP_SECONDS = 1.0
# If the end of a round is noticed later than this, bidders may have found the front closed: the clock pauses.
LATE_SECONDS = 5.0
# While a round is open the record has an entry at least each `BEAT_SECONDS`. If the front was away for longer than `AWAY_SECONDS`, the
# clock pauses.
BEAT_SECONDS, AWAY_SECONDS = 30.0, 120.0
WARNINGS = (600, 300, 60)


@dataclass(frozen=True)
class Plan:
    """The rounds of a configuration. There are windows, or lengths and gaps behind a first opening, or neither: then each round is opened by
    the auctioneer. `may_end` says that a close by the clock may end the auction."""

    zone: Zone = UTC
    windows: tuple[tuple[float, float], ...] = ()
    first: float | None = None
    length: int = 0
    gap: int = 0
    may_end: bool = False
    warnings: tuple[int, ...] = WARNINGS
    may_be_unsynchronised: bool = False

    def next(self, now: float, last: float | None) -> tuple[float, float] | None:
        """When the next round opens and ends, if it is known. `last` is when the last one was to open. A window that has begun isn't used
        any more, so no round is shorter than its window."""
        if self.first is None:
            coming = [window for window in self.windows if window[0] > now - LATE_SECONDS and (last is None or window[0] > last)]
            return coming[0] if coming else None
        opens = whole(max(now, self.first if last is None else now + self.gap))
        return opens, opens + self.length


@dataclass(frozen=True)
class Closing:
    """The rule for a close that would end the auction. If it is `plain`, `CLOSE t` ends it. Else the line has to say so; and if it
    `needs_second`, another name has to agree before."""

    is_plain: bool = False
    needs_second: bool = False


class At(enum.StrEnum):
    """The state of the clock's round: it isn't open yet; it is open; its time is over, and its commands are waited for; or the auction is
    over."""

    WAITS = enum.auto()
    OPEN = enum.auto()
    CLOSING = enum.auto()
    OVER = enum.auto()


class Why(enum.StrEnum):
    """The reasons of a pause: the auctioneer's; the front was away when it should have been there; UTC was set, or isn't synchronised any more.
    Or the close would end the auction; the server refused the close; the record's round isn't that of the file."""

    AUCTIONEER = enum.auto()
    AWAY = enum.auto()
    JUMP = enum.auto()
    UNSYNCHRONISED = enum.auto()
    END = enum.auto()
    REFUSED = enum.auto()
    RECORD = enum.auto()


@dataclass(frozen=True)
class Rounds:
    """The state of the rounds. If the clock isn't on, rounds are closed by the auctioneer alone, and only `round` counts."""

    is_on: bool = False
    # The state by the record, until the clock has begun.
    saved: Entry = field(default_factory=dict)
    has_begun: bool = False
    # The auction's open round, by SHOW.
    round: int = 1
    is_over: bool = False
    # How many rounds are closed, as far as the record says so.
    closed: int = 0
    at: At = At.WAITS
    opens: float | None = None
    until: float | None = None
    # Whether the close of this round may end the auction. When the last round was to open.
    ends: bool = False
    slot: float | None = None
    # Why the clock is paused, and how many seconds were left of the open round then.
    paused: str = ""
    left: float = 0.0
    to_warn: tuple[int, ...] = ()
    # The ticket of the close to whose end of the auction a second name agreed.
    agreed: int = 0
    # UTC is ahead of the front's time by `tie`. By the last reading it is by `offset`.
    tie: float | None = None
    offset: float = 0.0
    is_synchronised: bool = True
    # When the clock was last looked at, and when the record last heard of it.
    seen: float = 0.0
    beat: float = 0.0
    # The number of the last entry from which this state follows, since the front's start.
    entry: int = 0

    def fields(self, now: float) -> Entry:
        """The state as an entry has it."""
        return {
            "round": self.round, "closed": self.closed, "time": exact_text_of_time(now), "state": str(self.at),
            "opens": exact(self.opens), "until": exact(self.until),
            "ends": self.ends, "paused": str(self.paused), "left": round(self.left, 3), "slot": exact(self.slot),
        }


def restored(saved: Entry) -> Mapping[str, Any]:
    """The fields of a state by its entry."""
    times = {name: read_exact_time(saved[name]) if saved[name] else None for name in ("opens", "until", "slot")}
    return {**times, "at": At(saved["state"]), **{name: saved[name] for name in ("closed", "ends", "paused", "left")}}


def exact(time: float | None) -> str | None:
    return None if time is None else exact_text_of_time(time)


def whole(seconds: float) -> float:
    """The next whole second: nobody gets less time than is said."""
    return float(-(-seconds // 1))
