"""Times as lines and entries have them: UTC in seconds, and a text. Nothing here reads a clock (docs/ROUNDS.md)."""
import datetime
import math
import re

UTC = datetime.timezone.utc
Zone = datetime.tzinfo
_WHOLE = re.compile(r"([0-9]{4}-[0-9]{2}-[0-9]{2})T([0-9]{2}:[0-9]{2}(?::[0-9]{2})?)(Z?)", re.ASCII)
_OF_DAY = re.compile(r"[0-9]{2}:[0-9]{2}(?::[0-9]{2})?", re.ASCII)


class NoTime(ValueError):
    """A text that is no time, or that is none or two in its zone."""


def text_of_time(seconds: float) -> str:
    """A time in UTC, to the second: `2026-12-02T09:30:00Z`."""
    return datetime.datetime.fromtimestamp(math.floor(seconds), UTC).strftime("%Y-%m-%dT%H:%M:%SZ")


def exact_text_of_time(seconds: float) -> str:
    """The same to the millisecond, as entries have it: `2026-12-02T09:30:00.250Z`."""
    whole, thousandths = divmod(round(seconds * 1000), 1000)
    return f"{text_of_time(whole)[:-1]}.{thousandths:03}Z"


def read_exact_time(text: str) -> float:
    """The seconds of a text by `text_of_time` or `exact_text_of_time`. A ValueError says that it is none."""
    return datetime.datetime.fromisoformat(text).timestamp()


def read_time(text: str, zone: Zone, now: float | None = None) -> float:
    """The seconds of a time that somebody typed.

    - `2026-12-02T09:30:00Z` is UTC, and without `Z` it is of the zone.
    - `09:30` and `09:30:00` are of today in the zone, if it is known what today is.

    A NoTime says why the text is no time.
    """
    found = _WHOLE.fullmatch(text)
    try:
        if found:
            local = datetime.datetime.fromisoformat(f"{found[1]}T{found[2]}")
        elif now is not None and _OF_DAY.fullmatch(text):
            local = datetime.datetime.combine(datetime.datetime.fromtimestamp(now, zone).date(), datetime.time.fromisoformat(text))
        else:
            raise ValueError
    except ValueError:
        raise NoTime(f"{text!r} is no time as 2026-12-02T09:30:00Z is") from None
    return in_zone(local, UTC if found and found[3] else zone)


def in_zone(local: datetime.datetime, zone: Zone) -> float:
    """The seconds of a local time. A NoTime says that clocks are put forward past it, or show it twice."""
    first, second = (local.replace(tzinfo=zone, fold=fold) for fold in (0, 1))
    try:
        is_one = first.utcoffset() == second.utcoffset()
    except OverflowError:
        raise NoTime(f"{local.isoformat()} is out of all calendars") from None
    if not is_one:
        raise NoTime(f"{local.isoformat()} is {'none' if is_skipped(first) else 'two times'} in {zone}: give it in UTC, with Z")
    return first.timestamp()


def is_skipped(local: datetime.datetime) -> bool:
    """Whether the clocks of its zone are put forward past this time."""
    return datetime.datetime.fromtimestamp(local.timestamp(), local.tzinfo).replace(tzinfo=None) != local.replace(tzinfo=None)
