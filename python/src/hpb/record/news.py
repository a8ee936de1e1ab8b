"""The round clock, the news and the veil in a record: entries of the kinds `clock`, `said`, `read`, `met` and `unveiled` (docs/FRONT.md).

An entry `clock` has the whole state of the round clock after a change, so the last one is enough to go on. News are for
everybody or for one name: each has a number, and stands in the entry of its change.
"""
from collections.abc import Iterable
from typing import NamedTuple

from hpb.record.entries import Entry

ALL = "all"
CLOCK, SAID, READ = "clock", "said", "read"
# The order of first high bids, from which pseudonyms follow; and that all is unveiled.
MET, UNVEILED = "met", "unveiled"
# So many news are kept for each name. Those for one name push out none of another's, since that would show that there were some.
MOST_NEWS = 200
# The fields of the clock's state in an entry; besides them it has `what` happened, and the number of its news as `news`.
STATE_FIELDS = ("round", "closed", "time", "state", "opens", "until", "ends", "paused", "left", "slot")


class News(NamedTuple):
    """One piece of news: its number from 1, its time in UTC, for whom it is, and its text. `entry` counts entries since the front's start: the
    news leave once that entry is on the disk."""

    number: int
    time: str
    to: str
    text: str
    entry: int = 0


def kept(news: Iterable[News], one: News) -> list[News]:
    """The kept news after one more: the last ones for all, and the last ones for each name."""
    found = [*news, one]
    same = [place for place, other in enumerate(found) if other.to == one.to]
    if len(same) > MOST_NEWS:
        del found[same[0]]
    return found


def news_of(entry: Entry) -> News | None:
    """The news in an entry, if it has some."""
    if not entry.get("news"):
        return None
    if entry["kind"] == SAID:
        return News(entry["news"], entry["time"], entry["to"], f"SAY {entry['to']} {entry['text']}")
    if entry["kind"] == UNVEILED:
        return News(entry["news"], entry["time"], ALL, f"UNVEIL {entry['round']}")
    return News(entry["news"], entry["time"], ALL, text_of_change(entry))


def text_of_change(entry: Entry) -> str:
    """A change of the clock, as its news say it."""
    round_, until = entry["round"], shown(entry["until"])
    match entry["what"]:
        case "opened" | "extended" | "resumed" as what:
            word = {"opened": "OPEN", "extended": "EXTEND", "resumed": "RESUME"}[what]
            return f"{word} {round_} UNTIL {until}" if entry["until"] else f"{word} {round_}"
        case "warned":
            return f"WARN {round_} {entry['seconds']} UNTIL {until}"
        case "ended":
            return f"END {round_}"
        case "closed":
            return f"{'OVER' if entry['state'] == 'over' else 'CLOSE'} {entry['closed']}"
        case "planned":
            return f"PLAN {round_} {shown(entry['opens'])} UNTIL {until}" if entry["opens"] else f"PLAN {round_}"
        case "paused":
            return f"PAUSE {round_} {entry['paused']}"
        case "missed":
            return f"MISSED {round_} {shown(entry['missed'])}"
        case "back":
            return f"BACK {round_} {entry['seconds']}"
    return f"{str(entry['what']).upper()} {round_}"


def shown(time: str | None) -> str:
    """A time of an entry, which has milliseconds, as lines have it."""
    return f"{time[:19]}Z" if time else "-"
