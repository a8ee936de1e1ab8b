"""The words of tools/board and tools/watch about a front's round clock and its news (docs/ROUNDS.md)."""
from typing import Final

from hpb.amounts import counted
from hpb.pages.telling import NOBODY
from hpb.pages.view import Told
from hpb.rounds import Schedule

# So many changes of the clock are shown, besides all announcements that aren't read.
MOST_CHANGES: Final = 8
PAUSES: Final = {
    "auctioneer": "by the auctioneer",
    "away": "the front was away when it should have been there",
    "jump": "the system's time was set",
    "unsynchronised": "the system's time isn't synchronised",
    "end": "nobody bid or waived, so the close would end the auction",
    "refused": "the server refused the close",
    "record": "record and file differ",
}


def clock_says(schedule: Schedule | None) -> str:
    """The state of the round clock. Empty if there is none."""
    if schedule is None:
        return ""
    number, until = schedule.round, time_says(schedule.until)
    waits = f"Round {number} opens at {time_says(schedule.opens)}, and ends at {until}. Until then no bid is taken."
    return {
        "open": f"Round {number} takes bids until {until}.",
        "waits": waits if schedule.opens else "No round is open: the auctioneer opens the next one.",
        "closing": f"The time of round {number} is over: no further bid is taken, and it is about to be closed.",
        "paused": f"The round clock is paused: no bid is taken. Round {number} has {counted(schedule.left, 'second')} left.",
    }.get(schedule.state, "")


def seal_says(seal: str) -> str:
    """The last seal of a front, with the root that a bidder may keep. Empty if there is none."""
    words = dict(zip(words[::2], words[1::2])) if (words := seal.split(" ")) and len(words) > 1 else {}
    if not words:
        return ""
    what = f"Round {words['ROUND']} is sealed" if words["ROUND"] != "0" else "The record is sealed"
    stamped = f", and stamped at {time_says(words['STAMPED'])}" if words.get("STAMPED", "-") != "-" else ""
    return f"{what}, by seal {words['SEAL']} with {words['ENTRIES']} entries and the root {words['ROOT']}{stamped}."


def time_says(time_: str | None) -> str:
    """A time of a front's line, as people read it."""
    return f"{time_[:10]} {time_[11:19]} UTC" if time_ else NOBODY


def news_says(told: Told) -> list[str]:
    """Announcements that aren't read yet, and then the last changes of the clock."""
    said = [f"{time_says(one.time)}: the auctioneer says: {one.said}" for one in told.news if one.said is not None and one.number > told.read]
    changes = [f"{time_says(one.time)}: {change_says(one.text)}" for one in told.news if one.said is None][-MOST_CHANGES:]
    return said + list(reversed(changes))


def change_says(text: str) -> str:
    """A change of the round clock in words."""
    match text.split(" "):
        case ["PLAN", number, opens, "UNTIL", until]:
            return f"round {number} is to open at {time_says(opens)}, and to end at {time_says(until)}"
        case ["PLAN", number]:
            return f"the auctioneer opens round {number}"
        case ["OPEN", number, "UNTIL", until]:
            return f"round {number} is open until {time_says(until)}"
        case ["WARN", number, seconds, "UNTIL", until]:
            return f"round {number} ends in {_span(int(seconds))}, at {time_says(until)}"
        case ["EXTEND", number, "UNTIL", until]:
            return f"round {number} is extended until {time_says(until)}"
        case ["RESUME", number, "UNTIL", until]:
            return f"the clock goes on: round {number} ends at {time_says(until)}"
        case ["PAUSE", number, why]:
            return f"the clock is paused in round {number}: {PAUSES.get(why, why)}"
        case ["MISSED", number, opens]:
            return f"round {number} couldn't open at {time_says(opens)}, and waits for the next time"
        case ["BACK", number, seconds]:
            return f"the front was away for {_span(int(seconds))} in round {number}"
        case ["END", number]:
            return f"the time of round {number} is over"
        case ["CLOSE", number]:
            return f"round {number} is closed"
        case ["UNVEIL", number]:
            return f"the auction ended with round {number}, and all that was hidden is shown"
        case ["OVER", number]:
            return f"round {number} is closed, and the auction is over"
    return text


def _span(seconds: int) -> str:
    return counted(seconds // 60, "minute") if seconds >= 60 and seconds % 60 == 0 else counted(seconds, "second")
