"""News for all names, or for one of them. They stand in the record (docs/ROUNDS.md).

In the record news have numbers from 1. Each name counts those that it may know, so that no number shows that others got some.
"""
from collections.abc import Iterable, Iterator, Mapping

from hpb.front.core.information import seen_by
from hpb.front.core.state import Front
from hpb.front.core.stepping import Step
from hpb.front.times import exact_text_of_time
from hpb.record.entries import Entry
from hpb.record.news import MOST_NEWS, READ, SAID, News, kept, news_of, shown

NOTHING = b"EVENT -"


def add_news(step: Step, kind: str, fields: Entry) -> Entry:
    """Adds the news of an entry that is about to be written, and gives its fields with their number."""
    front, numbered = step.front, {**fields, "news": sum(step.front.told.values()) + 1}
    if news := news_of({"kind": kind, **numbered}):
        found = kept(front.news, news._replace(entry=front.ledger.written + 1))
        step.set(news=tuple(found), told={**front.told, news.to: front.told.get(news.to, 0) + 1})
    return numbered


def seen(front: Front, name: str) -> Iterator[tuple[int, News]]:
    """The last news that a name may know, each with the name's own number of it, the last one first. All of so many are kept, whatever others
    got."""
    viewer, last = front.viewer(name), last_of(front, name)
    known = (one for one in reversed(front.news) if seen_by(viewer, one))
    yield from zip(range(last, last - MOST_NEWS, -1), known)


def last_of(front: Front, name: str) -> int:
    """How many news there were that a name may know."""
    viewer = front.viewer(name)
    return sum(count for to, count in front.told.items() if seen_by(viewer, News(0, "", to, "")))


def say(step: Step, name: str, to: str, text: str, now: float) -> None:
    """Writes an announcement into the record. `to` is a name, or `all`."""
    step.write(SAID, **add_news(step, SAID, {"name": name, "to": to, "text": text, "time": exact_text_of_time(now)}))


def line_of(number: int, news: News) -> bytes:
    """News as a line."""
    return f"EVENT {number} {shown(news.time)} {news.text}".encode("latin-1")


def last_line(front: Front, name: str) -> bytes:
    """The last news for a name."""
    return next((line_of(number, one) for number, one in seen(front, name)), NOTHING)


def next_line(front: Front, name: str, after: int | None, most_entry: int) -> bytes:
    """The first news behind a number of a name, or behind those that it has read. Only news up to an entry count."""
    behind, line = front.read.get(name, 0) if after is None else after, NOTHING
    for number, one in seen(front, name):
        if number <= behind:
            break
        if one.entry <= most_entry:
            line = line_of(number, one)
    return line


def read(step: Step, name: str, upto: int) -> None:
    """A name has read all news up to this number."""
    upto = min(upto, last_of(step.front, name))
    if upto > step.front.read.get(name, 0):
        step.set(read={**step.front.read, name: upto})
        step.write(READ, name=name, upto=upto)


def restored(news: Iterable[News], told: Mapping[str, int], known: Mapping[str, int]) -> dict[str, object]:
    """The news of the last front, how many there were for whom, and how many each name has read."""
    return {"news": tuple(one._replace(entry=0) for one in news), "told": dict(told), "read": dict(known)}
