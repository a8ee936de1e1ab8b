"""An auction that is followed, as lines for a terminal."""
from collections.abc import Collection, Iterator, Sequence
from typing import Final

from hpb.amounts import counted, money
from hpb.pages.rounds import clock_says, news_says, seal_says
from hpb.pages.telling import (
    ENOUGH,
    FALLS,
    SHORT,
    bidder_outlook,
    bidder_texts,
    close_says,
    closes_say,
    contact_says,
    node_texts,
    outlook,
    revenue_says,
    round_says,
    stage_says,
)
from hpb.pages.view import Seen, State, Told, View
from hpb.plain import plain
from hpb.rounds import NOTICE
from hpb.rules.tree import Tree

BOLD, DIM, GREEN, YELLOW, RED, PLAIN = "\x1b[1m", "\x1b[2m", "\x1b[32m", "\x1b[33m", "\x1b[31m", "\x1b[0m"
# The sign and the colour of each mark.
_SIGNS: Final = {ENOUGH: ("+", GREEN), SHORT: ("!", YELLOW), FALLS: ("!!", RED), "": (" ", "")}
_NODE_COLUMNS = ("NODE", "HIGH BID", "MINIMUM", "PRICE", "WINS", "BEFORE THE LAST CLOSE")
_BIDDER_COLUMNS = ("BIDDER", "ELIGIBILITY", "ACTIVITY", "NEEDED", "WAIVERS", "NEXT TICKET", "AT A CLOSE NOW")
_OF_NUMBERS = (2, 3)


class Style:
    """Colours, if the terminal wants them. No line depends on its colour to be understood."""

    def __init__(self, is_on: bool) -> None:
        self._is_on = is_on

    def of(self, text: str, *codes: str) -> str:
        """The text in these colours."""
        together = "".join(codes)
        return f"{together}{text}{PLAIN}" if self._is_on and together else text


def picture(tree: Tree, view: View, style: Style) -> Iterator[str]:
    """All lines of the picture."""
    if view.is_mock:
        yield style.of(NOTICE, YELLOW, BOLD)
    contact = contact_says(view.contact)
    yield style.of(contact, GREEN) if view.contact.state in (State.LIVE, State.OVER) else style.of(contact, RED, BOLD)
    if clock := clock_says(view.schedule):
        yield style.of(clock, BOLD)
    if seal := seal_says(view.seal):
        yield plain(seal)
    yield from (f"  {plain(line)}" for line in news_says(view.own))
    if view.seen:
        yield from _seen_lines(tree, view.seen, style)


def changes(tree: Tree, old: View, new: View) -> Iterator[str]:
    """A line for each change."""
    if old.is_mock is not new.is_mock:
        yield NOTICE if new.is_mock else "This is the auction itself, and no mock."
    if old.contact.state != new.contact.state:
        yield contact_says(new.contact)
    last = old.own.news[-1].number if old.own.news else 0
    yield from (plain(line) for one in new.own.news if one.number > last for line in news_says(Told((one,))))
    before, after = old.seen, new.seen
    if after is None or (before and after.standing is before.standing):
        return
    then, now = before.standing.shown if before else None, after.standing.shown
    if then is None or (then.round, then.is_over, then.stage) != (now.round, now.is_over, now.stage):
        yield f"Round {now.round}, {_state_of(after)}, stage {now.stage}, revenue {revenue_says(after)}, {counted(now.count, 'command')}"
    if then is not None and (then.round, then.is_over) != (now.round, now.is_over):
        yield from close_says(after)
    elif then is not None and then.count != now.count:
        yield f"{counted(now.count, 'command')}: {outlook(after)}"
    for name, who in after.standing.whos.items():
        if before and before.standing.whos.get(name) != who:
            yield f"{name}: activity {money(who.activity)}, ticket {who.ticket}: {bidder_outlook(tree, after, name)[0]}"


def _seen_lines(tree: Tree, seen: Seen, style: Style) -> Iterator[str]:
    shown = seen.standing.shown
    summary = f"Round {shown.round}, {_state_of(seen)}. Stage {stage_says(tree, shown)}. Revenue {revenue_says(seen)}."
    yield style.of(f"{summary} {counted(shown.count, 'command')}.", BOLD)
    yield style.of(outlook(seen), YELLOW if seen.would_end() else "")
    yield ""
    yield from _tree_lines(tree, seen, style)
    if seen.standing.whos:
        yield ""
        yield from _bidder_lines(tree, seen, style)
    yield ""
    yield closes_say(seen)
    yield from (f"  {line}" for line in close_says(seen))
    if since := round_says(seen):
        yield "Since then:"
        yield from (f"  {line}" for line in since)


def _tree_lines(tree: Tree, seen: Seen, style: Style) -> Iterator[str]:
    rows: list[Sequence[str]] = [_NODE_COLUMNS]
    for name, node in seen.standing.nodes.items():
        told = node_texts(seen, name)
        minimum_was = told.minimum_was and f"minimum {told.minimum_was}"
        price_was = told.price_was and f"price {told.price_was}"
        before = ", ".join(filter(None, [told.bid_was, minimum_was, price_was, told.win_was]))
        wins = "yes" if node.wins else "no"
        rows.append(("  " * (tree.level[name] - 1) + name, told.bid, told.minimum, told.price, wins, before))
    head, *lines = _in_columns(rows, _OF_NUMBERS)
    yield style.of(head, BOLD)
    for node, line in zip(seen.standing.nodes.values(), lines):
        yield style.of(line, GREEN) if node.wins else line


def _bidder_lines(tree: Tree, seen: Seen, style: Style) -> Iterator[str]:
    rows: list[Sequence[str]] = [_BIDDER_COLUMNS]
    marks = list[str]()
    for name in seen.standing.whos:
        told = bidder_texts(tree, seen, name)
        marks.append(told.mark)
        outlook_text = f"{_SIGNS[told.mark][0]} {told.outlook}"
        rows.append((name, told.eligibility, told.activity, told.needed, told.waivers, told.ticket, outlook_text))
    head, *lines = _in_columns(rows)
    yield style.of(head, BOLD)
    for mark, line in zip(marks, lines):
        yield style.of(line, _SIGNS[mark][1])


def _in_columns(rows: Sequence[Sequence[str]], right: Collection[int] = ()) -> list[str]:
    """Rows of texts. Each column is as wide as its widest text."""
    widths = [max(len(row[place]) for row in rows) for place in range(len(rows[0]))]
    cells = [[text.rjust(width) if place in right else text.ljust(width) for place, (text, width) in enumerate(zip(row, widths))] for row in rows]
    return ["  ".join(row).rstrip() for row in cells]


def _state_of(seen: Seen) -> str:
    return "over" if seen.standing.shown.is_over else "open"
