"""The words of tools/board and tools/watch about an auction that is followed: the same on a page and in a terminal."""
import time
from collections.abc import Callable
from typing import Final, NamedTuple

from hpb.amounts import counted, money
from hpb.drawing.tree import bid_of
from hpb.lines import NodeShown, Shown, WhoShown
from hpb.pages.view import ENDLESS, Contact, Seen, State, View
from hpb.rules.activity import activity_needed, eligibility_left
from hpb.rules.tree import Tree

NOBODY: Final = "\N{EN DASH}"
_RISES = "\N{RIGHTWARDS ARROW}"
_WINS = "\N{CHECK MARK} wins"
# A bidder's mark: the effect of a close now.
ENOUGH, SHORT, FALLS = "enough", "short", "falls"


class NodeTexts(NamedTuple):
    """A node in words, with its values before the last close."""

    bid: str
    bid_was: str
    minimum: str
    minimum_was: str
    price: str
    price_was: str
    win: str
    win_was: str
    is_changed: bool


class BidderTexts(NamedTuple):
    """A bidder's standing in words. `mark` is one of the three above, or empty once the auction is over."""

    eligibility: str
    activity: str
    needed: str
    waivers: str
    ticket: str
    outlook: str
    mark: str


def clock(seconds: float) -> str:
    """A time of the system's clock, given in seconds, with its date: these words may stand for days."""
    return time.strftime("%Y-%m-%d %H:%M:%S", time.localtime(seconds))


def contact_says(contact: Contact) -> str:
    """The state of the connection to the server."""
    since, places = clock(contact.since), contact.places
    left = f" ({counted(int(places), 'place')} left)" if places != ENDLESS else ""
    again = f"It connects again by itself{left}." if places else "No place is left: start it again to go on."
    return {
        State.WAITING: "There is no server yet.",
        State.LIVE: "Live.",
        State.SILENT: f"The server has not answered since {since}. What stands here is of before.",
        State.LOST: f"The server was lost at {since}. What stands here is of before. {again}",
        State.OVER: "The auction is over: nothing changes any more.",
    }[contact.state]


def stage_says(tree: Tree, shown: Shown) -> str:
    """The stage in force."""
    stages = tree.definition.stages
    return f"{shown.stage} of {len(stages)}, at {stages[shown.stage - 1]} percent"


def revenue_says(seen: Seen) -> str:
    """The revenue of the last close, if it is shown."""
    return NOBODY if seen.hides_revenue else money(seen.standing.shown.revenue)


def outlook(seen: Seen) -> str:
    """The effect of a close now, as far as it is known."""
    shown, accepted, is_exact = seen.standing.shown, seen.accepted(), seen.begin.is_exact
    if shown.is_over:
        return f"The auction ended with round {shown.round}."
    if seen.hides_count:
        return "How many bids and waivers this round has is shown once it is closed."
    if accepted:
        said = counted(accepted, "bid or waiver", "bids and waivers")
        return f"{'' if is_exact else 'At least '}{said} in this round: its close opens the next one."
    if is_exact:
        return "Nobody has bid or waived in this round: a close now ends the auction."
    since = f"No bid and no waiver was seen since command {money(seen.begin.shown.count)}"
    return f"{since}; whether there was one in this round before isn't known here."


def closes_say(seen: Seen) -> str:
    """Which closes came between the last view and now."""
    shown = seen.standing.shown
    if shown.round == 1 and not shown.is_over:
        return "No round has been closed yet."
    if seen.before is None:
        return "No close was seen here." if shown.is_over else "No close was seen here yet: what the next one changes will stand here."
    first, last = seen.before.shown.round, shown.round - (not shown.is_over)
    return f"By the close of round {last}:" if first == last else f"By the closes of rounds {first} to {last}:"


def _was(then: NodeShown | None, now: NodeShown, told: Callable[[NodeShown], str]) -> str:
    """A value before the last close, if it has changed."""
    return "" if then is None or told(then) == told(now) else f"was {told(then)}"


def node_texts(seen: Seen, name: str) -> NodeTexts:
    """A node of the definition in words."""
    node = seen.standing.nodes[name]
    then = seen.before.nodes[name] if seen.before else None
    bid_was = _was(then, node, bid_of)
    minimum_was = _was(then, node, lambda one: money(one.minimum))
    price_was = _was(then, node, lambda one: money(one.price))
    win_was = "" if then is None or then.wins == node.wins else "new" if node.wins else "won before"
    is_changed = any((bid_was, minimum_was, price_was, win_was))
    win = _WINS if node.wins else NOBODY
    return NodeTexts(
        bid_of(node), bid_was, money(node.minimum), minimum_was, money(node.price), price_was, win, win_was, is_changed
    )


def _step_says(what: str, then: object, now: object) -> list[str]:
    return [] if then == now else [f"{what} {then} {_RISES} {now}"]


def close_says(seen: Seen) -> list[str]:
    """What the last close changed: each node with a new winner or high bid, and how many other nodes have a new minimum."""
    if seen.before is None:
        return []
    lines, others = list[str](), 0
    for name, node in seen.standing.nodes.items():
        then = seen.before.nodes[name]
        parts = [] if then.wins == node.wins else ["wins now" if node.wins else "no longer wins"]
        parts += _step_says("high bid", bid_of(then), bid_of(node))
        others += not parts and then.minimum != node.minimum
        if parts:
            parts += _step_says("minimum", money(then.minimum), money(node.minimum))
            lines.append(f"{name}: " + "; ".join(parts))
    lines += _step_says("revenue", money(seen.before.shown.revenue), money(seen.standing.shown.revenue))
    if others:
        lines.append(f"{counted(others, 'other node has', 'other nodes have')} another minimum")
    for name in seen.standing.whos:
        lines += [f"{name}: {text}" for text in _bidder_close_says(seen, name)]
    return lines or ["nothing"]


def _bidder_close_says(seen: Seen, name: str) -> list[str]:
    """For a bidder, the changes that only closes make, and the waivers used since the round before was last seen."""
    if seen.before is None or name not in seen.before.whos:
        return []
    then, now = seen.before.whos[name], seen.begin.whos[name]
    eligibility = _step_says("eligibility", money(then.eligibility), money(now.eligibility))
    return eligibility + _step_says("waivers", then.waivers_left, now.waivers_left)


def round_says(seen: Seen) -> list[str]:
    """The changes seen since the round began."""
    then, now = seen.begin, seen.standing
    lines = _step_says("stage", then.shown.stage, now.shown.stage)
    for name, who in now.whos.items():
        old = then.whos[name]
        parts = _step_says("activity", money(old.activity), money(who.activity)) if then.is_exact or old.activity != who.activity else []
        parts += _step_says("ticket", old.ticket, who.ticket) + _step_says("waivers", old.waivers_left, who.waivers_left)
        if parts:
            lines.append(f"{name}: " + ", ".join(parts))
    return lines


def _has_waived(seen: Seen, name: str) -> bool | None:
    """Whether a bidder sent a waiver in this round, or None if that can't be known."""
    if seen.standing.whos[name].waivers_left < seen.begin.whos[name].waivers_left:
        return True
    return False if seen.begin.is_exact else None


def _room_says(who: WhoShown) -> str:
    room = who.eligibility - who.activity
    if room < 0:
        return "The activity is above the eligibility: no further bid is accepted."
    return f"Room for {counted(room, 'unit')} more." if room else "No room for more units."


def bidder_outlook(tree: Tree, seen: Seen, name: str) -> tuple[str, str]:
    """The effect of a close now on a bidder who is shown, in words, and its mark."""
    shown, who = seen.standing.shown, seen.standing.whos[name]
    if shown.is_over:
        return "The auction is over.", ""
    if not who.eligibility:
        return "No eligibility is left: it can't bid any more.", ""
    percentage = tree.definition.stages[shown.stage - 1]
    missing = activity_needed(percentage, who.eligibility) - who.activity
    if missing <= 0:
        return f"Enough: a close now leaves the eligibility as it is. {_room_says(who)}", ENOUGH
    return _short_outlook(tree, seen, who, missing, eligibility_left(percentage, who.activity))


def _short_outlook(tree: Tree, seen: Seen, who: WhoShown, missing: int, left: int) -> tuple[str, str]:
    waived, begin = _has_waived(seen, who.bidder), f"{counted(missing, 'unit')} short"
    if waived:
        return f"{begin}, and waived in this round: it keeps its eligibility.", SHORT
    if who.waivers_left:
        taken = "a close now takes a waiver" + ("" if waived is False else ", unless it sent one in this round")
        return f"{begin}: {taken}, and leaves the eligibility.", SHORT
    unless = "" if waived is False or not tree.definition.waivers else ", unless it waived in this round"
    return f"{begin}: a close now lowers the eligibility to {money(left)}{unless}.", FALLS


def bidder_texts(tree: Tree, seen: Seen, name: str) -> BidderTexts:
    """A bidder who is shown, in words."""
    shown, who = seen.standing.shown, seen.standing.whos[name]
    definition = tree.definition
    outlook_text, mark = bidder_outlook(tree, seen, name)
    return BidderTexts(
        f"{money(who.eligibility)} of {money(tree.bidders[name].units)}",
        money(who.activity),
        money(activity_needed(definition.stages[shown.stage - 1], who.eligibility)),
        f"{who.waivers_left} of {definition.waivers}" if definition.waivers else "none",
        str(who.ticket + 1),
        outlook_text,
        mark,
    )


def announcement(old: View, new: View) -> str:
    """A few words for listeners about the change from one view to another, or none."""
    if new.seen is None or old.seen is None or old.contact.state != new.contact.state:
        return contact_says(new.contact)
    last = old.own.news[-1].number if old.own.news else 0
    if fresh := [one for one in new.own.news if one.number > last]:
        return " ".join(one.said or one.text for one in fresh)
    before, after = old.seen.standing, new.seen.standing
    then, now = before.shown, after.shown
    if (then.round, then.is_over) != (now.round, now.is_over):
        told = f"Round {now.round} is open." if not now.is_over else "The auction is over."
        wins = [name for name, node in after.nodes.items() if node.wins and not before.nodes[name].wins]
        return told + (f" Now wins: {', '.join(wins)}." if wins else " The winners are the same.")
    if then.stage != now.stage:
        return f"Stage {now.stage} has begun."
    changed = [who for name, who in after.whos.items() if who != before.whos.get(name)]
    return " ".join(f"{who.bidder}: ticket {who.ticket}, activity {money(who.activity)}." for who in changed)
