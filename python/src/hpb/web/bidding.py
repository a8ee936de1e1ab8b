"""The pages of a bidder: its nodes and what bids would do, a basket before it is sent, and what became of each draft."""
import json
from collections.abc import Iterable, Sequence

from hpb.amounts import counted, money
from hpb.lines import Bid, Command, Waive
from hpb.markup import Markup, element
from hpb.refusals import FrontRefused
from hpb.rounds import ReceiptGiven, Schedule
from hpb.rules.what_if import Rise
from hpb.web.drafts import ACCEPTED, NEVER, REFUSED, SENT, Draft
from hpb.web.html import NO_TEXT, button, clock_line, facts, field, form, hidden, notice, section, table, without_end
from hpb.web.standpoint import Judged, Standpoint

# The names of the fields of a basket: `amount.NODE` has the amount of a bid.
AMOUNT = "amount."


def bidder_section(point: Standpoint, token: str) -> Markup:
    """A bidder: how it stands, what it needs, and its bids on each node."""
    name, who = point.who.bidder, point.who
    shown = {
        "Eligibility": f"{money(who.eligibility)} of {money(point.tree.bidders[name].units)}",
        "Activity": money(who.activity),
        "Needed": money(point.needed),
        "Waivers left": who.waivers_left,
        "Next ticket": who.ticket + 1,
    }
    if point.standing.shown.is_over:
        return section(f"Bidder {name}", facts(shown), node_table(point, is_open=False), name=f"bidder-{name}")
    basket = element(
        "form",
        hidden({"form": token, **place_of(point)}),
        node_table(point, is_open=True),
        element("label", element("span", "Or a list: node,amount, a line for each bid"), element("textarea", name="list", rows="3", cols="40")),
        element("label", element("span", "Or a file of CSV"), without_end("input", type="file", name="file", accept=".csv,text/csv")),
        element("p", button("Check these bids"), " Nothing is sent before you have seen the check."),
        method="post", action="/bids/check", enctype="multipart/form-data", class_="whole",
    )
    return section(f"Bidder {name}", needs(point), facts(shown), waiver_form(point, token), basket, name=f"bidder-{name}")


def place_of(point: Standpoint) -> dict[str, object]:
    """What a draft is bound to: the bidder, its round and its first ticket."""
    return {"bidder": point.who.bidder, "round": point.standing.shown.round, "ticket": point.who.ticket + 1}


def needs(point: Standpoint) -> Markup:
    """What a bidder must still do to keep its eligibility."""
    if not point.who.eligibility:
        return notice("No eligibility is left: it can't bid any more.", "bad")
    if not point.short:
        room = max(0, point.who.eligibility - point.who.activity)
        told = f"There is room for {counted(room, 'unit')} more." if room else "There is no room for more units."
        return notice(f"Enough: a close now leaves the eligibility as it is. {told}", "good")
    kept = point.keeping()
    begin = f"{counted(point.short, 'unit')} short. "
    if point.has_others:
        return notice(f"{begin}It has bid by another program, too, so the least spending isn't known here.")
    if kept is None:
        return notice(f"{begin}No bids keep the eligibility: only a waiver does.", "bad")
    bids = ", ".join(f"{node} for {money(amount)}" for node, amount in kept.bids.items())
    return notice(f"{begin}The least spending that keeps the eligibility is {money(kept.spending)}: {bids}.")


def waiver_form(point: Standpoint, token: str) -> Markup:
    """A waiver, if one is left."""
    if not point.who.waivers_left:
        return NO_TEXT
    return form("/waivers/check", token, button("Waive in this round"), **place_of(point))


def node_table(point: Standpoint, is_open: bool) -> Markup:
    """All nodes: the bidder's own first, and those on which it can't bid last."""
    held = point.held
    others = [name for name in point.tree.nodes if name not in held]
    names = [*held, *sorted(others, key=lambda name: point.activity_with(name) > point.who.eligibility)]
    columns = ["Node", *(["Your bid"] if is_open else []), "Least bid", "High bid", "To win", "Activity with a bid"]
    rows = [[_node_cell(point, name), *([_bid_cell(point, name)] if is_open else []), *_node_cells(point, name)] for name in names]
    marks = ["mine" if name in held else "" for name in names]
    return table("All nodes, your own first", columns, rows, marks)


def _node_cell(point: Standpoint, name: str) -> Markup:
    node = point.tree.nodes[name]
    kind = f"{'licence' if node.is_licence else 'package'}, {counted(point.tree.units[name], 'unit')}"
    return element("span", name, element("small", f"{kind}{f', in {node.parent}' if node.parent else ''}"))


def _node_cells(point: Standpoint, name: str) -> list[object]:
    node = point.standing.nodes[name]
    high = f"{money(node.high)}{f' of {node.bidder}' if node.bidder else ''}" if node.high else "no bid"
    marks = [text for text, holds in (("you win it", name in point.won), ("you bid in this round", name in point.bid_on)) if holds]
    told = element("span", high, *(element("small", text) for text in marks))
    return [money(node.minimum), told, to_win(point.rise(name), name in point.won), _activity(point, name)]


def to_win(rise: Rise, is_mine: bool) -> Markup:
    """What a node or its parts lack to win, if all other high bids stay."""
    more = f", {money(rise.rise)} more" if rise.rise < rise.amount else ""
    own = f"{money(rise.amount)}{more}" if rise.rise else "it wins"
    parts = f"or its parts together {money(rise.parts_rise)} more" if rise.parts_rise else ""
    return element("span", "you win it" if is_mine else own, element("small", parts) if parts else NO_TEXT)


def _activity(point: Standpoint, name: str) -> str:
    after = point.activity_with(name)
    told = f"{money(after)} of {money(point.who.eligibility)}"
    if after > point.who.eligibility:
        return f"{told}: beyond the eligibility"
    return f"{told}, enough" if after >= point.needed else f"{told}, {money(point.needed - after)} short"


def _bid_cell(point: Standpoint, name: str) -> object:
    if name in point.bid_on:
        return "sent in this round"
    if point.activity_with(name) > point.who.eligibility:
        return "not allowed"
    least, step = point.standing.nodes[name].minimum, point.tree.definition.step
    return without_end(
        "input", name=f"{AMOUNT}{name}", inputmode="numeric", autocomplete="off", placeholder=money(least), aria_label=f"Your bid on {name}, {money(least)} or more, in steps of {money(step)}"
    )


# Before it is sent.


def check_page(point: Standpoint, rows: Sequence[Judged], token: str, place: dict[str, object]) -> list[Markup]:
    """A basket as it would be judged now. It can be sent if each bid would be accepted."""
    told = [
        [row.wish.node, money(row.wish.amount), money(row.activity), "would be accepted" if row.refusal is None else row.refusal.brief] for row in rows
    ]
    shown = table(
        f"Bids of {point.who.bidder} in round {place['round']}", ["Node", "Amount", "Activity after it", "Now"], told,
        ["" if row.refusal is None else "falls" for row in rows],
    )
    if any(row.refusal for row in rows):
        text = "Nothing was sent, since not all of these would be accepted."
        return [notice(text, "bad"), section("The basket", shown, element("p", element("a", "Back", href="/bid")), name="basket")]
    total = sum(row.wish.amount for row in rows)
    text = f"{counted(len(rows), 'bid')} for {money(total)} dollars in all. A bid can't be taken back."
    sent = form("/bids/send", token, button(f"Send {counted(len(rows), 'bid')}"), element("a", "Back", href="/bid"), **place, **basket_fields(rows))
    return [notice(text), section("The basket", shown, sent, name="basket")]


def basket_fields(rows: Sequence[Judged]) -> dict[str, object]:
    """The fields that carry a basket from its check to its sending, in its order."""
    return {f"bid.{number}": f"{row.wish.node},{row.wish.amount}" for number, row in enumerate(rows, 1)}


def waiver_page(point: Standpoint, token: str, place: dict[str, object]) -> list[Markup]:
    """A waiver before it is sent."""
    text = f"A waiver keeps the eligibility of {point.who.bidder} at the close of round {place['round']}, and uses one of {counted(point.who.waivers_left, 'waiver')}."
    sent = form("/waivers/send", token, button("Send the waiver"), element("a", "Back", href="/bid"), **place)
    return [notice(text), section("The waiver", sent, name="waiver")]


# After it is sent.


def command_says(command: Command) -> str:
    """A command in words."""
    match command:
        case Bid(bidder, node, amount):
            return f"{money(amount)} on {node} for {bidder}"
        case Waive(bidder):
            return f"a waiver of {bidder}"
    return "a close" if type(command).__name__ == "Close" else "the next stage"


def outcome_says(draft: Draft) -> str:
    """What became of a draft."""
    ticket = draft.command.ticket
    match draft.state:
        case "accepted":
            return f"accepted, number {money(draft.number or 0)}, ticket {ticket}, at {time_of(draft.at)}"
        case "refused":
            return f"refused: {draft.why}"
        case "never":
            return f"not accepted: {draft.why}"
        case "unclear":
            return draft.why
    return f"sent with ticket {ticket}: the answer hasn't come yet"


def time_of(at: str) -> str:
    """The time of day of a time, in UTC."""
    return f"{at[11:19]} UTC"


def drafts_table(drafts: Sequence[Draft], caption: str) -> Markup:
    """Drafts with their outcomes, each with its receipt."""
    marks = {ACCEPTED: "mine", REFUSED: "falls", NEVER: "falls", SENT: "short"}
    rows = [[command_says(one.command), one.round or "", outcome_says(one), _receipt_link(one)] for one in drafts]
    return table(caption, ["Draft", "Round", "Outcome", "Receipt"], rows, [marks.get(one.state, "short") for one in drafts])


def _receipt_link(draft: Draft) -> object:
    if draft.state != ACCEPTED:
        return ""
    return element("a", f"Receipt {draft.command.ticket}", href=f"/receipts/{draft.bidder}/{draft.command.ticket}")


def receipt(draft: Draft, title: str, schedule: Schedule, sealed: object) -> list[Markup]:
    """An accepted draft, to be printed; with the record's hash of it, once a seal is behind it."""
    shown = {
        "Auction": title, "Name": draft.name, "Command": command_says(draft.command), "Round": draft.round or "", "Ticket": draft.command.ticket,
        "Number": money(draft.number or 0), "Accepted at": f"{draft.at[:10]} {time_of(draft.at)}",
    }
    if isinstance(sealed, ReceiptGiven):
        shown["Hash in the record"] = json.loads(sealed.text)["hash"]
        link = element("a", "receipt as a file", href=f"/receipts/{draft.bidder}/{draft.command.ticket}.json")
        told = element("p", "Anyone can check the ", link, " by hpb-verify --receipt.")
    elif isinstance(sealed, FrontRefused) and sealed.word == "unsealed":
        told = element("p", "The record's hash of it stands here once its round is closed.")
    else:
        told = element("p", "The record has this command under its number. The hash that the operator gives out after the close of this round binds it.")
    return [clock_line(schedule), section("Receipt", facts(shown), told, name="receipt")]


def sign_in_page(token: str, said: str, has_codes: bool) -> list[Markup]:
    """The form by which somebody signs in. If some names have codes, all are asked for one."""
    fields = [
        field("Name", "name", autocomplete="username", required="required", maxlength="16"),
        field("Token", "token", type="password", autocomplete="current-password", required="required", maxlength="128"),
    ]
    if has_codes:
        fields.append(field("Code, if you have an app for it", "code", autocomplete="one-time-code", inputmode="numeric", maxlength="6"))
    return [notice(said, "bad") if said else NO_TEXT, section("Sign in", form("/signin", token, *fields, button("Sign in")), name="signin")]


def joined_sections(points: Iterable[Standpoint], token: str) -> list[Markup]:
    """A section for each bidder of a name."""
    return [bidder_section(point, token) for point in points]
