"""The pages of the auctioneer: how the round stands, who is short, and a close with what it would do."""
from collections.abc import Sequence
from typing import Final

from hpb.amounts import counted, money
from hpb.lines import Shown
from hpb.markup import Markup, element
from hpb.pages.rounds import change_says, time_says
from hpb.rounds import News, Previewed, Prospect, Schedule
from hpb.rules.tree import Tree
from hpb.web.html import NO_TEXT, button, clock_line, facts, field, form, in_halves, notice, section, table

# What has to be typed before a close that ends the auction.
ENDING_WORD: Final = "END"
_MOST_NEWS: Final = 8
COLUMNS: Final = ("Bidder", "Eligibility", "Activity", "Short", "At a close now")


def urgency(one: Prospect) -> tuple[int, int, str]:
    """The order of bidders on the desk: those that lose eligibility, those of whom a waiver is taken, those short with a waiver of their
    own, and then the others. Among them those that lack most come first.
    """
    kind = 0 if one.after < one.eligibility else 1 if one.waiver == "auto" else 2 if one.short else 3
    return kind, -one.short, one.bidder


def prospect_says(one: Prospect) -> str:
    """What a close now would do to a bidder."""
    if one.after < one.eligibility:
        return f"falls to {money(one.after)}"
    if one.waiver == "auto":
        return "a waiver is taken"
    if one.waiver == "own":
        return "its own waiver counts"
    return "keeps it" if one.eligibility else "has none"


def prospects_table(bidders: Sequence[Prospect], caption: str) -> Markup:
    """Bidders by urgency."""
    return in_halves(sorted(bidders, key=urgency), caption, _table)


def _table(rows: Sequence[Prospect], caption: str) -> Markup:
    marks = ["falls" if one.after < one.eligibility else "short" if one.short else "" for one in rows]
    cells = [[one.bidder, money(one.eligibility), money(one.activity), money(one.short) if one.short else "", prospect_says(one)] for one in rows]
    return table(caption, COLUMNS, cells, marks)


def counts_say(found: Previewed, bidders: int) -> str:
    """The sums of a preview."""
    sums = [
        f"{found.short} of {bidders} short", f"{counted(found.waivers, 'waiver')} would be taken", f"{counted(found.losing, 'bidder')} would lose eligibility",
        f"revenue {money(found.revenue)} after a close",
    ]
    return "; ".join(sums) + "."


def desk_page(
    tree: Tree, shown: Shown, schedule: Schedule, found: Previewed | None, bidders: Sequence[Prospect], news: Sequence[News], token: str
) -> list[Markup]:
    """The desk."""
    stages = tree.definition.stages
    known = {
        "Round": shown.round, "Stage": f"{shown.stage} of {len(stages)}, at {stages[shown.stage - 1]} percent", "State": "over" if shown.is_over else "open",
        "Revenue": money(shown.revenue), "Commands": money(shown.count), "Next ticket": shown.next_ticket,
    }
    parts = [facts(known), clock_line(schedule)]
    if shown.is_over:
        return [section("The auction is over", *parts, name="round"), _news(news)]
    if found is None:
        parts.append(notice("Commands of this round came by another way than the front: it isn't known what a close would do."))
    elif found.ends:
        parts.append(notice("Nobody has bid or waived in this round: a close now ends the auction.", "bad"))
    whole = section("The round", *parts, name="round")
    told = [element("p", counts_say(found, len(bidders))), prospects_table(bidders, "Bidders by urgency")] if found else []
    beside = element("div", section("What to do", *actions(shown, schedule, token), name="actions"), _news(news))
    return [whole, element("div", section("Bidders", *told, name="bidders"), beside, class_="desk")]


def actions(shown: Shown, schedule: Schedule, token: str) -> list[Markup]:
    """The forms that make sense now. The front decides."""
    state, found = schedule.state, list[Markup]()
    until = field("Until (10:30, or 2026-12-02T10:30:00Z)", "until", required="required", maxlength="20", autocomplete="off")
    if state in ("none", "paused"):
        found.append(element("p", element("a", f"Close round {shown.round}: look first", href="/desk/close")))
    if state in ("none", "waits"):
        found.append(form("/desk/clock", token, until, button(f"Open round {shown.round}"), kind="open", round=shown.round))
    if state in ("open", "paused"):
        found.append(form("/desk/clock", token, until, button(f"Extend round {shown.round}"), kind="extend", round=shown.round))
    if state in ("open", "waits"):
        found.append(form("/desk/clock", token, button("Pause"), kind="pause"))
    if state == "paused":
        found.append(form("/desk/clock", token, button("Resume"), kind="resume"))
    to = field("To (a name, or all)", "to", value="all", required="required", maxlength="16")
    text = field("Text", "text", required="required", maxlength="110", autocomplete="off")
    stage = form("/desk/stage", token, button(f"Move on from stage {shown.stage}"), ticket=shown.next_ticket)
    return [*found, form("/desk/say", token, to, text, button("Announce")), stage]


def _news(news: Sequence[News]) -> Markup:
    last = [f"{time_says(one.time)}: {one.said if one.said is not None else change_says(one.text)}" for one in reversed(news[-_MOST_NEWS:])]
    return section("News", element("ul", *(element("li", text) for text in last)), name="news") if last else NO_TEXT


def close_page(shown: Shown, found: Previewed | None, bidders: Sequence[Prospect], token: str) -> list[Markup]:
    """A close before it is sent, with what it would do."""
    ends = found is None or found.ends
    parts: list[Markup] = []
    if found is None:
        parts.append(notice("It isn't known what a close would do: it may end the auction.", "bad"))
    else:
        parts.append(element("p", counts_say(found, len(bidders))))
    word: Markup = NO_TEXT
    if ends:
        parts.append(notice("This close ends the auction, for good, if nobody bids or waives before it. If a second name is asked for, it has to agree first.", "bad"))
        word = field(f"Type {ENDING_WORD} to let the close end the auction", "word", autocomplete="off", maxlength="10")
    text = f"Close round {shown.round}"
    sent = form("/desk/close", token, word, button(text, class_="grave" if ends else None), element("a", "Back", href="/desk"), ticket=shown.next_ticket)
    listed = [prospects_table(bidders, "Bidders by urgency")] if bidders else []
    return [section(text, *parts, sent, *listed, name="close")]


def agreement_form(shown: Shown, token: str) -> Markup:
    """For a second name: its agreement to the end."""
    if shown.is_over:
        return NO_TEXT
    told = f"If the operator named you as the second name: agree that the close with ticket {shown.next_ticket} ends the auction."
    return section("The end", element("p", told), form("/agree", token, button("Agree"), ticket=shown.next_ticket), name="end")
