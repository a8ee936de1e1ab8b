"""What names may know by the table `[information]`, line by line, in a world without input or output (docs/FRONT.md)."""
from __future__ import annotations

from typing import Any

import pytest

from front_world import ROLES, TREE
from hpb.front.core import events
from hpb.front.core.clock import Closing
from hpb.front.core.information import Identities, Information, NotYet, Rule, Veil, Viewer, prefix_for, seen_by
from hpb.front.faults import Wrong
from hpb.front.information import read_information, table_of
from hpb.front.rights import Role
from hpb.front.sight import limit_of
from hpb.lines import NodeShown, Shown, WhoShown, parse_answer
from hpb.pages.model import model_of
from hpb.pages.view import Begin, Contact, Seen, State, View
from hpb.record.state import State as RecordState
from hpb.rounds import InformationShown
from hpb.rules.told import NotTold, look_whose, read_told
from test_front_desk import Desk

OWN, NONE = Rule(Identities.OWN, False, False), Rule(Identities.NONE, False, True)
FIRST = [("ann", "BID x 1 a 100"), ("bob", "BID y 1 b 150"), ("carl", "BID w 1 c 250")]
# NODE's answers after the first close but for the bidder. a and b win together with c, and nothing else has a bid.
A, B, C = "NODE a HIGH 100 {} PRICE 100 MIN 110 WIN yes", "NODE b HIGH 150 {} PRICE 150 MIN 170 WIN yes", "NODE c HIGH 250 {} PRICE 250 MIN 280 WIN yes"
D = "NODE d HIGH 0 - PRICE 0 MIN 100 WIN no"


def front_with(rule: Rule, *observers: str, unveiled: Rule = Rule(), **settings: Any) -> Desk:
    return Desk(closing=Closing(is_plain=True), information=Information(rule, unveiled, observers), **settings)


def after_first_close(front: Desk) -> Desk:
    assert [front.ask(name, line) for name, line in FIRST] == ["OK 1", "OK 2", "OK 3"] and front.ask("desk", "CLOSE 1") == "OK 4"
    return front


def nodes(front: Desk, name: str) -> list[str]:
    return [front.ask(name, f"NODE {node}") for node in "abcd"]


def filled(*bidders: str) -> list[str]:
    return [*(text.format(bidder) for text, bidder in zip((A, B, C), bidders)), D]


def test_each_name_sees_its_own_high_bids_and_pseudonyms_for_others() -> None:
    front = front_with(OWN)
    # This bid keeps z's eligibility, and is below that of y.
    assert front.ask("bob", "BID z 1 b 100") == "OK 1"
    assert [front.ask(name, line) for name, line in FIRST] == ["OK 2", "OK 3", "OK 4"] and front.ask("desk", "CLOSE 1") == "OK 5"
    wanted = {
        "desk": filled("x", "y", "w"), "ann": filled("x", "other1", "other2"), "bob": filled("other1", "y", "other2"),
        "carl": filled("other1", "other2", "w"), "public": filled("other1", "other2", "other3"),
    }
    assert {name: nodes(front, name) for name in wanted} == wanted
    front.restart()
    assert {name: nodes(front, name) for name in wanted} == wanted
    # Another bidder gets the next pseudonym, and whoever lost its high bid keeps its own.
    assert front.ask("bob", "BID z 2 a 110") == "OK 6" and front.ask("desk", "CLOSE 2") == "OK 7"
    assert " other4 " in front.ask("public", "NODE a") and " other3 " in front.ask("ann", "NODE a") and " z " in front.ask("bob", "NODE a")
    front.restart()
    assert " other4 " in front.ask("public", "NODE a") and " other2 " in front.ask("public", "NODE b")
    assert [entry["order"] for entry in front.world.disk.entries if entry["kind"] == "met"] == [["x", "y", "w"], ["x", "y", "w", "z"]]


def test_without_names_there_are_but_the_viewers_own() -> None:
    front = after_first_close(front_with(NONE))
    assert nodes(front, "ann") == filled("x", "-", "-") and nodes(front, "bob") == filled("-", "y", "-")
    assert nodes(front, "public") == filled("-", "-", "-") and nodes(front, "desk") == filled("x", "y", "w")


def test_the_count_is_that_of_the_last_close_and_the_revenue_is_left_out() -> None:
    front = front_with(OWN, "public")
    assert [front.ask(name, line) for name, line in FIRST] == ["OK 1", "OK 2", "OK 3"]
    assert front.ask("ann", "SHOW") == "ROUND 1 STAGE 1 OPEN REVENUE 0 COUNT 0" and front.ask("desk", "SHOW").endswith(" COUNT 3")
    assert front.ask("desk", "CLOSE 1") == "OK 4" and front.ask("bob", "WAIVE y 2") == "ERR 28 waiver"
    assert front.ask("bob", "BID y 2 b 170") == "OK 5" and front.ask("desk", "STAGE 2") == "OK 6"
    wanted = {"ann": "ROUND 2 STAGE 2 OPEN REVENUE 0 COUNT 4", "desk": "ROUND 2 STAGE 2 OPEN REVENUE 500 COUNT 6"}
    wanted |= {"bob": wanted["ann"], "public": wanted["desk"]}
    assert {name: front.ask(name, "SHOW") for name in wanted} == wanted
    front.restart()
    assert {name: front.ask(name, "SHOW") for name in wanted} == wanted


def test_who_is_for_the_bidder_the_auctioneer_and_observers_that_see_all() -> None:
    who = "WHO y ELIGIBILITY 10 ACTIVITY 0 TICKET 0"
    for front, of_public in ((front_with(OWN, "public"), who), (front_with(OWN), "ERR front rights")):
        assert [front.ask(name, "WHO y") for name in ("bob", "desk", "public")] == [who, who, of_public]
        assert [front.ask(name, "WHO y") for name in ("ann", "carl")] == ["ERR front rights"] * 2
        assert front.ask("public", "PREVIEW") == "ERR front rights"


def test_all_is_unveiled_once_the_auction_is_over_and_stays_so() -> None:
    front = after_first_close(front_with(NONE))
    assert front.ask("desk", "UNVEIL") == "ERR front running" and front.ask("ann", "UNVEIL") == front.ask("public", "UNVEIL") == "ERR front rights"
    assert front.ask("desk", "CLOSE 2") == "OK 5" and nodes(front, "ann") == filled("x", "-", "-")
    assert front.ask("ann", "INFORMATION") == "INFORMATION running IDENTITIES none COUNT closes REVENUE yes"
    unveiled = front.ask("desk", "UNVEIL")
    assert unveiled.startswith("EVENT 1 2026-12-02T09:00:0") and unveiled.endswith("Z UNVEIL 2") and front.ask("carl", "EVENT 0") == unveiled
    for _ in range(2):
        assert front.ask("ann", "INFORMATION") == "INFORMATION unveiled IDENTITIES all COUNT exact REVENUE yes"
        assert nodes(front, "ann") == nodes(front, "public") == filled("x", "y", "w")
        assert front.ask("ann", "WHO y") == "ERR front rights" and front.ask("desk", "UNVEIL") == unveiled
        front.restart()
    assert [entry["name"] for entry in front.world.disk.entries if entry["kind"] == "unveiled"] == ["desk"]


def test_without_the_table_there_are_none_of_its_lines() -> None:
    front = Desk(closing=Closing(is_plain=True))
    assert [front.ask(name, line) for name in ROLES for line in ("UNVEIL", "INFORMATION")] == ["ERR front line"] * 10
    after_first_close(front)
    assert nodes(front, "public") == filled("x", "y", "w") and front.ask("ann", "SHOW") == "ROUND 2 STAGE 1 OPEN REVENUE 500 COUNT 4"
    assert {entry["kind"] for entry in front.world.disk.entries} == {"started", "accepted"}


def ask_both(front: Desk, name: str, line: str) -> int:
    """A line is with the server, which hasn't judged it. Returns its session."""
    front.world.post(events.Line(front.wires[name].number, line.encode()))
    while front.world.disk.puts:
        front.world.move_disk()
    return next(session for session, asked in front.world.server.asked.items() if asked == line.encode())


def test_show_waits_for_the_close_that_it_tells_of() -> None:
    """The server has judged the close and then SHOW, whose answer comes first."""
    front = front_with(NONE)
    assert [front.ask(name, line) for name, line in FIRST] == ["OK 1", "OK 2", "OK 3"] and front.ask("desk", "SHOW").endswith("COUNT 3")
    front.settle()
    close, show = ask_both(front, "desk", "CLOSE 1"), ask_both(front, "ann", "SHOW")
    server, heard = front.world.server, len(front.heard.lines)
    server.judge_one(close)
    server.judge(b"BID x 2 a 110")
    server.judge_one(show)
    front.world.post(events.Answered(show, server.answers.pop(show)))
    assert front.heard.lines[heard:] == []
    front.world.post(events.Answered(close, server.answers.pop(close)))
    assert front.heard.lines[heard:] == [b"ROUND 2 STAGE 1 OPEN REVENUE 500 COUNT 4"]


def test_node_waits_for_the_close_that_it_tells_of() -> None:
    """Nobody has a pseudonym before the front knows of the close."""
    front = front_with(OWN)
    assert [front.ask(name, line) for name, line in FIRST] == ["OK 1", "OK 2", "OK 3"] and front.ask("desk", "SHOW").endswith("COUNT 3")
    front.settle()
    close, node = ask_both(front, "desk", "CLOSE 1"), ask_both(front, "ann", "NODE b")
    server, heard = front.world.server, len(front.heard.lines)
    server.judge_one(close)
    server.judge_one(node)
    front.world.post(events.Answered(node, server.answers.pop(node)))
    assert front.heard.lines[heard:] == []
    front.world.post(events.Answered(close, server.answers.pop(close)))
    assert front.heard.lines[heard:] == [B.format("other1").encode()]


def test_nothing_is_unveiled_before_the_record_has_it_on_its_disk() -> None:
    front = after_first_close(front_with(NONE))
    assert front.ask("desk", "CLOSE 2") == "OK 5" and front.ask("ann", "SHOW").endswith(" CLOSED REVENUE 500 COUNT 5")
    front.settle()
    world, heard = front.world, len(front.heard.lines)
    world.post(events.Line(front.wires["desk"].number, b"UNVEIL"))
    node = ask_both(front, "ann", "NODE b")
    world.server.judge_one(node)
    world.post(events.Answered(node, world.server.answers.pop(node)))
    assert front.heard.lines[heard:] == [B.format("-").encode()]
    front.settle()
    assert front.heard.lines[-1].endswith(b" UNVEIL 2") and front.ask("ann", "NODE b") == B.format("y")


def test_a_close_by_another_way_hangs_nothing() -> None:
    """Somebody else told the server a bid and a close."""
    front = front_with(OWN)
    assert front.ask("ann", "SHOW").endswith(" COUNT 0")
    assert [front.world.server.judge(line) for line in (b"BID y 1 b 150", b"CLOSE 1", b"BID y 2 b 170")] == [b"OK 1", b"OK 2", b"OK 3"]
    assert front.ask("ann", "NODE b").startswith("NODE b HIGH 150 - ")
    assert [front.ask("ann", "SHOW") for _ in range(2)] == ["ROUND 2 STAGE 1 OPEN REVENUE 0 COUNT 3"] * 2
    assert front.world.server.judge(b"STAGE 2") == b"OK 4" and front.ask("carl", "SHOW") == "ROUND 2 STAGE 2 OPEN REVENUE 0 COUNT 3"


def test_show_that_was_judged_before_a_close_has_the_count_of_the_one_before() -> None:
    front = after_first_close(front_with(NONE))
    assert front.ask("ann", "BID x 2 a 110") == "OK 5" and front.ask("desk", "SHOW").endswith("COUNT 5")
    front.settle()
    show, close = ask_both(front, "ann", "SHOW"), ask_both(front, "desk", "CLOSE 2")
    server, heard = front.world.server, len(front.heard.lines)
    server.judge_one(show)
    server.judge_one(close)
    front.world.post(events.Answered(close, server.answers.pop(close)))
    front.world.post(events.Answered(show, server.answers.pop(show)))
    assert front.heard.lines[heard:] == [b"ROUND 2 STAGE 1 OPEN REVENUE 500 COUNT 4"]


def test_no_pseudonym_is_a_bidders_name() -> None:
    assert prefix_for(["x", "other", "others"]) == "other" and prefix_for(["other1", "x"]) == "other_" and prefix_for(["other_7", "other12"]) == "other__"


def test_a_fact_as_a_viewer_may_know_it() -> None:
    veil = Veil(first=2, counts=(7, 9), order=("w", "x", "y"))
    ann = Viewer("ann", Role("bidder", ("x",)), OWN, veil)
    node, shown = NodeShown("a", 100, "y", 100, 110, True), Shown(3, 1, False, 500, 12)
    assert seen_by(ann, node) == NodeShown("a", 100, "other2", 100, 110, True) and seen_by(ann, shown) == Shown(3, 1, False, 0, 7)
    assert seen_by(ann, Shown(3, 1, True, 500, 12)) == Shown(3, 1, True, 0, 9)
    with pytest.raises(NotYet):  # The bidder's first high bid isn't known yet.
        seen_by(ann, NodeShown("a", 100, "z", 100, 110, True))
    assert seen_by(ann, WhoShown("y", 10, 0, 0)) is None and seen_by(ann, WhoShown("x", 10, 0, 0)) == WhoShown("x", 10, 0, 0)


# The table.


def test_the_table_is_read() -> None:
    given = {"running": {"identities": "own", "count": "closes", "revenue": False}, "observers": ["public"]}
    information, roles = read_information(given, ROLES)
    assert information == Information(OWN, Rule(), ("public",)) and read_information(table_of(information), ROLES) == (information, roles)
    assert {name for name, role in roles.items() if role.sees_all} == {"public"} and all(role.has_rules for role in roles.values())
    assert read_information({}, ROLES)[0] == Information()


WRONG: dict[str, dict[str, Any]] = {
    "information.colour: there is no such field": {"colour": "red"},
    "information.running has to be a table": {"running": "own"},
    "information.running.who: there is no such field": {"running": {"who": "own"}},
    "information.running.identities has to be 'all', 'own', 'none'": {"running": {"identities": "some"}},
    "information.unveiled.count has to be 'exact' or 'closes'": {"unveiled": {"count": True}},
    "information.running.revenue has to be true or false": {"running": {"revenue": "no"}},
    "information.observers has to be a list of names that are observers": {"observers": ["ann"]},
    "information.unveiled hides what information.running shows, and nobody forgets it": {"unveiled": {"identities": "none"}},
}


@pytest.mark.parametrize("said", WRONG)
def test_a_wrong_table_is_refused(said: str) -> None:
    with pytest.raises(Wrong) as refused:
        read_information(WRONG[said], ROLES)
    assert str(refused.value) == said


def test_the_next_segment_has_what_pseudonyms_need() -> None:
    state = RecordState(order=["y", "x"], is_unveiled=True)
    head = state.head()
    other = RecordState()
    other.begin({"form": 2, "segment": 2, "definition": None, "state": head})
    assert (other.order, other.is_unveiled, other.head()) == (["y", "x"], True, head)
    assert "information" not in RecordState().head()


# Pages.


def view_of(line: str) -> View:
    """A view of all, after the first close and one more bid."""
    lines = ["ROUND 2 STAGE 1 OPEN REVENUE 500 COUNT 5", *filled("x", "y", "w"), "NODE east HIGH 0 - PRICE 250 MIN 280 WIN no", "NODE all HIGH 0 - PRICE 500 MIN 550 WIN no"]
    told = read_told(TREE, [*lines, *(f"WHO {bidder} ELIGIBILITY 10 ACTIVITY 10 TICKET 1" for bidder in TREE.bidders)])
    return View(Seen(told, None, Begin(told.shown, told.whos, True)), Contact(State.LIVE, 0, 1), information=line)


def test_a_page_shows_no_more_than_lines_do() -> None:
    limit = limit_of(Information(OWN), TREE, "ann", ROLES["ann"])
    own = limit(view_of("INFORMATION running CLOSES 1 COUNTS 4 ORDER x,y,w"))
    assert own and own.seen and list(own.seen.standing.whos) == ["x"]
    texts = model_of(TREE, ["x"], own).texts
    assert [texts[f"node-{node}-bid"] for node in "abcd"] == ["100 of x", "150 of other1", "250 of other2", "no bid"]
    assert (texts["count"], texts["revenue"]) == ("4", "\N{EN DASH}")
    assert texts["outlook"] == "How many bids and waivers this round has is shown once it is closed."
    hidden = limit_of(Information(NONE), TREE, "public", ROLES["public"])(view_of("INFORMATION running CLOSES 1 COUNTS 4 ORDER x,y,w"))
    assert hidden and model_of(TREE, [], hidden).texts["node-b-bid"] == "150" and model_of(TREE, [], hidden).texts["revenue"] == "500"


def test_a_page_waits_for_the_close_that_it_was_told_of() -> None:
    limit = limit_of(Information(OWN), TREE, "ann", ROLES["ann"])
    assert limit(view_of("INFORMATION running CLOSES 0 COUNTS 0 ORDER -")) is None
    unknown = limit(view_of(""))
    assert unknown and unknown.seen is None


def test_the_answers_of_lines() -> None:
    line = "INFORMATION running IDENTITIES own COUNT closes REVENUE no"
    assert parse_answer(line) == InformationShown("running", "own", False, False)


def test_pseudonyms_are_no_other_definition() -> None:
    told = read_told(TREE, ["ROUND 2 STAGE 1 OPEN REVENUE 500 COUNT 5", *filled("x", "other1", "w"), "NODE east HIGH 0 - PRICE 250 MIN 280 WIN no", "NODE all HIGH 0 - PRICE 500 MIN 550 WIN no"])
    look_whose(TREE, told, has_pseudonyms=True)
    with pytest.raises(NotTold):
        look_whose(TREE, told)
