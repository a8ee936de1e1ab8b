"""What names may know (docs/FRONT.md), behind a real front: lines, page, events, picture and terminal show the same, over a kill, until all is
unveiled."""

from __future__ import annotations

import time
from collections.abc import Iterator
from pathlib import Path

import pytest
from boards import DASH, RULES, Site, Viewer
from fronts import ADDRESS, Front, token_of
from harness.auctions import FIRST_ROUND
from harness.fronts import run_tool
from harness.programs import Program
from harness.serving import free_port, wait_until

SECONDS = 60
SENDERS = {"x": "ann", "y": "bob", "z": "bob", "w": "carl"}
HIDDEN = "How many bids and waivers this round has is shown once it is closed."
# By hand: z has the high bid of all, x that of a, y of b and w of c. They are numbered in the order of these nodes.
ANN = {"all": "500 of other1", "a": "100 of x", "b": "150 of other2", "c": "100 of other3", "d": "no bid"}
NAMES = {"all": "500 of z", "a": "100 of x", "b": "150 of y", "c": "100 of w", "d": "no bid"}


@pytest.fixture
def front(program: Program, room: Path) -> Iterator[Front]:
    """A front that limits what names may know, with a page, of a new auction with waivers; it isn't started."""
    made = Front(program, room, has_board=True)
    program.keep(made.file, (), RULES, journal=16)
    made.tables = {
        "board": {"listen": f"{ADDRESS}:{free_port()}"}, "information.running": {"identities": "own", "count": "closes", "revenue": False},
    }
    made.configure(listen=f"{ADDRESS}:{free_port()}")
    yield made
    made.kill()


def accept(front: Front, *lines: str) -> None:
    answers = [front.ask(SENDERS.get(line.split(" ")[1], "desk"), line) for line in lines]
    assert [answer for answer in answers if not answer.startswith("OK ")] == []


def site(front: Front, name: str) -> Site:
    return Site(front.board_port, name, token_of(name), front.context)


def bids(nodes: dict[str, str]) -> dict[str, str]:
    return {f"node-{node}-bid": text for node, text in nodes.items()}


def watched(front: Front, name: str) -> str:
    """The picture of a terminal."""
    token, definition = front.folder / "token", front.folder / "definition.json"
    token.touch(mode=0o600)
    token.write_text(token_of(name))
    definition.write_bytes(RULES)
    words = ["--front", f"{ADDRESS}:{front.port}", "--token", token, "--plain", "--definition", definition, "--bidders", "x", "--once"]
    ran = run_tool("watch", *words)
    assert ran.status == 0, ran
    return ran.output


@pytest.mark.timeout(240)
def test_each_channel_hides_the_same_until_all_is_unveiled(front: Front) -> None:
    front.start()
    accept(front, *FIRST_ROUND)
    for name, nodes in (("ann", ANN), ("desk", NAMES)):
        wait_until(lambda: site(front, name).shows(**bids(nodes)), SECONDS, f"the page of {name}")
    assert site(front, "ann").shows(count="5", revenue=DASH, outlook=HIDDEN) and site(front, "desk").shows(count="5", revenue="500")
    picture = site(front, "ann").get("/tree.svg")[2]
    assert b"150 of other2" in picture and b"150 of y" not in picture
    look_at_hidden_bid(front)
    front.kill()
    front.start()
    assert front.ask("ann", "SHOW") == "ROUND 2 STAGE 1 OPEN REVENUE 0 COUNT 5"
    assert front.ask("ann", "NODE b").startswith("NODE b HIGH 150 other2 PRICE ")
    seen = watched(front, "ann")
    assert "150 of other2" in seen and f"Revenue {DASH}. 5 commands." in seen and HIDDEN in seen
    unveil(front)


def look_at_hidden_bid(front: Front) -> None:
    """Another name bids: neither a line nor an event shows that to ann, and her own bid shows as ever."""
    ann, desk = Viewer(site(front, "ann")), Viewer(site(front, "desk"))
    ann.sees(count="5")
    known = len(ann.seen)
    assert front.ask("bob", "BID z 2 all 550") == "OK 6"
    desk.sees(count="6")
    time.sleep(1.5)
    assert len(ann.seen) == known and front.ask("ann", "SHOW").endswith(" REVENUE 0 COUNT 5")
    assert front.ask("ann", "WAIVE x 2") == "OK 7"
    ann.sees(bidder_x_ticket="3")
    assert len(ann.seen) == known + 1 and ann.texts["count"] == "5"


def unveil(front: Front) -> None:
    accept(front, "CLOSE 2")
    assert front.ask("desk", "UNVEIL") == "ERR front running" and front.ask("ann", "UNVEIL") == "ERR front rights"
    accept(front, "CLOSE 3 ENDING")
    ann = Viewer(site(front, "ann"))
    ann.sees(status="over", revenue=DASH, node_all_bid="550 of other1")
    unveiled = front.ask("desk", "UNVEIL")
    assert unveiled.endswith(" UNVEIL 3") and front.ask("ann", "EVENT 0") == unveiled
    ann.sees(revenue="550", node_all_bid="550 of z", contact="The auction is over: nothing changes any more.")
    assert front.ask("ann", "NODE b").startswith("NODE b HIGH 150 y PRICE ")
    ran = front.stop()
    assert ran.status == 0 and [entry["order"] for entry in front.entries("met")] == [["z", "x", "y", "w"]]
    assert [entry["round"] for entry in front.entries("unveiled")] == [3]
    replayed = run_tool("replay", front.record, "--program", front.program.path, "--file", front.file)
    assert replayed.status == 0, replayed


def test_a_wrong_table_is_refused_by_its_field(front: Front) -> None:
    front.tables = {"information.running": {"identities": "some"}}
    front.write_config()
    ran = front.run()
    assert ran.status == 2 and ran.errors == "front: information.running.identities has to be 'all', 'own', 'none'\n"
