"""`tools/board` shows what the server answers after each command, of one moment, and the words of docs/RULES.md on what changed."""

from __future__ import annotations

import json
import socket
import time
from collections.abc import Iterator
from pathlib import Path

import pytest
from boards import BIDDERS, FIELDS, NODES, RULES, SECONDS, Asks, Between, Site, Tools, Viewer, look_at_board, shown_texts
from harness.auctions import FIRST_ROUND, greatest_definition
from harness.programs import Program
from harness.serving import ADDRESS, Client, Serve, Server

DOCS = Path(__file__).resolve().parents[1] / "docs"
OVER = "The auction is over: nothing changes any more."
NOBODY_BID = "Nobody has bid or waived in this round: a close now ends the auction."


def accept(session: Asks, *lines: str) -> None:
    """Each has to be accepted."""
    assert [answer for line in lines if not (answer := session.ask(line)).startswith("OK ")] == []


@pytest.fixture
def server(program: Program, room: Path, serve: Serve) -> Server:
    """A server of a new auction, with four places."""
    return serve(program.keep(room / "F", (), RULES, journal=16), 4)


@pytest.fixture
def session(server: Server) -> Iterator[Client]:
    """A connection to it."""
    with server.connect() as client:
        yield client


def test_a_page_has_what_the_server_answers(server: Server, session: Client, tools: Tools) -> None:
    """After bids, closes, a stage, a waiver and the end. Then the board ends its connection, and the page stays."""
    tool, site = tools.board(server.port, "--all-bidders")
    viewer = Viewer(site)
    look_at_board(site, viewer, shown_texts(session, FIELDS, BIDDERS))
    steps = [FIRST_ROUND[:4], FIRST_ROUND[4:], ["BID w 2 c 250", "STAGE 2"], ["CLOSE 3"], ["WAIVE z 2"], ["CLOSE 4"], ["CLOSE 5"]]
    for lines in steps:
        accept(session, *lines)
        look_at_board(site, viewer, shown_texts(session, FIELDS, BIDDERS))
    viewer.sees(contact=OVER)
    assert viewer.texts.keys() | viewer.marks.keys() | viewer.lists.keys() <= site.page().texts().keys()
    for last in (server.connect(), server.connect(), session):
        assert last.finish() == []
    ran = server.ended()
    assert (ran.output, ran.status) == ("CLOSED 11\n", 0)
    assert site.shows(status="over")
    assert tool.stop()[1:] == ("", 0)


# What the closes of docs/RULES.md change: a package beats its parts, and the parts win the tie.
FIRST_CLOSE = [
    "all: wins now; high bid no bid → 500 of z; minimum 300 → 550",
    "a: high bid no bid → 100 of x; minimum 100 → 160",
    "b: high bid no bid → 150 of y; minimum 100 → 210",
    "c: high bid no bid → 100 of w; minimum 100 → 200",
    "revenue 0 → 500",
    "1 other node has another minimum",
]
SECOND_CLOSE = [
    "all: no longer wins",
    "a: wins now; minimum 160 → 110",
    "b: wins now; minimum 210 → 170",
    "c: wins now; high bid 100 of w → 250 of w; minimum 200 → 280",
    "1 other node has another minimum",
    "y: waivers 1 → 0",
]
BEFORE_SECOND = """all-win won before, east-minimum was 360, east-price was 325, a-minimum was 160, a-price was 138, a-win new, b-minimum was 210,
    b-price was 187, b-win new, c-bid was 100 of w, c-minimum was 200, c-price was 175, c-win new"""


def test_what_closes_change_and_what_came_since(server: Server, session: Client, tools: Tools) -> None:
    viewer = Viewer(tools.board(server.port, "--bidders", "w,y")[1])
    viewer.sees(outlook=NOBODY_BID)
    assert (viewer.texts["closes"], viewer.lists["close-list"]) == ("No round has been closed yet.", [])
    accept(session, *FIRST_ROUND[:4])
    viewer.sees(outlook="4 bids and waivers in this round: its close opens the next one.")
    assert viewer.lists["round-list"] == ["w: activity 0 → 20, ticket 0 → 1", "y: activity 0 → 10, ticket 0 → 1"]
    accept(session, *FIRST_ROUND[4:])
    viewer.sees(closes="By the close of round 1:", node_all_win_was="new", outlook=NOBODY_BID)
    assert (viewer.lists["close-list"], viewer.lists["round-list"]) == (FIRST_CLOSE, [])
    assert viewer.said[-1] == "Round 2 is open. Now wins: all."
    accept(session, "BID w 2 c 250")
    viewer.sees(outlook="1 bid or waiver in this round: its close opens the next one.")
    assert viewer.said[-1] == "w: ticket 2, activity 20."
    accept(session, "CLOSE 2")
    viewer.sees(closes="By the close of round 2:")
    assert viewer.lists["close-list"] == SECOND_CLOSE
    was = viewer.of("node-{}-was", [f"{node}-{what}" for node in NODES for what in ("bid", "minimum", "price", "win")])
    wanted = dict(words.split(" ", 1) for words in " ".join(BEFORE_SECOND.split()).split(", "))
    assert {name: text for name, text in was.items() if text} == wanted
    assert [name for name in NODES if "changed" in viewer.marks[f"node-{name}"].split()] == ["all", "east", "a", "b", "c"]
    assert viewer.said[-1] == "Round 3 is open. Now wins: a, b, c."
    accept(session, "STAGE 3")
    viewer.sees(stage="2 of 2, at 95 percent", outlook=NOBODY_BID)


def number(text: str) -> int:
    return int(text.split(" ")[0].replace(",", ""))


def test_what_is_shown_is_of_one_moment(server: Server, session: Client, tools: Tools) -> None:
    """Closes come in the midst of the questions: each time the winners' bids are the revenue."""
    accept(session, *FIRST_ROUND, "BID w 2 c 250")
    with Between(server.port) as between:
        between.before["NODE c\n"] = lambda: accept(session, "CLOSE 2")
        site = tools.board(between.port, "--bidders", "x,w")[1]
        viewer = Viewer(site)
        viewer.sees(round="3")
        between.before["WHO w\n"] = lambda: accept(session, "CLOSE 3")
        accept(session, "BID y 2 b 180")
        viewer.sees(round="4")
        assert between.before == {}
        look_at_board(site, viewer, shown_texts(session, FIELDS, ["x", "w"]))
    moments = [texts for texts in viewer.seen if texts["count"] != "\N{EN DASH}"]
    assert len(moments) >= 2
    for texts in moments:
        wins = [name for name in NODES if "wins" in texts[f"node-{name}-win"]]
        assert sum(number(texts[f"node-{name}-bid"]) for name in wins) == number(texts["revenue"]), texts


def test_a_bidder_who_bids_between_two_questions_is_asked_about_again(server: Server, session: Client, tools: Tools) -> None:
    with Between(server.port) as between:
        between.before["WHO w\n"] = lambda: accept(session, "BID x 1 a 100")
        site = tools.board(between.port, "--bidders", "x,w")[1]
        viewer = Viewer(site)
        viewer.sees(count="1")
        assert between.before == {}
        look_at_board(site, viewer, shown_texts(session, FIELDS, ["x", "w"]))


ROUND_2 = {
    "x": "8 units short, and waived in this round: it keeps its eligibility.",
    "y": "8 units short: a close now takes a waiver, and leaves the eligibility.",
    "z": "Enough: a close now leaves the eligibility as it is. No room for more units.",
    "w": "20 units short: a close now takes a waiver, and leaves the eligibility.",
}
ROUND_3 = {name: f"{short} units short: a close now lowers the eligibility to 0." for name, short in (("x", 8), ("w", 20))}


def test_what_a_close_now_would_leave_to_a_bidder(program: Program, room: Path, serve: Serve, tools: Tools) -> None:
    """By the example of waivers over three rounds. One more board, for which there is no place, waits."""
    server = serve(program.keep(room / "F", (), RULES), 2)
    viewer, session = Viewer(tools.board(server.port, "--all-bidders")[1]), server.connect()
    viewer.sees(count="0")
    accept(session, *FIRST_ROUND[:4])
    viewer.sees(count="4")
    assert viewer.texts["bidder-w-outlook"] == "Enough: a close now leaves the eligibility as it is. Room for 5 units more."
    accept(session, FIRST_ROUND[4])
    viewer.sees(count="5")
    accept(session, "WAIVE x 2")
    viewer.sees(count="6")
    assert viewer.of("bidder-{}-outlook", BIDDERS) == ROUND_2
    assert [viewer.marks[f"bidder-{name}"] for name in BIDDERS] == ["short", "short", "enough", "short"]
    accept(session, "CLOSE 2")
    viewer.sees(count="7")
    assert viewer.of("bidder-{}-outlook", "xw") == ROUND_3
    assert [viewer.marks[f"bidder-{name}"] for name in BIDDERS] == ["falls", "falls", "enough", "falls"]
    assert tools.board(server.port, "--bidders", "x")[1].page().texts()["contact"] == "There is no server yet."


GREAT = json.loads(greatest_definition())
TOP, *_ = GREAT_NODES = [node["name"] for node in GREAT["nodes"]]
GREAT_BIDDERS = [bidder["name"] for bidder in GREAT["bidders"]]


@pytest.fixture
def great(program: Program, room: Path, serve: Serve, tools: Tools) -> Server:
    """A server of the greatest auction; boards are started for that, too."""
    tools.rules = greatest_definition()
    return serve(program.keep(room / "F", (), tools.rules, journal=16), 4)


def test_the_greatest_auction(great: Server, tools: Tools) -> None:
    site, session = tools.board(great.port, "--all-bidders")[1], great.connect()
    viewer = Viewer(site)
    amounts = [1_000_000_000_000] * 63 + [100] * 64
    bids = zip(GREAT_BIDDERS * 2, GREAT_NODES, amounts)
    accept(session, *(f"BID {bidder} {place // 64 + 1} {node} {amount}" for place, (bidder, node, amount) in enumerate(bids)))
    accept(session, "CLOSE 1")
    look_at_board(site, viewer, shown_texts(session, GREAT, GREAT_BIDDERS))
    written, said, status = tools.watch(great.port, "--all-bidders", "--once").ended()
    assert (said, status, sum(" of b0" in line for line in written.split("\n"))) == ("", 0, 127)


def test_two_viewers_have_a_change_within_two_seconds(great: Server, tools: Tools) -> None:
    """While others take nothing, send half a request or are gone; those are given up."""
    site, session = tools.board(great.port, "--all-bidders")[1], great.connect()
    stuck, halves = bad_viewers(site, 20)
    viewers = [Viewer(site), Viewer(site)]
    for viewer in viewers:
        viewer.sees(count="0")
    amount = 6_400
    for turn in range(1, 16):
        accept(session, f"BID {GREAT_BIDDERS[0]} {turn} {TOP} {amount}", f"CLOSE {turn}")
        began = time.monotonic()
        for viewer in viewers:
            viewer.sees(2, round=str(turn + 1), **{f"node-{TOP}-bid": f"{amount:,} of {GREAT_BIDDERS[0]}"})
        assert time.monotonic() - began < 2
        amount = int(session.ask(f"NODE {TOP}").split(" ")[8])
    assert site.shows(round="16")
    assert viewers[0].bytes > 4 * 65_536, "the events are more than buffers hold"
    # After so long the board has given up who takes nothing.
    time.sleep(22)
    assert [has_end(one) for one in (stuck[0], halves[0])] == [True, True]


def bad_viewers(site: Site, count: int) -> tuple[list[socket.socket], list[socket.socket]]:
    """So many that ask for events and take none, so many that send half a request, and so many that have gone."""
    asked, half = (f"GET {path}\r\nHost: localhost".encode() for path in ("/events HTTP/1.1", "/ HTTP/1.1"))
    stuck, halves = [], []
    for _ in range(count):
        one = socket.socket()
        one.setsockopt(socket.SOL_SOCKET, socket.SO_RCVBUF, 1_024)
        one.connect((ADDRESS, site.port))
        one.sendall(asked + b"\r\n\r\n")
        stuck.append(one)
        halves.append(site.connect())
        halves[-1].sendall(half)
        with site.connect() as gone:
            gone.sendall(asked + b"\r\n\r\n")
    return stuck, halves


def has_end(connection: socket.socket) -> bool:
    """Whether what comes ends, within as long as is waited."""
    connection.settimeout(SECONDS)
    try:
        while connection.recv(65_536):
            pass
    except TimeoutError:
        return False
    except OSError:
        pass
    return True


def test_the_document_has_what_watch_writes_and_the_picture(server: Server, session: Client, tools: Tools) -> None:
    """docs/BOARD.md and docs/pictures/board-tree.svg, after the bids and closes that it speaks of."""
    site = tools.board(server.port, "--bidders", "x,y,w")[1]
    viewer = Viewer(site)
    accept(session, *FIRST_ROUND, "BID w 2 c 250", "CLOSE 2", "BID y 2 b 180")
    viewer.sees(count="8")
    written, said, status = tools.watch(server.port, "--bidders", "x,y,w", "--once").ended()
    assert (said, status, written in (DOCS / "BOARD.md").read_text()) == ("", 0, True)
    assert site.get("/tree.svg")[2].decode() == (DOCS / "pictures" / "board-tree.svg").read_text()
