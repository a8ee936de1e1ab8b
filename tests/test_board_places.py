"""How a board reaches its server: one connection for all viewers, questions alone, and what it says if the server is lost or silent."""

from __future__ import annotations

import time
from collections.abc import Iterator
from contextlib import contextmanager
from pathlib import Path

import pytest
from boards import NODES, RULES, Between, Tools, Viewer
from harness.auctions import FIRST_ROUND
from harness.programs import Program
from harness.serving import Serve, Server, free_port, wait_until
from test_board_values import accept

SECONDS = 60


@pytest.fixture
def server(program: Program, room: Path, serve: Serve) -> Server:
    """A server of a new auction, with eight places."""
    return serve(program.keep(room / "F", (), RULES, journal=16), 8)


@pytest.fixture
def between(server: Server) -> Iterator[Between]:
    """Stands before it."""
    with Between(server.port) as made:
        yield made


def test_viewers_cost_the_server_nothing(between: Between, tools: Tools) -> None:
    """It has one connection, and is asked no more. One viewer too many is refused."""
    site = tools.board(between.port)[1]
    # All of the first state: SHOW, and then the nodes between two more.
    wait_until(lambda: len(between.lines) >= len(NODES) + 3, SECONDS, "the first state")
    before, began = len(between.lines), time.monotonic()
    viewers = [Viewer(site) for _ in range(200)]
    for viewer in viewers:
        viewer.sees(count="0")
    assert site.get("/events")[0] == 503
    assert site.shows(count="0")
    asked, seconds = len(between.lines) - before, time.monotonic() - began
    assert asked <= seconds / 0.2 + 2, "no more is asked than the pace allows"
    assert (between.connections, between.most) == (1, 1)


@pytest.mark.parametrize("name", ["board", "watch"])
def test_questions_alone_are_sent(server: Server, between: Between, tools: Tools, name: str) -> None:
    """And no name but the definition's."""
    words = ["--bidders", "x,w", "--pace", "0.1", *(["--listen", "127.0.0.1:0"] if name == "board" else [])]
    tool = tools.start(name, *tools.place(between.port), *words)
    wait_until(lambda: len(between.lines) > 20, SECONDS, "it asks")
    with server.connect() as session:
        accept(session, *FIRST_ROUND, "BID w 2 c 250", "CLOSE 2")
        asked = len(between.lines)
        wait_until(lambda: len(between.lines) > asked + 20, SECONDS, "it asks again")
        assert set(between.lines) == {"SHOW\n", *(f"NODE {node}\n" for node in NODES), "WHO x\n", "WHO w\n"}
        assert (between.connections, between.most) == (1, 1)
        assert tool.stop()[1:] == ("", 0)
        assert session.ask("SHOW").endswith(" COUNT 7"), "nothing else was accepted"


@pytest.mark.parametrize("places", [1, 2])
def test_a_connection_that_is_cut_is_made_anew_if_there_is_a_place(server: Server, between: Between, tools: Tools, places: int) -> None:
    """The page says so, and what stood there stays."""
    with server.connect() as session:
        accept(session, *FIRST_ROUND)
    site = tools.board(between.port, "--places", places)[1]
    viewer = Viewer(site)
    viewer.sees(contact="Live.", count="5")
    between.cut()
    viewer.wait(lambda: any(said.startswith("The server was lost at ") for said in viewer.said))
    if places == 1:
        lost = "What stands here is of before. No place is left: start it again to go on."
        viewer.wait(lambda: viewer.texts["contact"].endswith(lost))
        assert viewer.marks["contact"] == "lost"
        assert site.shows(round="2", node_all_bid="500 of z")
    else:
        viewer.sees(contact="Live.")
        between.cut()
        time.sleep(1)
    assert (between.connections, between.most) == (places, 1)


@contextmanager
def served(program: Program, file: Path, port: int) -> Iterator[Server]:
    with Server(program, file, 4, port) as server:
        yield server


def send(server: Server, *lines: str) -> None:
    with server.connect() as session:
        accept(session, *lines)


def test_a_board_is_there_before_its_server_and_outlives_it(program: Program, room: Path, tools: Tools) -> None:
    """A server that isn't there takes no place."""
    file, port = program.keep(room / "F", (), RULES), free_port()
    viewer = Viewer(tools.board(port, "--places", 2)[1])
    viewer.sees(contact="There is no server yet.")
    time.sleep(1)
    with served(program, file, port) as server:
        viewer.sees(contact="Live.", count="0")
        send(server, "BID x 1 a 100")
        viewer.sees(count="1")
    viewer.wait(lambda: viewer.marks["contact"] == "lost")
    assert viewer.texts["contact"].endswith(" It connects again by itself (1 place left).")
    with served(program, file, port) as server:
        viewer.sees(contact="Live.")
        send(server, "BID y 1 b 150")
        viewer.sees(count="2")


def test_what_is_shown_is_that_of_the_copy_that_is_served(program: Program, room: Path, tools: Tools) -> None:
    """An older copy, and then one that went another way, which SHOW doesn't tell from it: nothing is said of a change then."""
    port, keep = free_port(), program.keep
    first, older = keep(room / "first", FIRST_ROUND, RULES), keep(room / "older", FIRST_ROUND[:4], RULES)
    other = keep(room / "other", ["BID x 1 a 110", *FIRST_ROUND[1:]], RULES)
    with served(program, first, port):
        viewer = Viewer(tools.board(port, "--bidders", "x", "--places", 3)[1])
        viewer.sees(round="2", node_a_bid="100 of x", contact="Live.")
    with served(program, older, port) as server:
        viewer.sees(round="1", count="4", node_a_bid="no bid", closes="No round has been closed yet.")
        send(server, "CLOSE 1")
        viewer.sees(round="2", count="5", node_a_bid="100 of x", closes="By the close of round 1:")
        picture = viewer.picture
    with served(program, other, port):
        viewer.sees(round="2", count="5", node_a_bid="110 of x", node_a_price="145")
        assert viewer.picture != picture
        assert (viewer.lists["close-list"], viewer.texts["closes"][:22]) == ([], "No close was seen here")


def test_a_server_that_is_silent_is_waited_for(between: Between, tools: Tools) -> None:
    """On the same connection; the page says so, and goes on."""
    viewer = Viewer(tools.board(between.port, "--places", 3)[1])
    viewer.sees(contact="Live.")
    between.silent.set()
    viewer.wait(lambda: viewer.marks["contact"] == "silent")
    assert viewer.texts["contact"].startswith("The server has not answered since ")
    between.silent.clear()
    viewer.sees(contact="Live.")
    assert (between.connections, between.most) == (1, 1)
