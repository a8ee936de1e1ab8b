"""Rounds that keep time (docs/ROUNDS.md), behind a real front: `test_day_by_clock.py` has a whole day."""

from __future__ import annotations

import base64
import http.client
import signal
import time
from datetime import datetime, timezone
from pathlib import Path

import pytest
from fronts import ADDRESS, Caller, Front, token_of
from harness.auctions import definition
from harness.fronts import run_tool
from harness.programs import Program
from harness.serving import wait_until

from hpb.front.times import read_exact_time, text_of_time


def test_a_round_is_opened_and_closed_by_hand_of_the_auctioneer(front: Front) -> None:
    """The clock begins with OPEN, and goes on over a restart."""
    front.tables = {"rounds": {"unsynchronised": True}}
    front.write_config()
    front.start()
    desk = Caller(front, "desk")
    assert front.ask("ann", "BID x 1 a 100") == "ERR front closed"
    until = text_of_time(time.time() + 4)
    assert desk.ask(f"OPEN 1 UNTIL {until}").endswith(f" OPEN 1 UNTIL {until}")
    assert front.ask("ann", "IN 1 BID x 1 a 100") == "OK 1" and front.ask("ann", "IN 2 BID x 2 b 110") == "ERR front round"
    wait_until(lambda: front.ask("public", "SHOW").startswith("ROUND 2 "), 60, "the round isn't closed")
    assert datetime.now(timezone.utc).timestamp() >= read_exact_time(until)
    assert front.ask("ann", "IN 1 BID x 1 a 100") == "OK 1" and front.ask("ann", "BID x 2 b 110") == "ERR front closed"
    front.signal(signal.SIGTERM)
    front.ended()
    front.start()
    assert front.ask("ann", "SCHEDULE").startswith("SCHEDULE ROUND 2 STATE waits ")
    desk = Caller(front, "desk")
    assert desk.ask("CLOSE 2") == "ERR front clock"
    # The front asks for the end of the auction: its news end with that.
    assert desk.ask("PAUSE").endswith(" PAUSE 2 auctioneer") and desk.ask("CLOSE 2 ENDING").startswith("OK ")
    ran = run_tool("client", f"{ADDRESS}:{front.port}", "--token", front.tokens, "--name", "ann", "--plain", "--news")
    told = [line.split(" ", 3)[3] for line in ran.lines()]
    assert (ran.errors, ran.status) == ("", 0)
    assert told == ["PLAN 1", f"OPEN 1 UNTIL {until}", "END 1", "CLOSE 1", "PAUSE 2 auctioneer", "OVER 2"], told


def test_an_unsynchronised_clock_pauses_and_says_so(front: Front) -> None:
    """On a machine that keeps its time by NTP this says nothing of a pause."""
    front.tables = {"rounds": {"first": text_of_time(time.time() + 60), "length_seconds": 60}}
    front.write_config()
    front.start()
    state = front.ask("ann", "SCHEDULE").split(" STATE ")[1].split()[0]
    wait_until(lambda: front.ask("ann", "SCHEDULE").split(" STATE ")[1].split()[0] in ("paused", "waits"), 30, state)
    if front.ask("ann", "SCHEDULE").split(" STATE ")[1].startswith("paused"):
        front.wait_until_said("front: the round clock is paused: unsynchronised. The auctioneer goes on with RESUME")
        assert front.ask("ann", "BID x 1 a 100") == "ERR front closed" and front.ask("desk", "RESUME") == "ERR front clock"


@pytest.mark.parametrize(
    ("tables", "words"),
    [
        ({"rounds": {"first": "2026-12-02T09:00Z"}}, "rounds.length_seconds"),
        ({"rounds": {"zone": "Mars"}}, "rounds.zone"),
        ({"closing": {"second": ["ann"]}}, "closing.second has to be a list of names that are observers"),
        ({"closing": {"plain": 1}}, "closing.plain has to be true or false"),
    ],
)
def test_a_configuration_that_cant_be_is_refused(front: Front, tables: dict[str, dict[str, object]], words: str) -> None:
    front.tables = tables
    front.write_config()
    ran = front.run()
    assert ran.status == 2 and words in ran.errors


def test_a_plain_close_is_refused_if_it_would_end_the_auction(front: Front) -> None:
    front.start()
    desk = Caller(front, "desk")
    assert desk.ask("PREVIEW") == "PREVIEW ROUND 1 REVENUE 0 SHORT 4 WAIVERS 0 LOSING 4 ENDS yes"
    assert desk.ask("CLOSE 1") == "ERR front end" and front.ask("ann", "BID x 1 a 100") == "OK 1"
    front.kill()
    front.start()
    desk = Caller(front, "desk")
    # The bid is known after the kill, too.
    assert desk.ask("PREVIEW x") == "PREVIEW x ELIGIBILITY 10 ACTIVITY 10 SHORT 0 WAIVER none AFTER 10"
    assert [desk.ask(line) for line in ("CLOSE 1", "CLOSE 2", "CLOSE 2 ENDING")] == ["OK 2", "ERR front end", "OK 3"]


def test_the_page_has_the_clock_and_what_is_said(program: Program, room: Path) -> None:
    with Front(program, room, has_board=True, tables={"rounds": {"unsynchronised": True}}) as front:
        program.keep(front.file, text=definition())
        front.start()
        desk = Caller(front, "desk")
        desk.ask("SAY ann please telephone")
        desk.ask(f"OPEN 1 UNTIL {text_of_time(time.time() + 600)}")
        wait_until(lambda: "Round 1 takes bids until" in page_of(front, "ann"), 60, "the page doesn't say the clock")
        wait_until(lambda: "please telephone" in page_of(front, "ann"), 60, "the page doesn't say what is said")
        assert "please telephone" not in page_of(front, "bob") and "please telephone" in page_of(front, "desk")
        assert front.ask("ann", "READ 2") == "READ 2"
        wait_until(lambda: "please telephone" not in page_of(front, "ann"), 60, "it is shown though it was read")


def page_of(front: Front, name: str) -> str:
    """The page as a name sees it."""
    said = base64.b64encode(f"{name}:{token_of(name)}".encode()).decode()
    connection = http.client.HTTPConnection("localhost", front.board_port, timeout=30)
    try:
        connection.request("GET", "/", headers={"Authorization": f"Basic {said}"})
        return connection.getresponse().read().decode()
    finally:
        connection.close()
