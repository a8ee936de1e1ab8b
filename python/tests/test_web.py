"""The parts of the site: events without a gap, forms that are accepted, tries that are slowed, results that are kept, configurations."""
from __future__ import annotations

import asyncio
import csv
import dataclasses
import json
import pathlib
import re
import time
from typing import Any
from xml.etree import ElementTree

import pytest

from hpb.rounds import Schedule
from hpb.web import rendering
from hpb.web.config import Wrong, read_config
from hpb.web.documents import ALL_SHOWN, round_of
from hpb.web.following import State, events_between, read_id
from hpb.web.keeping import Keeper
from hpb.web.links import AUCTIONEER, BIDDER, MOST_WAITING, OBSERVER, Link
from hpb.web.notes import Notes
from hpb.web.problems import Problem
from hpb.web.results import NotKept, Results
from hpb.web.slowing import FORGOTTEN, FREE, MOST_KEYS, MOST_SECONDS, MOST_SECONDS_OF_NAME, Slowing
from harness_of_html import faults_of
from serving import DEFINITION
from web_front import NOW, ROLES, Front, token_of
from web_site import Noted, Visitor, run, visited

FIRST_ROUND = ("BID x 1 a 100", "BID y 1 b 150", "BID z 1 all 500", "BID w 1 c 100", "CLOSE 1")


def began(waivers: int = 1) -> Front:
    """A front after the first round."""
    front = Front(waivers)
    for line in FIRST_ROUND:
        front.tell(line)
    return front


# Events.


async def events_of(visitor: Visitor, count: int, last: str = "", name: str = "ann") -> list[tuple[str, str, dict[str, Any]]]:
    """The next events of a stream: kind, id and document."""
    headers = {"Authorization": f"Bearer {token_of(name)}", **({"Last-Event-ID": last} if last else {})}
    found = []
    async with visitor.client.get("/v1/events", headers=headers) as answer:
        assert answer.headers["Content-Type"] == "text/event-stream; charset=utf-8"
        fields: dict[str, str] = {}
        async for line in answer.content:
            name_, _, value = line.decode().rstrip("\n").partition(": ")
            if name_:
                fields[name_] = value
            elif fields.get("event"):
                found.append((fields["event"], fields["id"], json.loads(fields["data"])))
                fields = {}
                if len(found) == count:
                    return found
    raise AssertionError(found)


def test_a_stream_goes_on_behind_its_last_event_with_nothing_missing() -> None:
    async def look() -> None:
        front = began()
        front.say("SAY all we begin")
        async with visited(front) as visitor:
            first = await events_of(visitor, 2)
            assert [(kind, one) for kind, one, _ in first] == [("auction", "5-0"), ("news", "5-1")]
            assert first[0][2]["count"] == 5 and first[1][2]["said"] == "we begin"
            front.tell("BID x 2 a 160")
            for number in range(2, 5):
                front.say(f"SAY all number {number}")
            again = await events_of(visitor, 4, first[-1][1])
            assert [(kind, one) for kind, one, _ in again] == [("auction", "6-1"), ("news", "6-2"), ("news", "6-3"), ("news", "6-4")]
            whole = await events_of(visitor, 5)
            assert [document["text"] for kind, _, document in whole[1:]] == [one.text for one in front.news]

    run(look)


def test_a_stream_gets_what_changes_while_it_lasts() -> None:
    async def look() -> None:
        front = began()
        async with visited(front) as visitor:
            waiting = asyncio.create_task(events_of(visitor, 3))
            await asyncio.sleep(0.5)
            front.tell("WAIVE x 2")
            front.say("SAY all a break")
            found = await waiting
            assert [(kind, one) for kind, one, _ in found] == [("auction", "5-0"), ("auction", "6-0"), ("news", "6-1")]

    run(look)


def test_news_that_the_front_has_forgotten_are_told_to_be_missed() -> None:
    front = Front()
    for number in range(250):
        front.say(f"SAY all {number}")

    async def look() -> None:
        async with visited(front) as visitor:
            found = await events_of(visitor, 202, "0-7")
            assert found[1] == ("missed", "0-50", {"from": 8, "to": 50}) and [one for _, one, _ in found[2:]] == [f"0-{number}" for number in range(51, 251)]

    run(look)


def test_a_stream_ends_when_its_token_goes() -> None:
    async def look() -> None:
        front = began()
        async with visited(front) as visitor:
            async with visitor.client.get("/v1/events", headers={"Authorization": f"Bearer {token_of('ann')}"}) as answer:
                await answer.content.readuntil(b"\n\n")
                front.revoked.add("ann")
                await answer.content.read()
            assert (await visitor.ask("GET", "/v1/auction")).status == 401
            assert (await visitor.ask("GET", "/v1/auction", "bob")).status == 200

    run(look)


def test_events_between_two_states() -> None:
    front = Front()
    link = Link(front.connect(token_of("ann")), front.tree)
    shown, _ = run(link.shown)
    one, two = front.say("CLOSE 1"), front.say("OPEN 2 UNTIL 2026-12-02T09:30:00Z")
    state = State(shown, ALL_SHOWN, (one,))
    assert events_between(link, "", state, 1, state) == []
    assert [event.id for event in events_between(link, "", state, 1, State(shown, ALL_SHOWN, (one, two)))] == ["0-2"]
    assert [event.kind for event in events_between(link, "", None, 2, state)] == ["auction"]
    assert [read_id(text) for text in ("", "0-0", "1000000-999")] == [0, 0, 999]
    for text in ("1", "-1", "1-", "1-2-3", "a-1", "1-1234567890"):
        with pytest.raises(Problem):
            read_id(text)


# Names.


def test_a_name_is_known_by_what_the_front_refuses_it() -> None:
    wanted = {"desk": AUCTIONEER, "ann": BIDDER, "bob": BIDDER, "carl": BIDDER, "public": OBSERVER, "judge": OBSERVER}
    for front in (Front(), began()):
        before = front.auction
        found = {name: run(Link(front.connect(token_of(name)), front.tree).identity) for name in ROLES}
        # A client is welcome once it was answered.
        assert {one: identity.kind for one, identity in found.items()} == wanted
        assert {name: identity.own for name, identity in found.items() if identity.own} == {"ann": ("x",), "bob": ("y", "z"), "carl": ("w",)}
        assert front.auction == before, "asking changes nothing"


def test_too_many_requests_of_one_name_are_refused_and_of_others_are_not() -> None:
    class Slow:
        """A client that takes its time."""

        async def ask(self, lines: Any) -> Any:
            await asyncio.sleep(0.2)
            return [Schedule(1, "none", None, None, 0, NOW) for _ in lines]

        def name(self) -> str:
            return "ann"

        def is_mock(self) -> bool:
            return False

        async def end(self) -> None:
            pass

    async def look() -> None:
        link = Link(Slow(), Front().tree)
        outcomes = await asyncio.gather(*(link.one("SCHEDULE", Schedule) for _ in range(MOST_WAITING + 3)), return_exceptions=True)
        assert [one.word for one in outcomes if isinstance(one, Problem)] == ["busy"] * 3
        await link.one("SCHEDULE", Schedule)

    run(look)


def test_failed_tries_are_slowed_and_noted_without_the_token() -> None:
    async def look() -> None:
        front = began()
        async with visited(front) as visitor:
            visitor.stop_clock()
            assert (await visitor.ask("GET", "/v1/auction")).status == 200
            tries = [await visitor.ask("GET", "/v1/auction", None, headers={"Authorization": f"Bearer a-guess-of-nobody-{number}"}) for number in range(8)]
            assert [one.status for one in tries] == [401] * FREE + [429] * 3
            assert int(tries[-1].headers["Retry-After"]) >= 1
            assert (await visitor.ask("GET", "/v1/auction")).status == 200, "a token that is in use isn't slowed"
            noted = [json.loads(line) for line in visitor.noted.lines]
            assert [line["kind"] for line in noted] == ["token"] * (FREE + 1) + ["slowed"] * 3 and all("guess" not in line for line in visitor.noted.lines)
            for token in ("", "short", "with a space in it all", "x" * 200):
                assert (await visitor.ask("GET", "/v1/auction", None, headers={"Authorization": f"Bearer {token}"})).status in (401, 429)
            for field in ("Basic YTpi", "Bearer", token_of("ann")):
                assert (await visitor.ask("GET", "/v1/auction", None, headers={"Authorization": field})).status == 401

    run(look)


def test_each_failure_doubles_the_pause_of_an_address_and_less_of_a_name() -> None:
    slowing = Slowing()
    for _ in range(FREE):
        assert slowing.wait("192.0.2.1", "ann", 0.0) == 0
        slowing.failed("192.0.2.1", "ann", 0.0)
    waits = []
    for _ in range(12):
        waits.append(slowing.wait("192.0.2.1", None, 0.0))
        slowing.failed("192.0.2.1", None, 0.0)
    assert waits == [1, 2, 4, 8, 16, 32, 64, 128, 256, MOST_SECONDS, MOST_SECONDS, MOST_SECONDS]
    assert slowing.wait("192.0.2.1", None, MOST_SECONDS - 1) == 1 and slowing.wait("192.0.2.1", None, MOST_SECONDS) == 0
    for _ in range(20):
        slowing.failed("192.0.2.2", "ann", 0.0)
    assert slowing.wait("192.0.2.3", "ann", 0.0) == MOST_SECONDS_OF_NAME and slowing.wait("192.0.2.3", "bob", 0.0) == 0
    slowing.succeeded("192.0.2.2", "ann")
    assert slowing.wait("192.0.2.2", "ann", 0.0) == 0
    for _ in range(FREE):
        slowing.failed("2001:db8::1", None, 0.0)
    assert slowing.wait("2001:db8::ffff", None, 0.0) == 1 and slowing.wait("2001:db8:0:1::1", None, 0.0) == 0
    slowing.failed("2001:db8::1", None, FORGOTTEN + 1)
    assert slowing.wait("2001:db8::1", None, FORGOTTEN + 1) == 0
    for number in range(MOST_KEYS + 10):
        slowing.failed(f"host{number}", None, 0.0)
    assert len(slowing._tries) == MOST_KEYS


# Forms.


def test_accept_chooses_the_form_that_is_liked_best() -> None:
    offered = (rendering.JSON, rendering.CSV)
    rows = {
        "": "json", "*/*": "json", "text/csv": "csv", "text/*": "csv", "application/json": "json", "text/csv, application/json": "json",
        "text/csv;q=0.9, application/json;q=0.1": "csv", "application/json;q=0, */*": "csv", "image/png": None, "text/html, */*;q=0.1": "json",
        "nonsense": None, "*/csv": None,
    }
    found = {accept: rendering.chosen(accept, offered) for accept in rows}
    assert {accept: kind and kind.split("/")[1] for accept, kind in found.items()} == rows


def test_a_cell_of_csv_is_no_formula() -> None:
    rows = [{"text": text} for text in ("=1+1", "+1", "-1", "@x", 'a "word", and more', "a\nb")]
    text = rendering.csv_of(rows, ["text"]).decode()
    assert [row[0] for row in csv.reader(text.splitlines(keepends=True))] == ["text", "'=1+1", "'+1", "'-1", "'@x", 'a "word", and more', "a\nb"]


# Results.


def test_results_are_kept_as_files_and_read_again(tmp_path: pathlib.Path) -> None:
    front, folder = began(), tmp_path / "results"
    results = Results(folder, front.tree, 'The <b>"coast"</b>')

    async def link() -> Link:
        return Link(front.connect(token_of("public")), front.tree)

    noted = Noted()
    keeper = Keeper(link, results, notes_of(noted))
    run(keeper.look)
    run(keeper.look)
    front.tell("BID w 2 c 250")
    front.tell("CLOSE 2")
    run(keeper.look)
    assert [json.loads(line)["round"] for line in noted.lines] == [1, 2] and results.last == 2
    names = {"rounds.json", "index.html", "feed.atom", *(f"round-{number}.{kind}" for number in (1, 2) for kind in ("json", "csv", "html"))}
    assert {path.name for path in folder.iterdir()} == names
    again = Results(folder, front.tree, "")
    assert again.rounds() == results.rounds() and again.round(3) is None
    second = again.round(2)
    assert second and second["bidders"] == [
        {"bidder": "x", "licences": 1, "amount": 100}, {"bidder": "y", "licences": 1, "amount": 150}, {"bidder": "w", "licences": 1, "amount": 250},
    ]
    for path in folder.glob("*.html"):
        text = path.read_text()
        assert faults_of(text) == [] and "<b>" not in text and "&lt;b&gt;" in text
    feed = ElementTree.fromstring((folder / "feed.atom").read_bytes())
    space = "{http://www.w3.org/2005/Atom}"
    assert [one.findtext(f"{space}title") for one in feed.iter(f"{space}entry")] == ["Round 2", "Round 1"]
    assert json.loads((folder / "rounds.json").read_bytes())["rounds"][0]["revenue"] == 500


def notes_of(noted: Noted) -> Notes:
    """Notes that a test reads."""
    import logging

    logger = logging.Logger("results")
    logger.addHandler(noted)
    return Notes(logger)


def test_a_folder_of_another_auction_or_of_no_results_is_refused(tmp_path: pathlib.Path) -> None:
    front = began()
    (tmp_path / "round-1.json").write_text("{}")
    with pytest.raises(NotKept):
        Results(tmp_path, front.tree, "")
    (tmp_path / "round-1.json").write_text(json.dumps({"nodes": [{"node": "other"}]}))
    with pytest.raises(NotKept):
        Results(tmp_path, front.tree, "")
    with pytest.raises(NotKept):
        Results(tmp_path / "round-1.json" / "x", front.tree, "")


def test_a_round_whose_files_cant_be_written_isnt_known(tmp_path: pathlib.Path) -> None:
    front = began()
    results = Results(tmp_path, front.tree, "")
    standing = run(Link(front.connect(token_of("public")), front.tree).standing)
    document = round_of(front.tree, 1, NOW, standing.shown, standing.nodes, standing.information)
    (tmp_path / "rounds.json").mkdir()
    with pytest.raises(NotKept):
        results.add(1, document)
    assert results.round(1) is None and not (tmp_path / "round-1.json").exists()
    (tmp_path / "rounds.json").rmdir()
    results.add(1, document)
    assert results.round(1) == document


# Configurations.


def test_a_configuration_is_read_and_each_fault_is_named(tmp_path: pathlib.Path) -> None:
    (tmp_path / "definition.json").write_bytes(DEFINITION)
    (tmp_path / "T").write_text(token_of("public"))
    (tmp_path / "T").chmod(0o600)
    fields: dict[str, object] = {"definition": "definition.json", "front": "localhost:6000", "listen": "127.0.0.1:8444"}

    def read(**more: object) -> Any:
        lines = [f"{name} = {json.dumps(value)}" for name, value in {**fields, **more}.items() if value is not None]
        (tmp_path / "web.toml").write_text("\n".join(lines))
        return read_config(tmp_path / "web.toml")

    found = read(names=["Auction.example"], title="Coast", public="T", results="results")
    assert (found.front, found.listen, found.names, found.title) == (("localhost", 6000), ("127.0.0.1", 8444), ("auction.example",), "Coast")
    assert found.public == token_of("public") and found.results == tmp_path / "results"
    faults: list[dict[str, object]] = [
        {"definition": None}, {"front": None}, {"listen": None}, {"other": 1}, {"plain": "yes"}, {"front": "localhost"}, {"listen": "127.0.0.1:70000"},
        {"names": ["a..b"]}, {"names": [1]}, {"title": ""}, {"title": "a\nb"}, {"certificate": "S"}, {"public": "T"}, {"results": "results"},
        {"public": "nowhere", "results": "r"}, {"definition": "T"}, {"definition": "nowhere"}, {"listen": "0.0.0.0:8444"}, {"plain": True, "ca": "S"},
    ]
    for fault in faults:
        with pytest.raises(Wrong) as raised:
            read(**fault)
        assert re.search("|".join(["belong", "TLS", "nowhere", "refused", *fault]), str(raised.value)), (fault, raised.value)
    (tmp_path / "web.toml").write_text("= 1")
    for path in (tmp_path / "web.toml", tmp_path / "none"):
        with pytest.raises(Wrong):
            read_config(path)


def test_all_that_hides_a_revenue_makes_it_null() -> None:
    front = began()
    standing = run(Link(front.connect(token_of("public")), front.tree).standing)
    hidden = dataclasses.replace(ALL_SHOWN, has_revenue=False)
    document = round_of(front.tree, 1, NOW, standing.shown, standing.nodes, hidden)
    assert document["revenue"] is None and time.strptime(document["seen_at"], "%Y-%m-%dT%H:%M:%SZ")
