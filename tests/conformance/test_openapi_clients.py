"""Two clients that know nothing but `/v1/openapi.json`, in two languages: an auction with all operations, and each answer as the document says."""

from __future__ import annotations

import json
import shutil
import subprocess
import sys
from collections.abc import Iterator
from contextlib import closing
from pathlib import Path
from typing import Any

import pytest
from boards import Tools
from fronts import Front, token_of
from harness.fixtures import Lack
from harness.programs import Program
from harness.serving import ADDRESS, free_port, wait_until
from sites_of_web import RULES, SECONDS, Web

HERE = Path(__file__).resolve().parent


class Caller:
    """One client, which runs. `used` are the operations that it called."""

    def __init__(self, words: list[str]) -> None:
        self.process = subprocess.Popen(words, stdin=subprocess.PIPE, stdout=subprocess.PIPE, text=True)
        self.used: set[str] = set()

    def call(self, name: str, operation: str, **more: object) -> tuple[int, Any]:
        """Status and document of the answer to a call of a name, in which nothing may be otherwise than described."""
        assert self.process.stdin and self.process.stdout
        self.used.add(operation)
        step: dict[str, object] = {"operation": operation, "token": token_of(name) if name else "", **more}
        self.process.stdin.write(json.dumps(step) + "\n")
        self.process.stdin.flush()
        found = json.loads(self.process.stdout.readline())
        assert found["faults"] == [], (step, found)
        return found["status"], found["document"]

    def command(self, name: str, **body: object) -> tuple[int, Any]:
        """A command of a name: its status, and its number, or the word of its refusal."""
        status, document = self.call(name, "command", body=body)
        return status, document["number" if status == 200 else "word"]

    def close(self) -> None:
        """Ends it."""
        self.process.kill()
        self.process.communicate(timeout=SECONDS)


@pytest.fixture
def site(program: Program, room: Path, tools: Tools) -> Iterator[Web]:
    """A site that keeps results, before a front with a second name for the end."""
    front = Front(program, room)
    program.keep(front.file, (), RULES, journal=16)
    front.configure(listen=f"{ADDRESS}:{free_port()}").start()
    (front.folder / "public").write_text(token_of("public"))
    (front.folder / "public").chmod(0o600)
    yield Web(tools, front, {"public": "public", "results": "results", "title": "Coast 2026"}).start()
    front.kill()


@pytest.mark.parametrize("language", ["python", "js"])
@pytest.mark.timeout(240)
def test_a_client_that_knows_the_document_alone_takes_part(site: Web, lack: Lack, language: str) -> None:
    words = {"python": [sys.executable, "-B", str(HERE / "openapi_client.py")], "js": [shutil.which("node") or "", str(HERE / "openapi_client.mjs")]}
    if not words[language][0]:
        lack("no Node is there")
    with closing(Caller([*words[language], f"http://{ADDRESS}:{site.port}"])) as caller:
        first_round(caller)
        refusals(caller)
        desk_and_news(caller)
        the_end(caller, site)
        _, document = caller.call("", "openapi")
        assert caller.used == {one["operationId"] for item in document["paths"].values() for one in item.values()}


def first_round(caller: Caller) -> None:
    """The first round of the example, each ticket as the site says it."""
    assert [node["name"] for node in caller.call("ann", "definition")[1]["nodes"]] == ["all", "east", "a", "b", "c", "d"]
    assert caller.call("ann", "auction")[1]["title"] == "Coast 2026"
    number = 0
    for name, bidder, node, amount in (("ann", "x", "a", 100), ("bob", "y", "b", 150), ("bob", "z", "all", 500), ("carl", "w", "c", 100)):
        tickets = {one["bidder"]: one["next_ticket"] for one in caller.call(name, "me")[1]["bidders"]}
        number += 1
        bid = {"kind": "bid", "bidder": bidder, "node": node, "amount": amount, "ticket": tickets[bidder], "round": 1}
        assert caller.command(name, **bid) == caller.command(name, **bid) == (200, number), "sent twice, it counts once"
    assert [one["short"] for one in caller.call("desk", "preview")[1]["bidders"]] == [0, 0, 0, 0]
    assert caller.command("desk", kind="close", ticket=caller.call("desk", "auction")[1]["next_ticket"]) == (200, 5)
    assert [node["minimum"] for node in caller.call("public", "nodes")[1]["nodes"]] == [550, 360, 160, 210, 200, 100]
    assert caller.call("public", "nodes", accept="text/csv")[1].splitlines()[1] == "all,,40,500,z,500,550,true"
    assert caller.call("ann", "node", parameters={"node": "c"})[1]["minimum"] == 200
    assert caller.call("bob", "results")[1]["bidders"] == [{"bidder": "z", "licences": 3, "amount": 500}]


def refusals(caller: Caller) -> None:
    """Refusals of the auction, of the front and of the site."""
    bid: dict[str, object] = {"kind": "bid", "bidder": "x", "node": "a", "amount": 160, "ticket": 2, "round": 2}
    rows: list[tuple[str, dict[str, object], tuple[int, str]]] = [
        ("ann", {"amount": 155}, (422, "step")), ("ann", {"amount": 100}, (422, "low")), ("ann", {"amount": 1_000_000_000_010}, (422, "high")),
        ("ann", {"node": "nowhere"}, (404, "node")), ("ann", {"ticket": 3}, (409, "gap")), ("ann", {"ticket": 1, "round": 2}, (409, "ticket")),
        ("ann", {"round": 1}, (409, "round")), ("ann", {"bidder": "y"}, (403, "rights")), ("public", {}, (403, "rights")), ("", {}, (401, "token")),
        ("ann", {"node": "all", "amount": 550}, (409, "eligibility")),
    ]
    for name, more, wanted in rows:
        assert caller.command(name, **{**bid, **more}) == wanted, (name, more)
    assert caller.call("ann", "command", body={"kind": "bid"}, is_bad=True)[0] == 400
    assert caller.call("ann", "node", parameters={"node": "nowhere"})[0] == 404 and caller.call("ann", "preview")[0] == 403
    assert caller.call("ann", "auction", accept="image/png")[1]["word"] == "accept"
    assert caller.call("ann", "events", parameters={"Last-Event-ID": "x"}, events=1)[0] == 400


def desk_and_news(caller: Caller) -> None:
    """The round clock, announcements, and the events that they are."""
    assert caller.call("desk", "announce", body={"to": "all", "text": "a break of ten minutes"})[1]["said"] == "a break of ten minutes"
    assert caller.call("ann", "clock", body={"kind": "pause"})[0] == 403
    assert caller.call("desk", "clock", body={"kind": "resume"})[1]["word"] == "clock", "there is no pause"
    assert caller.call("ann", "schedule")[1]["state"] == "none"
    news = caller.call("ann", "announcements")[1]
    assert (news["read"], [one["said"] for one in news["news"]]) == (0, ["a break of ten minutes"])
    assert caller.call("ann", "read", body={"number": news["news"][-1]["number"]})[1] == {"read": news["news"][-1]["number"]}
    first = caller.call("ann", "events", events=2)[1]
    assert first[0]["round"] == 2 and first[1]["said"] == "a break of ten minutes"
    assert caller.call("ann", "events", parameters={"Last-Event-ID": "5-1"}, events=1)[1][0]["count"] == 5
    assert caller.call("judge", "agree", body={"ticket": 2})[0] == 401 and caller.call("public", "agree", body={"ticket": 2})[0] == 403


def the_end(caller: Caller, site: Web) -> None:
    """A close that ends the auction says so, and both rounds are kept."""
    wait_until(lambda: bool(caller.call("public", "rounds")[1]["rounds"]), SECONDS, "the first round is kept")
    assert caller.command("desk", kind="close", ticket=2) == (409, "end")
    assert caller.command("desk", kind="close", ticket=2, ending=True) == (200, 6)
    wait_until(lambda: len(caller.call("public", "rounds")[1]["rounds"]) == 2, SECONDS, "the last round is kept")
    assert caller.call("ann", "round", parameters={"round": 2})[1]["is_over"] is True
    assert caller.call("ann", "round", parameters={"round": 3})[1]["word"] == "absent"
    assert site.front.accepted()[-1] == ("CLOSE 2", "OK 6")
