"""A site before a front: commands that count once over kills, events without a gap, and requests that no program of ours would send."""

from __future__ import annotations

import http.client
import itertools
import os
import signal
import socket
import threading
from collections.abc import Iterator
from contextlib import suppress
from pathlib import Path

import pytest
from boards import Tools
from fronts import Front, token_of
from harness.programs import Program
from harness.serving import ADDRESS, free_port, wait_until
from sites_of_web import RULES, SECONDS, Web


@pytest.fixture
def front(program: Program, room: Path) -> Iterator[Front]:
    """A front of a new auction with waivers, whose port stays the same."""
    made = Front(program, room)
    program.keep(made.file, (), RULES, journal=16)
    made.configure(listen=f"{ADDRESS}:{free_port()}").start()
    yield made
    made.kill()


@pytest.fixture
def site(front: Front, tools: Tools) -> Web:
    """A site of that front, which keeps the results of rounds."""
    (front.folder / "public").write_text(token_of("public"))
    (front.folder / "public").chmod(0o600)
    return Web(tools, front, {"public": "public", "results": "results"}).start()


def bid(node: str, amount: int, ticket: int, bidder: str = "x", round_: int = 1) -> dict[str, object]:
    """The document of a bid."""
    return {"kind": "bid", "bidder": bidder, "node": node, "amount": amount, "ticket": ticket, "round": round_}


def test_an_auction_by_http(front: Front, site: Web) -> None:
    rows = [("ann", bid("a", 100, 1)), ("bob", bid("b", 150, 1, "y")), ("bob", bid("all", 500, 1, "z")), ("carl", bid("c", 100, 1, "w"))]
    for number, (name, document) in enumerate(rows, 1):
        status, answer = site.ask("POST", "/v1/commands", name, document)
        assert (status, answer["number"]) == (200, number)
    assert site.ask("POST", "/v1/commands", "ann", bid("a", 100, 1))[1]["number"] == 1, "sent again, it counts once"
    assert site.ask("POST", "/v1/commands", "ann", bid("b", 150, 2, "y"))[1]["word"] == "rights"
    assert site.ask("POST", "/v1/commands", "ann", bid("b", 155, 2))[1]["number"] == 21
    assert site.ask("GET", "/v1/preview", "desk")[1]["revenue"] == 500
    assert site.ask("POST", "/v1/commands", "desk", {"kind": "close", "ticket": 1})[1]["number"] == 5
    status, nodes = site.ask("GET", "/v1/nodes", "public")
    assert [node["minimum"] for node in nodes["nodes"]] == [550, 360, 160, 210, 200, 100]
    assert site.ask("POST", "/v1/commands", "ann", bid("a", 160, 2))[1]["word"] == "round", "a bid of round 1 doesn't count in round 2"
    wait_until(lambda: site.ask("GET", "/v1/rounds/1")[0] == 200, SECONDS, "the results are kept")
    assert site.ask("GET", "/v1/rounds/1")[1]["bidders"] == [{"bidder": "z", "licences": 3, "amount": 500}]
    assert (front.folder / "results" / "round-1.csv").read_text().splitlines()[1] == "all,,40,500,z,500,550,true,false"
    assert site.ask("POST", "/v1/commands", "desk", {"kind": "close", "ticket": 2})[1]["word"] == "end"
    assert site.ask("POST", "/v1/commands", "desk", {"kind": "close", "ticket": 2, "ending": True})[0] == 200
    assert site.ask("GET", "/v1/auction")[1]["is_over"] is True
    assert [line for line, _ in front.accepted()][-1] == "CLOSE 2"


@pytest.mark.timeout(240)
def test_commands_count_once_over_kills_of_server_front_and_site(front: Front, site: Web) -> None:
    """A client sends each command until it is answered. Meanwhile each process is killed, twice."""
    accepted: dict[int, str] = {}
    rows = [("ann", bid("a", 100, 1)), ("bob", bid("b", 100, 1, "y")), ("bob", bid("all", 300, 1, "z")), ("carl", bid("c", 100, 1, "w")), ("carl", bid("d", 100, 2, "w"))]
    kills = itertools.cycle([lambda: os.kill(front.child("serve"), signal.SIGKILL), lambda: again(site), lambda: again(front)])
    for round_ in range(1, 3):
        for name, document in rows:
            line: dict[str, object] = {**document, "round": round_, "ticket": int(str(document["ticket"])) + (2 if name == "carl" else 1) * (round_ - 1)}
            line["amount"] = 100 * 5**round_ * (3 if line["node"] == "all" else 1)
            killing = threading.Thread(target=next(kills))
            killing.start()
            answer = sent(front, site, name, line, killing)
            assert answer["number"] not in accepted
            accepted[answer["number"]] = f"BID {line['bidder']} {line['ticket']} {line['node']} {line['amount']}"
        answer = sent(front, site, "desk", {"kind": "close", "ticket": round_}, None)
        accepted[answer["number"]] = f"CLOSE {round_}"
    assert front.accepted() == [(accepted[number], f"OK {number}") for number in range(1, 13)]
    assert front.stop().output.splitlines()[-1].startswith("STOPPED 12 ")


def answers(site: Web) -> bool:
    """Whether a request of a name is answered."""
    with suppress(OSError, http.client.HTTPException):
        return bool(site.ask("GET", "/v1/auction")[0] == 200)
    return False


def again(one: Front | Web) -> None:
    """Kills it, and starts it again."""
    one.kill()
    one.start()


def sent(front: Front, site: Web, name: str, document: dict[str, object], killing: threading.Thread | None) -> dict[str, int]:
    """The answer to a command that is sent until there is one."""
    for _ in range(100):
        try:
            status, answer = site.ask("POST", "/v1/commands", name, document)
        except OSError:
            status = 0
        if killing:
            killing.join()
            killing = None
        if status == 200:
            found: dict[str, int] = answer
            return found
        assert status in (0, 503, 504), answer
    raise AssertionError(document)


def test_a_program_follows_by_events_over_kills(front: Front, site: Web) -> None:
    """Announcements come each once and in order, though the site and the front are killed meanwhile."""
    heard: list[str] = []
    last = ""
    for number in range(1, 7):
        assert site.ask("POST", "/v1/announcements", "desk", {"to": "all", "text": f"number {number}"})[0] == 200
        if number == 3:
            site.kill()
            site.start()
        if number == 5:
            front.kill()
            front.start()
        if number % 2 == 0:
            for kind, last, document in site.events("ann", last):
                heard += [document["said"]] if kind == "news" else []
                if heard[-1:] == [f"number {number}"]:
                    break
    assert heard == [f"number {number}" for number in range(1, 7)]


def test_requests_that_are_split_oversized_or_none_are_refused_and_nothing_behind_them_is_taken(front: Front, site: Web) -> None:
    token = f"Authorization: Bearer {token_of('ann')}\r\n".encode()
    host = f"Host: {ADDRESS}:{site.port}\r\n".encode()
    hidden = b"GET /v1/auction HTTP/1.1\r\n" + host + token + b"\r\n"
    post = b"POST /v1/commands HTTP/1.1\r\n" + host + token + b"Content-Type: application/json\r\n"
    rows = {
        "both lengths": post + b"Content-Length: %d\r\nTransfer-Encoding: chunked\r\n\r\n0\r\n\r\n" % (len(hidden) + 5) + hidden,
        "chunks": post + b"Transfer-Encoding: chunked\r\n\r\n0\r\n\r\n" + hidden,
        "two lengths": post + b"Content-Length: 0\r\nContent-Length: %d\r\n\r\n" % len(hidden) + hidden,
        "a length with a sign": post + b"Content-Length: +0\r\n\r\n" + hidden,
        "a space before the colon": post + b"Content-Length : 0\r\n\r\n" + hidden,
        "another coding": post + b"Transfer-Encoding: xchunked\r\n\r\n" + hidden,
        "no length": post + b"\r\n" + hidden,
        "too long": post + b"Content-Length: 100000\r\n\r\n" + b" " * 100_000,
        "a field that is too long": b"GET /v1/auction HTTP/1.1\r\n" + host + b"X: " + b"x" * 100_000 + b"\r\n\r\n",
        "a path that is too long": b"GET /" + b"x" * 100_000 + b" HTTP/1.1\r\n" + host + b"\r\n",
        "two hosts": b"GET /v1/auction HTTP/1.1\r\n" + host + host + token + b"\r\n",
        "no host": b"GET /v1/auction HTTP/1.1\r\n" + token + b"\r\n",
        "another host": b"GET /v1/auction HTTP/1.1\r\nHost: evil.example\r\n" + token + b"\r\n",
        "no request": b"\x16\x03\x01\x02\x00\x01\x00\x01\xfc\x03\x03",
        "a line of the front": b"TOKEN " + token_of("ann").encode() + b"\r\nSHOW\r\n\r\n",
        "a field with a zero": b"GET /v1/auction HTTP/1.1\r\n" + host + token + b"X: a\0b\r\n\r\n",
    }
    for what, data in rows.items():
        found = site.raw(data)
        statuses = [line.split()[1] for line in found.split(b"\r\n") if line.startswith(b"HTTP/1.")]
        assert len(statuses) <= 1 and all(status[:1] == b"4" for status in statuses), (what, found)
    assert front.entries("accepted") == [] and site.ask("GET", "/v1/auction")[0] == 200


def test_connections_that_say_nothing_or_half_a_request_are_ended_and_keep_nobody_out(front: Front, site: Web) -> None:
    silent = [socket.create_connection((ADDRESS, site.port), SECONDS) for _ in range(200)]
    try:
        silent[0].sendall(b"GET /v1/auction HTTP/1.1\r\nHost:")
        first = site.raw(b"GET / HTTP/1.1\r\n\r\n")
        assert first == b"", "an address has 128 connections"
        assert silent[0].recv(1) == b"", "after ten seconds they are ended"
        wait_until(lambda: answers(site), SECONDS, "there is room again")
    finally:
        for one in silent:
            one.close()


def test_a_site_that_cant_be_served_says_why(front: Front, site: Web, tools: Tools) -> None:
    def ended(text: str) -> tuple[str, str, int]:
        (front.folder / "W2").write_text(text)
        return tools.start("web", "--config", front.folder / "W2").ended()

    known = (front.folder / "W").read_text()
    assert ended(known.replace("title", "other") + 'other = 1\n')[1:] == ("web: other: unknown\n", 2)
    _, said, status = ended(known)
    assert status == 1 and "Address already in use" in said or "address already in use" in said
    assert site.tool and site.tool.stop()[2] == 0
