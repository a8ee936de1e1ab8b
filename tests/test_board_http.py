"""The page of `tools/board` and its files: their policies, requests that are refused, and definitions that are refused."""

from __future__ import annotations

import dataclasses
import json
import re
import socket
import urllib.parse
from collections.abc import Iterator
from pathlib import Path

import pytest
from boards import FIELDS, RULES, Site, Tools, Viewer, proxy_of
from harness.auctions import FIRST_ROUND
from harness.markup import Page
from harness.programs import Program
from harness.serving import ADDRESS, Serve, Server, free_port, wait_until
from test_board_values import accept

from hpb.pages import page
from hpb.pages.model import model_of
from hpb.pages.view import Contact, State, View
from hpb.rules.tree import tree_of
from hpb.rules.writing import read_fields

STATIC = Path(page.__file__).parent / "static"
SECONDS = 60


@pytest.fixture
def server(program: Program, room: Path, serve: Serve) -> Server:
    """A server of the first round, with four places."""
    return serve(program.keep(room / "F", FIRST_ROUND, RULES), 4)


@pytest.fixture
def site(server: Server, tools: Tools) -> Iterator[Site]:
    """A board of it, that may be asked for by a name of its own. It says nothing of what it is asked."""
    tool, made = tools.board(server.port, "--name", "Auction.example")
    yield made
    assert tool.stop()[1:] == ("", 0)


POLICIES = {
    "default-src": "'none'",
    "script-src": "'self'",
    "style-src": "'self'",
    "connect-src": "'self'",
    "frame-ancestors": "'none'",
    "base-uri": "'none'",
}
LANDMARKS = ("header", "main", "nav", "footer", "h1")


def test_the_page_brings_nothing_from_elsewhere(site: Site) -> None:
    status, fields, body = site.get()
    assert (status, fields["Content-Type"], int(fields["Content-Length"])) == (200, "text/html; charset=utf-8", len(body))
    policy = dict(part.split(" ", 1) for part in fields["Content-Security-Policy"].split("; "))
    assert {name: policy.get(name) for name in POLICIES} == POLICIES
    assert (fields["X-Content-Type-Options"], fields["Cache-Control"]) == ("nosniff", "no-store")
    found = Page(body.decode())
    assert [name for element in found.all() for name in element.attrib if name == "style" or name.startswith("on")] == []
    assert [len(found.all(tag)) for tag in LANDMARKS] == [1] * len(LANDMARKS)
    assert b"//" not in body and re.findall(rb'<link rel="icon" href="([^"]*)"', body) == [b"board.svg"]
    assert re.findall(rb'(?:href|src)="/', body) == [], "all is asked for beside the page, so that a proxy may have it in a folder"
    assert [link for element in found.all("a") if (link := element.attrib["href"][1:]) not in found.texts()] == []
    live = [(element.get("id"), element.get("aria-live")) for element in found.all() if "aria-live" in element.attrib]
    assert live == [("said", "polite")]


@pytest.mark.parametrize(("name", "kind"), [("board.css", "text/css"), ("board.js", "text/javascript"), ("board.svg", "image/svg+xml")])
def test_a_file_of_the_page(site: Site, name: str, kind: str) -> None:
    status, fields, data = site.get(f"/{name}")
    assert (status, fields["Content-Type"].split(";")[0], data) == (200, kind, (STATIC / name).read_bytes())
    text = re.sub(rb"^\s*//.*$|xmlns=\S*", b"", data, flags=re.M)
    assert b"//" not in text and b"url(" not in text


def test_the_picture_has_a_policy_of_its_own(site: Site) -> None:
    wait_until(lambda: site.get("/tree.svg")[0] == 200, SECONDS, "the picture")
    assert site.get("/tree.svg")[1]["Content-Security-Policy"].startswith("default-src 'none'; style-src 'sha256-")


def test_a_proxy_may_have_the_page_in_a_folder(server: Server, tools: Tools) -> None:
    """Under a name of its own: all that it asks for is found, and events come at once."""
    site = tools.board(server.port, "--name", "board.example")[1]
    with proxy_of(site.port, "/auction/") as proxy:
        behind = Site(proxy.port, host="board.example")
        status, _, body = behind.get("/auction/")
        assert (status, Page(body.decode()).faults) == (200, [])
        wait_until(lambda: site.get("/tree.svg")[0] == 200, SECONDS, "the picture")
        wanted = [name.decode() for name in re.findall(rb'(?:href|src)="([^"#][^"]*)"', body)]
        assert [name.split("?")[0] for name in wanted] == ["board.svg", "board.css", "board.js", "tree.svg"]
        assert [behind.get(urllib.parse.urljoin("/auction/", name))[0] for name in wanted] == [200] * 4
        viewer = Viewer(behind, "/auction/events")
        viewer.sees(count="5")
        with server.connect() as session:
            accept(session, "BID x 2 a 160")
        viewer.sees(count="6")
        assert behind.get("/auction/", host="evil.example")[0] == 421


def test_text_that_came_past_all_checks_stands_as_text() -> None:
    evil, whole = "</script><img src=x onerror=alert(1)>\"'&", tree_of(read_fields(FIELDS))
    tables = ("nodes", "level", "units", "opening", "licences", "children")
    changed = {table: {evil if name == "d" else name: value for name, value in getattr(whole, table).items()} for table in tables}
    tree = dataclasses.replace(whole, **changed)
    shown, model = page.Page(tree, []), model_of(tree, [], View(None, Contact(State.WAITING, 0, 1)))
    blank = model._replace(texts={**model.texts, "contact": evil}, lists={**model.lists, "close-list": [evil]})
    found = Page(shown.html(blank).decode())
    texts = found.texts()
    assert (texts["contact"], texts["close-list"], f"node-{evil}" in texts) == (evil, evil, True)
    assert (found.faults, len(found.all("img")), [tag for tag in found.all() if "onerror" in tag.attrib]) == ([], 1, [])
    event = shown.event(None, blank).decode()
    assert event.count("\n") == 3, "two lines, and the event's end"
    assert json.loads(event.split("data: ", 1)[1])["texts"]["contact"] == evil


# Requests by their words, and the status of each answer.
REQUESTS: dict[str, tuple[dict[str, str], int]] = {
    "another path": ({"path": "/../board"}, 404),
    "a file of the folder": ({"path": "/board.py"}, 404),
    "a post": ({"method": "POST"}, 405),
    "another host": ({"host": "evil.example"}, 421),
    "its port": ({"host": "evil.example:80"}, 421),
    "its events": ({"path": "/events", "host": "evil.example"}, 421),
    "its name": ({"host": "auction.example"}, 200),
    "its name in capitals": ({"host": "Auction.EXAMPLE:443"}, 200),
    "a whole address, as a proxy sends": ({"path": "http://auction.example/board.css", "host": "auction.example"}, 200),
    "a whole address without a path": ({"path": "http://auction.example", "host": "auction.example"}, 200),
    "the icon of a picture that is opened alone": ({"path": "/favicon.ico"}, 200),
    "an address": ({"host": "[::1]:8080"}, 200),
}
BYTES = {
    "two hosts": b"GET / HTTP/1.1\r\nHost: localhost\r\nHost: evil.example\r\n\r\n",
    "no version": b"GET /\r\nHost: localhost\r\n\r\n",
    "bytes that are no text": bytes(range(128, 256)) + b"\r\n\r\n",
    "no host": b"GET / HTTP/1.1\r\n\r\n",
    "no request": b"\r\n\r\n",
    "too long": b"GET / HTTP/1.1\r\nHost: localhost\r\nA: " + b"a" * 9_000,
}


def test_which_requests_are_refused(site: Site) -> None:
    assert {what: site.ask(**asked).status for what, (asked, _) in REQUESTS.items()} == {what: status for what, (_, status) in REQUESTS.items()}
    assert {what: site.status(raw) for what, raw in BYTES.items()} == dict.fromkeys(BYTES, 400)
    with site.connect() as connection, connection.makefile("rb") as answer:
        connection.sendall(b"HEAD / HTTP/1.1\r\nHost: localhost\r\n\r\n")
        assert answer.read().endswith(b"\r\n\r\n")


# Definitions.

NOT_A_NAME = "is not 1 to 16 of a to z, 0 to 9 and _"
WRONG: dict[str, tuple[str, str, str]] = {
    "markup": ('"d"', '"<script>"', f"the definition is refused: nodes[5].name: '<script>' {NOT_A_NAME}"),
    "a line's end": ('"d"', '"d\\nBID"', f"the definition is refused: nodes[5].name: 'd\\nBID' {NOT_A_NAME}"),
    "a capital": ('"x"', '"X"', f"the definition is refused: bidders[0].name: 'X' {NOT_A_NAME}"),
    "another node": ('"d"', '"e"', "another definition: NODE e is answered ERR 12 node"),
    "another bidder": ('"x"', '"q"', "another definition: WHO q is answered ERR 11 bidder"),
    "another step": ('"step":10', '"step":20', "another definition: the minimum of all is 550, and by this one 560"),
    "other units": ('"w","units":25', '"w","units":24', "another definition: w has an eligibility of 25 and 1 waivers"),
    "no waivers": ('"waivers":1,', "", "another definition: x has an eligibility of 10 and 1 waivers"),
    "no JSON": (RULES.decode(), "{", "the definition is refused: the definition is no JSON, nor is its first line"),
}


@pytest.mark.parametrize("name", ["board", "watch"])
@pytest.mark.parametrize(("old", "new", "said"), WRONG.values(), ids=WRONG)
def test_a_definition_of_another_auction_is_refused(server: Server, tools: Tools, old: str, new: str, said: str, name: str) -> None:
    words = ["--once"] if name == "watch" else ["--listen", f"{ADDRESS}:0"]
    place = tools.place(server.port, RULES.decode().replace(old, new).encode())
    assert tools.start(name, *place, "--all-bidders", *words).ended()[1:] == (f"{name}: {said}\n", 1)


@pytest.mark.parametrize(
    ("words", "said"),
    [
        (["--bidders", "q"], "the definition has no bidder 'q'"),
        (["--places", "0"], "at least one place is needed, and a pace of 0.05 s to an hour"),
        (["--pace", "nan"], "at least one place is needed, and a pace of 0.05 s to an hour"),
        (["--port", "65536"], "there is no port 65536"),
    ],
)
def test_words_that_are_wrong(tools: Tools, words: list[str], said: str) -> None:
    assert tools.watch(free_port(), *words).ended() == ("", f"watch: {said}\n", 1)


def test_a_definition_that_is_missing_and_an_address_of_another_machine(room: Path, tools: Tools) -> None:
    written, said, status = tools.start("watch", "--port", 5000, "--definition", room / "none").ended()
    assert (written, said.startswith(f"watch: {room / 'none'}: "), status) == ("", True, 1)
    ended = tools.start("board", *tools.place(5000), "--listen", "192.0.2.1:8080").ended()
    assert ended == ("", "board: 192.0.2.1, port 8080: Cannot assign requested address\n", 1)


@pytest.mark.parametrize(
    ("answer", "said"),
    [
        (b"HTTP/1.1 400 Bad Request\r\n\r\n", "SHOW is answered 'HTTP/1.1 400 Bad Request\\r': is it the port of hpb serve?"),
        (b"ROUND 1 STAGE 1 OPEN REVENUE 01 COUNT 0\n", "this is no whole answer: 'ROUND 1 STAGE 1 OPEN REVENUE 01 COUNT 0'"),
        (b"a" * 70_000, "no line comes from this port: is it that of hpb serve?"),
    ],
    ids=["http", "zero", "no line"],
)
def test_what_is_no_server_is_named(tools: Tools, answer: bytes, said: str) -> None:
    with socket.create_server((ADDRESS, 0)) as listener:
        listener.settimeout(SECONDS)
        watch = tools.watch(listener.getsockname()[1], "--once")
        with listener.accept()[0] as client:
            client.sendall(answer)
            assert watch.ended() == ("", f"watch: {said}\n", 1)
