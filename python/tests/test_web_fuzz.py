"""Requests by dice: of names, sessions and strangers, well formed and not. None is answered 5xx, none shows what its name may not know, and the
memory that they take is given back.
"""
from __future__ import annotations

import asyncio
import csv
import gc
import io
import json
import pathlib
import random
import re
import sys
import urllib.parse
from collections import Counter
from collections.abc import Iterator, Mapping
from dataclasses import dataclass, field
from typing import Any

import pytest

from hpb.front.core.information import Identities, Information, Rule
from hpb.refusals import FrontRefused
from hpb.web import acting, doors, sending, walls
from hpb.web.resources import RESOURCES
from hpb.web.sessions import COOKIE
from web_front import ROLES, Front, token_of
from web_site import visited

FIRST_ROUND = ("BID x 1 a 100", "BID y 1 b 150", "BID z 1 all 500", "BID w 1 c 100", "CLOSE 1")
OWN = {name: set(role.bidders) for name, role in ROLES.items()}
ALL = set.union(*OWN.values())
# Those who may know all.
KNOWING = ("desk", "judge")
WORDS = [
    "", "0", "1", "2", "3", "-1", "160", "210", "550", "1e9", "1.5", "NaN", "9" * 30, "x", "y", "z", "w", "a", "c", "all", "east", "nowhere", "desk", "ann", "END",
    "open", "pause", "resume", "extend", "bid", "waive", "close", "stage", "10:30", "a,160", "node,amount\r\na,160", "a,1\n" * 140, "<script>", "=1+1", "\0", "\x7f",
    "\N{FULLWIDTH DIGIT ONE}", "\N{ARABIC-INDIC DIGIT ONE}", "\xe9", "a" * 3000, "../..", "%00", "'", '"', "a\r\nSet-Cookie: b=c", "\N{RIGHT-TO-LEFT OVERRIDE}x",
]
VALUES: list[Any] = [*WORDS, None, True, False, 0, 1, 2, 160, -1, 1.5, 2**70, [], {}, [1], {"kind": "bid"}, "\ud800", 100, 210]
FIELDS = ["kind", "bidder", "node", "amount", "ticket", "round", "ending", "until", "to", "text", "number", "more", "__proto__"]
FORMS = ["/bids/check", "/bids/send", "/waivers/check", "/waivers/send", "/desk/close", "/desk/stage", "/desk/clock", "/desk/say", "/agree", "/signin"]
PAGES = ["/", "/bid", "/drafts", "/drafts.csv", "/results", "/desk", "/desk/close", "/signin", "/site.css", "/receipts/x/2", "/drafts/x/1-3", "/receipts/z/2", "/drafts/y/1-9"]
FORM_FIELDS = ["bidder", "round", "ticket", "list", "file", "amount.a", "amount.all", "bid.1", "bid.2", "word", "kind", "until", "to", "text", "name", "token", "code"]
TYPES = ["application/json", "text/plain", "application/x-www-form-urlencoded", "multipart/form-data", "multipart/form-data; boundary=", "application/json; charset=utf-7", "x", ""]
ODD = {
    "Accept": ["text/csv", "*/*", "image/png", "text/csv;q=2", ",,;q=", "a" * 9000], "Last-Event-ID": ["5-0", "0-0", "x", "5-999999999", "-"], "Range": ["bytes=0-1"],
    "Content-Encoding": ["gzip", "br", ""], "Transfer-Encoding": ["chunked", "gzip"], "Expect": ["100-continue", "x"], "Upgrade": ["websocket", "h2c"],
    "X-Forwarded-For": ["x, y", "::1"], "Cookie": ["a/b=1", f"{COOKIE}=x", "=", ";;", "__Host-hpb-form=\xff"], "Authorization": ["Basic YTpi", "Bearer", "Bearer \xff" + "x" * 20],
    "Origin": ["http://evil.example", "null", ""], "Connection": ["close", "Upgrade"], "Host": ["localhost", "evil.example", "[::1]", "[", "127.0.0.1:x"], "Content-Length": ["0", "-1", "5", "1e3"],
}


@dataclass
class Dice:
    """Makes requests of a name. `cookie` and `form` are those of its session."""

    dice: random.Random
    name: str
    port: int
    cookie: str = ""
    form: str = ""
    headers: dict[str, str] = field(default_factory=dict)

    def request(self) -> bytes:
        """One request, as its bytes."""
        self.headers = {"Host": f"127.0.0.1:{self.port}"}
        made = self.dice.choice((self.of_program, self.of_program, self.of_page, self.of_form, self.of_form))()
        if self.dice.random() < 0.1:
            made = self.spoiled(made)
        return made

    def bidder(self) -> str:
        """A bidder, most often one of its own if it has any."""
        return self.dice.choice([*sorted(OWN[self.name]) * 4, *"xyzw"])

    def whole(self, method: str, path: str, body: bytes | None = None) -> bytes:
        """A request with its fields, some of which may be odd."""
        if body is not None:
            self.headers["Content-Length"] = str(len(body))
        for name in self.dice.sample(list(ODD), self.dice.choice((0, 0, 0, 1, 2))):
            self.headers[name] = self.dice.choice(ODD[name])
        lines = [f"{method} {path} HTTP/1.1", *(f"{name}: {value}" for name, value in self.headers.items()), "", ""]
        return "\r\n".join(lines).encode("latin-1", "replace") + (body or b"")

    def of_program(self) -> bytes:
        """A request of `/v1`."""
        self.headers["Authorization"] = f"Bearer {token_of(self.name)}"
        method, path = self.dice.choice([*RESOURCES, ("GET", "/v1/events"), ("POST", "/v1/commands"), ("POST", "/v1/commands")])
        path = re.sub(r"{\w+}", lambda _: urllib.parse.quote(self.dice.choice(["1", "a", "c", *WORDS])[:200].encode("utf-8", "replace")), path)
        if method == "GET":
            return self.whole("GET", path)
        bid = {"kind": "bid", "bidder": self.bidder(), "node": self.dice.choice("abcd"), "amount": self.dice.choice((100, 155, 160, 210, 590)), "ticket": self.dice.choice((1, 2, 2, 2, 3))}
        kinds: dict[str, dict[str, Any]] = {
            "/v1/commands": self.dice.choice([bid, bid, {"kind": "waive", "bidder": self.bidder(), "ticket": 2}]), "/v1/announcements": {"to": "all", "text": "hello"},
            "/v1/announcements/read": {"number": 1}, "/v1/clock": {"kind": "pause"}, "/v1/agreements": {"ticket": 2},
        }
        body = kinds[path] if self.dice.random() < 0.9 else self.dice.choice(list(kinds.values()))
        for _ in range(self.dice.choice((0, 0, 1, 2))):
            body[self.dice.choice(FIELDS)] = self.dice.choice(VALUES)
        self.headers["Content-Type"] = self.dice.choice(["application/json"] * 20 + TYPES)
        return self.whole("POST", path, json.dumps(body).encode())

    def of_page(self) -> bytes:
        """A page of the session."""
        self.headers["Cookie"] = f"{COOKIE}={self.cookie}"
        return self.whole("GET", self.dice.choice(PAGES))

    def of_form(self) -> bytes:
        """A form of the session."""
        self.headers |= {"Cookie": f"{COOKIE}={self.cookie}", "Origin": f"http://127.0.0.1:{self.port}"}
        fields = {"form": self.form, "bidder": self.bidder(), "round": "2", "ticket": "2", "kind": "pause", "to": "all", "text": "hello"}
        for _ in range(self.dice.choice((1, 2, 3))):
            fields[self.dice.choice(FORM_FIELDS)] = self.dice.choice(WORDS)
        path = self.dice.choice(FORMS)
        if self.dice.random() < 0.3:
            kind, body = self.in_parts(fields)
        else:
            kind, body = "application/x-www-form-urlencoded", urllib.parse.urlencode(fields).encode()
        self.headers["Content-Type"] = self.dice.choice([kind] * 20 + TYPES)
        return self.whole("POST", path, body)

    def in_parts(self, fields: Mapping[str, str]) -> tuple[str, bytes]:
        """A form with parts, some of which say odd things of themselves."""
        odd = ["", "", "", "Content-Type: text/csv\r\n", "Content-Encoding: gzip\r\n", "Content-Transfer-Encoding: x\r\n", "Content-Type: text/plain; charset=x\r\n"]
        parts = [
            f'--b\r\nContent-Disposition: form-data; name="{name}"{self.dice.choice(["", "", "; filename=x"])}\r\n{self.dice.choice(odd)}\r\n{value}\r\n'
            for name, value in fields.items()
        ]
        return "multipart/form-data; boundary=b", ("".join(parts) + self.dice.choice(["--b--\r\n", "--b\r\n", ""])).encode("utf-8", "replace")

    def spoiled(self, data: bytes) -> bytes:
        """The same with bytes that are changed, left out, or said twice."""
        found = bytearray(data)
        for _ in range(self.dice.choice((1, 2, 8))):
            place = self.dice.randrange(len(found) + 1)
            match self.dice.randrange(4):
                case 0:
                    found[place : place + 1] = bytes([self.dice.randrange(256)])
                case 1:
                    del found[place : place + self.dice.choice((1, 20))]
                case 2:
                    found[place:place] = self.dice.choice((b"\r\n", b"\n", b"\0", b" ", b"\r\n\r\n", b"Content-Length: 5\r\n", b"\xff"))
                case _:
                    found[place:place] = found[: self.dice.choice((5, 40))]
        return bytes(found)


async def exchanged(port: int, data: bytes) -> list[tuple[int, bytes, bytes]]:
    """Sends bytes, and returns the answers until the connection ends: status, head and body. Of a stream the first events."""
    reader, writer = await asyncio.open_connection("127.0.0.1", port)
    found = []
    try:
        writer.write(data)
        while True:
            head = await reader.readuntil(b"\r\n\r\n")
            length = re.search(rb"(?i)\r\ncontent-length: *(\d+)", head)
            if b" 100 " in head[:16]:
                continue
            body = await reader.readexactly(int(length[1])) if length else await reader.readuntil(b"\n\n")
            found.append((int(head.split(b" ", 2)[1]), head, body))
            if not length or not data.startswith((b"GET ", b"POST ")) or b"onnection: close" in head:
                return found
            if len(found) == data.count(b"HTTP/1.1\r\n"):
                return found
    except (ConnectionError, asyncio.IncompleteReadError):
        return found
    finally:
        writer.close()


def leaks(name: str, head: bytes, body: bytes) -> Iterator[str]:
    """What an answer to a name shows of others' bidders, by each form that an answer has."""
    others = set[str]() if name in KNOWING else ALL - OWN[name]
    kind = head.partition(b"ontent-Type: ")[2].split(b"\r\n")[0].split(b";")[0].decode()
    text = body.decode("utf-8")
    if kind == "text/csv":
        rows = list(csv.DictReader(io.StringIO(text)))
        yield from (one["bidder"] for one in rows if one.get("bidder") in others)
    elif kind in ("application/json", "text/event-stream"):
        lines = [line[6:] for line in text.splitlines() if line.startswith("data: ")] if kind == "text/event-stream" else [text]
        yield from (one for line in lines for one in values_of(json.loads(line), "bidder") if one in others)
    elif kind == "text/html":
        yield from (found[1] for found in re.finditer(r"(?:>|\bof |\bfor |Bidder )([xyzw])(?:<| |:)", text) if found[1] in others)
    if name not in KNOWING and kind == "application/json" and (text.startswith('{"title"') or '"revenue"' in text):
        yield from (f"revenue {one}" for one in values_of(json.loads(text), "revenue") if one is not None)


def values_of(document: Any, field_: str) -> Iterator[Any]:
    """All values of a field, wherever it stands."""
    if isinstance(document, dict):
        for name, value in document.items():
            yield from [value] if name == field_ else values_of(value, field_)
    elif isinstance(document, list):
        for one in document:
            yield from values_of(one, field_)


async def sign_in(dice: Dice) -> None:
    """Signs in, with a session and a form that are new."""
    host = f"HTTP/1.1\r\nHost: 127.0.0.1:{dice.port}\r\nConnection: close\r\n"
    head, body = await answered(dice.port, f"GET /signin {host}\r\n".encode())
    cookie, form = found_in(rb"(__Host-hpb-form=[^;]+)", head), found_in(rb'name="form" value="([^"]+)"', body)
    sent = urllib.parse.urlencode({"form": form, "name": dice.name, "token": token_of(dice.name)})
    fields = f"Origin: http://127.0.0.1:{dice.port}\r\nCookie: {cookie}\r\nContent-Type: application/x-www-form-urlencoded\r\nContent-Length: {len(sent)}\r\n"
    head, _ = await answered(dice.port, f"POST /signin {host}{fields}\r\n{sent}".encode())
    dice.cookie = found_in(rb"__Host-hpb=([^;]+)", head)
    _, body = await answered(dice.port, f"GET /results {host}Cookie: {COOKIE}={dice.cookie}\r\n\r\n".encode())
    dice.form = found_in(rb'name="form" value="([^"]+)"', body)


async def answered(port: int, data: bytes) -> tuple[bytes, bytes]:
    """Head and body of an answer. On a busy machine a connection may be too late, and is tried again."""
    while not (found := await exchanged(port, data)):
        pass
    return found[0][1:]


def found_in(pattern: bytes, data: bytes) -> str:
    """What a pattern finds, which has to be there."""
    found = re.search(pattern, data)
    assert found, data
    return found[1].decode()


async def asks(dice: Dice, front: Front, count: int, seen: Counter[int]) -> None:
    """So many requests of a name, each looked at."""
    for number in range(count):
        if number % 1_000 == 0:
            await sign_in(dice)
        if number % 100 == 0:
            begin(front)
        data = dice.request()
        async with asyncio.timeout(60):
            answers = await exchanged(dice.port, data)
        for status, head, body in answers:
            seen[status] += 1
            assert status < 500, (dice.name, data, body)
            assert list(leaks(dice.name, head, body)) == [], (dice.name, data, body)


def begin(front: Front) -> None:
    """The auction after its first round."""
    front.auction, front.veil = front.began
    front.asked.clear()
    if len(front.news) > 300:
        front.answers = {word: FrontRefused("clock") for word in ("SAY", "PAUSE", "RESUME", "OPEN", "EXTEND")}


async def fuzz(count: int, seed: int, results: pathlib.Path) -> tuple[Counter[int], list[int]]:
    """All statuses, and how many blocks of memory were in use after each tenth."""
    front = Front(information=Information(Rule(Identities.NONE, False, False)))
    for line in FIRST_ROUND:
        front.tell(line)
    front.began = front.auction, front.veil
    seen, sizes = Counter[int](), list[int]()
    async with visited(front, results) as visitor:
        site: Any = visitor.client.server
        server = await asyncio.get_running_loop().create_server(doors.Doors(site.runner.server), "127.0.0.1", 0)
        port = server.sockets[0].getsockname()[1]
        all_dice = [Dice(random.Random(f"{seed} {name}"), name, port) for name in ROLES]
        for _ in range(10):
            await asyncio.gather(*(asks(dice, front, count // 10 // len(all_dice), seen) for dice in all_dice))
            gc.collect()
            sizes.append(sys.getallocatedblocks())
        for name in ROLES:
            assert (await visitor.get("/v1/bidders/me", name))["name"] == name
        server.close()
    return seen, sizes


@pytest.fixture(autouse=True)
def quick(monkeypatch: pytest.MonkeyPatch) -> None:
    """Nobody waits for long for half a request."""
    monkeypatch.setattr(acting, "WAIT_SECONDS", 0.3)
    monkeypatch.setattr(sending, "PAUSE", 0.05)
    monkeypatch.setattr(walls, "BODY_SECONDS", 1.0)
    monkeypatch.setattr(doors, "HEAD_SECONDS", 1.0)


def look(seen: Counter[int], sizes: list[int], count: int) -> None:
    """The dice reached all kinds of answers, and the last seven tenths took no memory that the first three didn't."""
    assert seen.total() > count // 2 and {200, 303, 400, 401, 403, 404, 409, 411, 415, 421, 422} <= set(seen), seen
    assert sizes[-1] - sizes[2] < 20_000, sizes


@pytest.mark.timeout(400)
def test_two_thousand_requests_by_dice(tmp_path: pathlib.Path) -> None:
    look(*asyncio.run(fuzz(2_000, 1, tmp_path)), 2_000)


@pytest.mark.slow
@pytest.mark.timeout(14_400)
def test_a_million_requests_by_dice(tmp_path: pathlib.Path) -> None:
    look(*asyncio.run(fuzz(1_000_000, 2, tmp_path)), 1_000_000)
