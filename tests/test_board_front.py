"""The page behind a front, over TLS: each name sees its own bidders; strangers see nothing, and crowds keep nobody from it."""

from __future__ import annotations

import os
import re
import signal
import socket
import subprocess
import sys
import time
from collections.abc import Iterator, Mapping
from pathlib import Path

import pytest
from boards import BIDDERS, FIELDS, RULES, Site, Tools, Viewer, look_at_board, shown_texts
from faults import PAGE
from fronts import NAMES, Caller, Front, make_certificate, token_of
from harness.auctions import FIRST_ROUND
from harness.conditions import NORMAL
from harness.fronts import with_package
from harness.programs import Program
from harness.serving import ADDRESS, free_port, wait_until

from hpb.front.given import in_memory, written
from hpb.front.terms import read_terms

SECONDS = 60
SEEN: Mapping[str, list[str]] = {"desk": BIDDERS, "ann": ["x"], "bob": ["y", "z"], "carl": ["w"], "public": []}
SENDERS = {"x": "ann", "y": "bob", "z": "bob", "w": "carl"}
OVER = "The auction is over: nothing changes any more."
# Of the page's connections, and how long it waits for a whole request.
MOST_CONNECTIONS, REQUEST_SECONDS = 256, 10


@pytest.fixture
def front(program: Program, room: Path) -> Iterator[Front]:
    """A front with a page, of a new auction with waivers, which isn't started."""
    made = Front(program, room, has_board=True)
    program.keep(made.file, (), RULES, journal=16)
    made.tables = {"board": {"listen": f"{ADDRESS}:0", "names": ["Auction.example"]}}
    made.write_config()
    yield made
    made.kill()


@pytest.fixture
def over_tls(front: Front) -> Front:
    """The same, with a certificate that clients know."""
    front.context = make_certificate(front.folder, days=30)
    return front.configure(certificate="S", key="K")


def sites(front: Front) -> dict[str, Site]:
    """The page as each name is shown it."""
    return {name: Site(front.board_port, name, token_of(name), front.context) for name in NAMES}


def accept(front: Front, *lines: str) -> None:
    """Each name sends its own lines. All have to be accepted."""
    answers = [front.ask(SENDERS.get(line.split(" ")[1], "desk"), line) for line in lines]
    assert [answer for answer in answers if not answer.startswith("OK ")] == []


PLACE = re.compile(r"hpb: (?:(\d+) of 6 places taken|place (\d+) of 6 is held by 127\.0\.0\.1:\d+)")
ENDED = re.compile(r"hpb: place (\d+) of 6 \(127\.0\.0\.1:\d+\) has ended: its connection ended")


def look_at_places(said: str) -> None:
    """The server had a connection for each name and one for the page: all that is said is that these were taken, in order, and ended."""
    lines = said.splitlines()
    taken = [number for line in lines if (found := PLACE.fullmatch(line)) for number in found.groups() if number]
    assert taken == [str(place) for place in range(1, 7) for _ in range(2)]
    assert sorted(found[1] for line in lines if (found := ENDED.fullmatch(line))) == [str(place) for place in range(1, 7)]
    assert len(lines) == 3 * 6


def test_each_name_sees_its_own_bidders(over_tls: Front) -> None:
    front = over_tls.start()
    known, desk = sites(front), Caller(front, "desk")
    viewers = {name: Viewer(site) for name, site in known.items()}
    for lines in (FIRST_ROUND, ["WAIVE x 2", "BID z 2 all 550"], ["CLOSE 2"]):
        accept(front, *lines)
        for name, site in known.items():
            look_at_board(site, viewers[name], shown_texts(desk, FIELDS, SEEN[name]))
    for name, site in known.items():
        look_alone(name, site, viewers[name])
    assert [known["ann"].get(host=host)[0] for host in ("auction.example", "evil.example")] == [200, 421]
    logged = {line.get("line") for line in front.log_lines()}
    assert {"NODE east", "WHO x"} <= logged, "what names ask is in the log"
    ran = front.stop()
    look_at_places(ran.errors)
    assert ran.status == 0
    with pytest.raises(OSError):
        socket.create_connection((ADDRESS, front.board_port), SECONDS)


def look_alone(name: str, site: Site, viewer: Viewer) -> None:
    """The page of a name, and its events, have its own bidders alone."""
    shown = {element.split("-")[1] for element in [*viewer.texts, *site.page().texts()] if element.startswith("bidder-")}
    assert shown == set(SEEN[name])
    told = [line for text in [*viewer.told, *viewer.said] for line in text.split(". ")]
    assert [line for line in told if line.split(":")[0] in set(BIDDERS) - shown] == []


def test_strangers_see_nothing(over_tls: Front) -> None:
    """A name and a token that don't go together are a stranger's, too."""
    front = over_tls.start()
    port, context, token = front.board_port, front.context, token_of("ann")
    pairs = [(None, ""), ("bob", token), ("", token), ("eve", token), ("ann", token[:-1]), ("ann", "")]
    for who, said in pairs:
        for path in ("/", "/events", "/tree.svg", "/board.js", "/nowhere"):
            status, fields, body = Site(port, who, said, context).get(path)
            assert (status, fields["WWW-Authenticate"][:6], body) == (401, "Basic ", b"401 Unauthorized\n"), (who, path)
    known = Site(port, "ann", token, context).known()
    for field in ("Basic", "Basic !!!", f"Bearer {known}", "Basic /w=="):
        assert Site(port, context=context).get(Authorization=field)[0] == 401, field


def test_kills_of_server_page_and_front(front: Front) -> None:
    front.tables = {"board": {"listen": f"{ADDRESS}:{free_port()}"}}
    front.configure(listen=f"{ADDRESS}:{free_port()}").start()
    ann = sites(front)["ann"]
    viewer, caller = Viewer(ann), Caller(front, "ann")
    assert caller.ask("BID x 1 a 100") == "OK 1"
    viewer.sees(count="1")
    os.kill(front.child("serve"), signal.SIGKILL)
    assert caller.ask("BID x 2 a 110") == "ERR 24 again"
    assert front.ask("bob", "BID y 1 b 150") == "OK 2"
    viewer.sees(count="2", contact="Live.")
    os.kill(front.child(PAGE), signal.SIGKILL)
    assert front.ask("bob", "BID z 1 all 500") == "OK 3"
    wait_until(lambda: ann.shows(count="3"), SECONDS, "the page is there again")
    kill_with_page(front)
    front.start()
    assert [front.ask("desk", line) for line in ("CLOSE 1", "CLOSE 2 ENDING")] == ["OK 4", "OK 5"]
    wait_until(lambda: ann.shows(contact=OVER), SECONDS, "the end")
    kill_with_page(front)


def kill_with_page(front: Front) -> None:
    """The page of a front that is killed ends, too."""
    page = front.child(PAGE)
    assert page
    front.kill()
    wait_until(lambda: not os.path.exists(f"/proc/{page}"), SECONDS, "its page has ended")


def test_crowds_keep_nobody_from_the_page_and_from_bidding(front: Front) -> None:
    """Neither strangers that take up all its connections, nor a name that takes up too many."""
    front.configure({"connections": 3}).start()
    known = sites(front)
    # One of another address, which came before all of them.
    lone = socket.create_connection((ADDRESS, front.board_port), SECONDS, ("127.0.0.2", 0))
    lone.sendall(b"GET / HTTP/1.1\r\n")
    crowd = []
    for _ in range(MOST_CONNECTIONS + 40):
        crowd.append(known["ann"].connect())
        crowd[-1].sendall(b"GET / HTTP/1.1\r\n")
    began = time.monotonic()
    with lone, lone.makefile("rb") as answer:
        lone.sendall(f"Host: localhost\r\nAuthorization: Basic {known['ann'].known()}\r\n\r\n".encode())
        assert answer.readline() == b"HTTP/1.1 200 OK\r\n"
    assert known["ann"].get()[0] == 200
    assert front.ask("ann", "BID x 1 a 100") == "OK 1"
    assert time.monotonic() - began < REQUEST_SECONDS
    viewers = [Viewer(known["ann"]) for _ in range(3)]
    for viewer in viewers:
        viewer.sees(count="1")
    assert known["ann"].get("/events")[0] == 503
    Viewer(known["bob"]).sees(count="1")
    for one in crowd:
        one.close()
    ran = front.stop()
    look_at_places(ran.errors)
    assert ran.status == 0


# `tools/watch` of a front.

FIRST_LINES = ["Live.", "Round 2, open. Stage 1 of 2, at 80 percent. Revenue 500. 5 commands."]


@pytest.fixture
def where(over_tls: Front, tools: Tools) -> list[object]:
    """The words by which a watch of ann follows a front, which has started and closed a round."""
    front = over_tls.configure({"idle_seconds": 1}, listen=f"{ADDRESS}:{free_port()}").start()
    accept(front, *FIRST_ROUND)
    token = front.folder / "token"
    token.touch(mode=0o600)
    token.write_text(f"{token_of('ann')}\n")
    *_, path = tools.place(front.port)
    return ["--front", f"localhost:{front.port}", "--token", token, "--ca", front.folder / "S", "--definition", path]


def test_a_watch_of_a_front_sees_its_own_bidders_once(over_tls: Front, tools: Tools, where: list[object]) -> None:
    written, said, status = tools.start("watch", *where, "--bidders", "x", "--once").ended()
    assert (written.split("\n")[:2], said, status) == (FIRST_LINES, "", 0)
    for words, told in [
        (["--bidders", "y"], "WHO y is answered ERR front rights: it isn't this name's to ask"),
        (["--front", f"127.0.0.1:{over_tls.port}"], "127.0.0.1 isn't known by its certificate: "),
    ]:
        written, said, status = tools.start("watch", *where, *words, "--once").ended()
        assert (written, said.startswith(f"watch: {told}"), status) == ("", True, 1), said
    assert tools.start("watch", *where[:2], *where[-2:]).ended()[2] == 2, "no token"


def test_a_watch_of_a_front_goes_on_after_a_kill_of_it(over_tls: Front, tools: Tools, where: list[object]) -> None:
    """It asks so rarely that the front gives it up each time, and ends with the auction."""
    watch = tools.start("watch", *where, "--bidders", "x", "--pace", "2")
    assert [watch.line() for _ in range(2)] == FIRST_LINES
    over_tls.kill()
    over_tls.start()
    accept(over_tls, "CLOSE 2 ENDING")
    written, said, status = watch.ended()
    assert (OVER in written, said, status) == (True, "", 0)
    assert "It connects again by itself.\n" in written


def test_a_page_without_its_front_ends_though_nobody_reads_its_words(front: Front) -> None:
    """Else it would show its last state for ever, and its front would wait for its end."""
    reader, writer = os.pipe()
    os.set_blocking(writer, False)
    with pytest.raises(BlockingIOError):
        while True:
            os.write(writer, bytes(4096))
    os.set_blocking(writer, True)
    mine, its = socket.socketpair()
    given = in_memory(written(*read_terms(str(front.config))))
    with its, socket.create_server((ADDRESS, 0)) as listener:
        numbers = [listener.fileno(), given]
        page = subprocess.Popen(
            [sys.executable, "-P", "-m", PAGE, str(front.config), *map(str, numbers)],
            stdin=its.fileno(),
            stdout=subprocess.DEVNULL,
            stderr=writer,
            pass_fds=numbers,
            env=with_package(NORMAL.variables()),
        )
    mine.close()
    try:
        assert page.wait(SECONDS / 3) == 1
    finally:
        page.kill()
        for descriptor in (reader, writer, given):
            os.close(descriptor)
