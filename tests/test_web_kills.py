"""Bidders on pages and by programs in one auction, while server, front, site and network are killed again and again.

Each draft of a page ends as accepted, refused, or never accepted. File and record have each accepted command once, and nothing else.
"""

from __future__ import annotations

import html
import http.client
import itertools
import json
import os
import random
import re
import signal
import socket
import threading
import time
from collections.abc import Callable, Iterator
from concurrent.futures import ThreadPoolExecutor
from contextlib import suppress
from dataclasses import dataclass, field
from pathlib import Path

import pytest
from boards import Running, Tools
from fronts import Front
from harness.programs import Program
from harness.serving import ADDRESS, free_port, wait_until
from sites_of_web import SECONDS, Person, Web

# What leaves it open whether a command was accepted: it is sent again.
OPEN = (503, 504)
PAUSE = 0.05
SAID = re.compile(r"<td>(accepted, number ([\d,]+), ticket|refused: |not accepted: |sent with ticket|a later ticket)")


def definition(bidders: int) -> bytes:
    """A licence for each bidder, which no other bids on, and nothing else."""
    nodes = [{"name": f"licence{number}", "parent": None, "units": 10, "opening": 100} for number in range(1, bidders + 1)]
    known = {"step": 10, "percent": 10, "stages": [80, 95], "waivers": 1, "nodes": nodes}
    return json.dumps({**known, "bidders": [{"name": f"bidder{number}", "units": 10} for number in range(1, bidders + 1)]}).encode() + b"\n"


class Wire(Running):
    """A network between two places, which can be cut."""

    def __init__(self, port: int) -> None:
        self._to, self._open = port, set[socket.socket]()
        super().__init__(self._carry)

    def _carry(self, client: socket.socket) -> None:
        with suppress(OSError), socket.create_connection((ADDRESS, self._to)) as server:
            self._open |= {client, server}
            back = threading.Thread(target=_pass_on, args=(server, client), daemon=True)
            back.start()
            _pass_on(client, server)
            back.join()
            self._open -= {client, server}

    def cut(self) -> None:
        """Ends all connections, with whatever is under way."""
        for one in list(self._open):
            with suppress(OSError):
                one.shutdown(socket.SHUT_RDWR)


def _pass_on(one: socket.socket, other: socket.socket) -> None:
    with suppress(OSError):
        while part := one.recv(65_536):
            other.sendall(part)
    with suppress(OSError):
        other.shutdown(socket.SHUT_RDWR)


@dataclass
class Taken:
    """The answers that bidders got: the line of each accepted number, and how each draft of a page ended."""

    lines: dict[int, str] = field(default_factory=dict)
    ends: list[str] = field(default_factory=list)
    lock: threading.Lock = field(default_factory=threading.Lock)

    def accept(self, number: int, line: str) -> None:
        """A command was accepted under this number."""
        with self.lock:
            assert self.lines.get(number, line) == line
            self.lines[number] = line


def by_program(site: Web, number: int, rounds: int, taken: Taken, wait_for_round: Callable[[int], object]) -> None:
    """A bidder by `/v1`: it sends each command until it is answered."""
    for round_ in range(1, rounds + 1):
        wait_for_round(round_)
        body = {"kind": "bid", "bidder": f"bidder{number}", "node": f"licence{number}", "amount": 100 * 2**round_, "ticket": round_, "round": round_}
        answer = sent(site, f"name{number}", body)
        taken.accept(answer["number"], f"BID bidder{number} {round_} licence{number} {100 * 2**round_}")


def sent(site: Web, name: str, body: dict[str, object]) -> dict[str, int]:
    """The answer to a command that is sent until there is one."""
    while True:
        with suppress(OSError, http.client.HTTPException, ValueError):
            status, answer = site.ask("POST", "/v1/commands", name, body)
            if status not in OPEN:
                assert status == 200, answer
                found: dict[str, int] = answer
                return found
        time.sleep(PAUSE)


class OnPages:
    """A bidder in a browser without scripts: whatever is lost, it signs in again, and looks what became of its draft."""

    def __init__(self, site: Web, number: int, taken: Taken) -> None:
        self.site, self.number, self.taken = site, number, taken
        self.person = Person(site)

    def page(self, path: str) -> str:
        """A page, as soon as it can be had."""
        while True:
            with suppress(OSError, http.client.HTTPException, AssertionError):
                if self.person.ask("GET", path) == 200:
                    return self.person.text
                if self.person.status in (303, 401, 403):
                    self.person.sign_in(f"name{self.number}")
                    continue
            time.sleep(PAUSE)

    def sent(self, path: str, form: dict[str, str]) -> int:
        """The status of a form that is sent, 0 if there was no answer."""
        with suppress(OSError, http.client.HTTPException):
            return self.person.send(path, form)
        return 0

    def draft(self, ticket: str) -> str:
        """How the draft with this ticket ended, as soon as the page says that. Of a draft that the site never got there is none."""
        while True:
            rows = [row for row in self.page("/drafts").split("<tr") if f"ticket {ticket}" in row or f"/{ticket}\"" in row or "not accepted" in row]
            found = [(said[1], said[2]) for row in rows if (said := SAID.search(row))]
            accepted = [number for _, number in found if number]
            if accepted:
                return accepted[-1]
            if not any(said.startswith("sent") for said, _ in found):
                return "never"
            time.sleep(PAUSE)

    def bid(self, round_: int) -> None:
        """One bid that is accepted in the end."""
        amount = 100 * 2**round_
        while True:
            text = self.page("/bid")
            found = re.search(r'<form(?=[^>]* action="/bids/check")[^>]*>(.*?)</form>', text, re.DOTALL)
            assert found, text
            form = {name: html.unescape(value) for name, value in re.findall(r'<input type="hidden" name="([^"]*)" value="([^"]*)"', found[1])}
            self.sent("/bids/send", {**form, "bid.1": f"licence{self.number},{amount}"})
            ended = self.draft(form["ticket"])
            with self.taken.lock:
                self.taken.ends.append(ended)
            if ended != "never":
                self.taken.accept(int(ended.replace(",", "")), f"BID bidder{self.number} {form['ticket']} licence{self.number} {amount}")
                return


@pytest.fixture
def make(program: Program, room: Path, tools: Tools) -> Iterator[Callable[[int], tuple[Front, Web, Wire]]]:
    """A site behind a network before a front of so many bidders."""
    made = list[Front]()

    def makes(bidders: int) -> tuple[Front, Web, Wire]:
        names: dict[str, object] = {"desk": "auctioneer", **{f"name{number}": [f"bidder{number}"] for number in range(1, bidders + 1)}}
        front = Front(program, room, names=names, limits={"lines_per_second": 1_000})
        program.keep(front.file, (), definition(bidders), journal=16)
        front.configure(listen=f"{ADDRESS}:{free_port()}").start()
        made.append(front)
        wire = Wire(front.port)
        return front, Web(tools, front, {"drafts": "drafts", "front": f"localhost:{wire.port}"}, definition(bidders)).start(), wire

    yield makes
    for front in made:
        front.kill()


def again(one: Front | Web) -> None:
    """Kills it, and starts it again."""
    one.kill()
    one.start()


def bid_over_kills(front: Front, site: Web, wire: Wire, bidders: int, rounds: int) -> None:
    """Half of the bidders are on pages. Each round is closed once all have bid; meanwhile something is killed all the time."""
    taken, over = Taken(), threading.Event()
    kills: Iterator[Callable[[], None]] = itertools.cycle([wire.cut, lambda: os.kill(front.child("serve"), signal.SIGKILL), lambda: again(site), lambda: again(front)])
    gates = [threading.Event() for _ in range(rounds)]
    people = [OnPages(site, number, taken) for number in range(1, bidders // 2 + 1)]

    def on_pages(one: OnPages) -> None:
        for round_, gate in enumerate(gates, 1):
            gate.wait()
            one.bid(round_)

    def kill() -> None:
        dice = random.Random(bidders)
        while not over.wait(dice.random() / 3):
            next(kills)()
            before = len(taken.lines)
            wait_until(lambda: len(taken.lines) > before or over.is_set(), 10 * SECONDS, "something is accepted again")

    with ThreadPoolExecutor(bidders + 1) as pool:
        killing = pool.submit(kill)
        tasks = [pool.submit(on_pages, one) for one in people]
        tasks += [pool.submit(by_program, site, number, rounds, taken, lambda round_: gates[round_ - 1].wait()) for number in range(bidders // 2 + 1, bidders + 1)]
        try:
            for round_ in range(1, rounds + 1):
                gates[round_ - 1].set()
                wait_until(lambda: len(taken.lines) == round_ * bidders + round_ - 1 or any(task.done() and task.exception() for task in tasks), 20 * SECONDS, "all have bid")
                close(site, round_, taken)
        finally:
            over.set()
            for gate in gates:
                gate.set()
        for task in [*tasks, killing]:
            task.result()
    look(front, taken)


def close(site: Web, round_: int, taken: Taken) -> None:
    """Closes a round, by a command that is sent until it is answered."""
    answer = sent(site, "desk", {"kind": "close", "ticket": round_})
    taken.accept(answer["number"], f"CLOSE {round_}")


def look(front: Front, taken: Taken) -> None:
    """The record has each accepted command once and in order, and so has the file."""
    assert set(taken.ends) <= {"never", *(f"{number:,}" for number in taken.lines)}
    wanted = [(taken.lines[number], f"OK {number}") for number in sorted(taken.lines)]
    assert front.accepted() == wanted and sorted(taken.lines) == list(range(1, len(wanted) + 1))
    assert front.stop().output.splitlines()[-1].startswith(f"STOPPED {len(wanted)} ")


@pytest.mark.timeout(600)
def test_two_on_pages_and_two_by_programs_over_kills(make: Callable[[int], tuple[Front, Web, Wire]]) -> None:
    bid_over_kills(*make(4), 4, 2)


@pytest.mark.slow
@pytest.mark.timeout(7_200)
def test_thirty_two_on_pages_and_thirty_two_by_programs_over_kills(make: Callable[[int], tuple[Front, Web, Wire]]) -> None:
    bid_over_kills(*make(64), 64, 8)
