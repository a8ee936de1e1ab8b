"""Rights at a front: names have those of the table, strangers none. The limits and refusals of docs/FRONT.md are the front's."""

from __future__ import annotations

import importlib
import re
import ssl
from pathlib import Path

import pytest
from fronts import NAMES, Front, make_certificate, rest_of, token_of
from harness.programs import Program

from hpb.front import rights

TEXT = (Path(__file__).resolve().parents[1] / "docs" / "FRONT.md").read_text()
EMPTY = "ROUND 1 STAGE 1 OPEN REVENUE 0 COUNT 0"
# Names, lines and answers, by the table of docs/FRONT.md.
RIGHTS = """
    ann   BID x 1 a 100          OK 1
    ann   BID x 1 a 100          OK 1
    ann   BID y 1 b 150          ERR front rights
    ann   BID z 1 all 500        ERR front rights
    ann   WAIVE y 1              ERR front rights
    ann   WAIVE x 2              ERR 28 waiver
    ann   CLOSE 1                ERR front rights
    ann   STAGE 1                ERR front rights
    ann   WHO x                  WHO x ELIGIBILITY 10 ACTIVITY 10 TICKET 1
    ann   WHO y                  ERR front rights
    ann   SHOW                   ROUND 1 STAGE 1 OPEN REVENUE 0 COUNT 1
    ann   NODE a                 NODE a HIGH 0 - PRICE 0 MIN 100 WIN no
    ann   NODE nowhere           ERR 12 node
    ann   BID x 2 nowhere 100    ERR 12 node
    ann   BID x 2 a 5            ERR 21 step
    ann   BID x 02 a 110         ERR 10 line
    ann   BID  x 2 a 110         ERR front line
    ann   BID y                  ERR front line
    ann   bid x 2 a 110          ERR front line
    ann   BID X 2 a 110          ERR front rights
    ann   TOKEN token-of-bob-in-a-trial     ERR front line
    ann   HELP                   ERR front line
    bob   BID y 1 b 150          OK 2
    bob   BID z 1 all 500        OK 3
    bob   BID x 2 b 150          ERR front rights
    bob   WHO z                  WHO z ELIGIBILITY 40 ACTIVITY 40 TICKET 1
    carl  BID w 1 c 100          OK 4
    public  SHOW                 ROUND 1 STAGE 1 OPEN REVENUE 0 COUNT 4
    public  NODE d               NODE d HIGH 0 - PRICE 0 MIN 100 WIN no
    public  WHO x                ERR front rights
    public  BID x 2 a 110        ERR front rights
    public  CLOSE 1              ERR front rights
    desk  BID x 2 a 110          ERR front rights
    desk  WAIVE x 2              ERR front rights
    desk  WHO x                  WHO x ELIGIBILITY 10 ACTIVITY 10 TICKET 1
    desk  CLOSE 1                OK 5
    desk  STAGE 2                OK 6
    desk  SHOW                   ROUND 2 STAGE 2 OPEN REVENUE 500 COUNT 6
    desk  NODE a                 NODE a HIGH 100 x PRICE 138 MIN 160 WIN no
"""
REPEATED = ("ann", "BID x 1 a 100", "OK 1")


def rows() -> list[tuple[str, str, str]]:
    """A name, its line, and the answer."""
    found = [re.fullmatch(r"(\w+) +(\S.*?) {3,}(\S.*)", row.strip()) for row in RIGHTS.strip().splitlines()]
    return [(row[1], row[2], row[3]) for row in found if row]


def test_each_name_sends_what_it_may(front: Front) -> None:
    """Accepted lines are in the record, and all others in the log. No token is in either."""
    front.start()
    wanted, clients = rows(), {}
    assert len(wanted) == len(RIGHTS.strip().splitlines())
    for name in NAMES:
        clients[name] = front.client()
        assert clients[name].ask(f"TOKEN {token_of(name)}") == f"WELCOME {name}"
    assert [(name, line, clients[name].ask(line)) for name, line, _ in wanted] == wanted
    assert front.stop().status == 0
    new = [row for place, row in enumerate(wanted) if row[2].startswith("OK ") and row not in wanted[:place]]
    found = [(entry["name"], entry["line"], entry["answer"]) for entry in front.entries("accepted")]
    assert found == new and front.program.count(front.file) == len(new) == 6
    masked = {(name, "TOKEN .." if line.startswith("TOKEN ") else line, answer) for name, line, answer in wanted}
    logged = [(str(line["name"]), str(line["line"]), str(line["answer"])) for line in front.log_lines("answered")]
    assert sorted(logged) == sorted(masked - set(new) | {REPEATED})
    known = front.record.read_text() + front.log.read_text() + (front.folder / "R.asked").read_text()
    assert [name for name in NAMES if token_of(name) in known] == []


TOKEN = token_of("ann")
NEARLY = [f"TOKEN {TOKEN}x", f"TOKEN {TOKEN[:-1]}", f"token {TOKEN}", f"TOKEN  {TOKEN}", f"TOKEN {TOKEN}\r", f"TOKEN {TOKEN} {TOKEN}"]


def test_strangers_are_let_in_to_nothing(front: Front) -> None:
    front.start()
    for first in ["", "SHOW", "BID x 1 a 100", "TOKEN", "TOKEN ", "TOKEN nobody", "TOKEN " + "a" * 400, *NEARLY]:
        client = front.client()
        client.send(f"{first}\nBID x 1 a 100\nSHOW\n".encode())
        assert rest_of(client) == ["ERR front token"], first
    assert front.ask("ann", "SHOW") == EMPTY


# The document.


def test_the_configuration_of_the_document_is_taken(front: Front, program: Program) -> None:
    """With the names of these tests, whose bidders are all that the auction has."""
    program.keep(front.folder / "auction.hpb")
    make_certificate(front.folder)
    (front.folder / "K").rename(front.folder / "front.key")
    (front.folder / "S").rename(front.folder / "front.pem")
    text = TEXT.split("```toml\n")[1].split("```")[0]
    front.config.write_text(re.sub(r'"127\.0\.0\.1:\d+"', '"127.0.0.1:0"', f'program = "{program.path}"\n{text}'))
    assert front.run("--make-tokens").status == 0
    made = dict(line.split() for line in (front.folder / "auction.tokens").read_text().splitlines())
    assert list(made) == list(NAMES)
    front.context = ssl.create_default_context(cafile=front.folder / "front.pem")
    front.start()
    for name, line in {"ann": "WHO x", "bob": "WHO z", "carl": "WHO w", "desk": "WHO y"}.items():
        assert front.client(name, token=made[name]).ask(line).startswith(f"{line} ELIGIBILITY ")
    public = front.client("public", token=made["public"])
    assert (public.ask("SHOW"), public.ask("WHO x")) == (EMPTY, "ERR front rights")
    ran = front.stop()
    assert (ran.status, "nobody" in ran.errors) == (0, False), "each bidder is somebody's"


ROWS = re.findall(r"^\| `([a-z_]+)` \| ([0-9,]+) \| ([0-9,]+) to ([0-9,]+) \|", TEXT, re.MULTILINE)
LIMITS = {name: tuple(int(number.replace(",", "")) for number in numbers) for name, *numbers in ROWS}


def test_the_limits_of_the_document_are_those_of_the_front() -> None:
    """Of each its default, which shows nowhere outside, the least and the most."""
    assert LIMITS == vars(importlib.import_module("hpb.front.config"))["LIMITS"] and len(LIMITS) > 5


def takes(front: Front, **limits: int) -> str:
    """What the front says of a configuration; nothing if it is right."""
    front.configure(limits)
    return front.run("tokens", "list").errors


@pytest.mark.parametrize("end", [1, 2], ids=["least", "most"])
def test_a_limit_is_taken_up_to_its_range_and_not_past_it(front: Front, end: int) -> None:
    assert takes(front, **{name: numbers[end] for name, numbers in LIMITS.items()}) == ""
    for name, numbers in LIMITS.items():
        assert takes(front, **{name: numbers[end] + (-1, 1)[end - 1]}).startswith(f"front: limits.{name}")


def test_the_refusals_of_the_document_are_those_of_the_front() -> None:
    assert sorted(re.findall(r"^\| `ERR front ([a-z]+)` \|", TEXT, re.MULTILINE)) == sorted(rights.REFUSALS)
