"""Many auctions by one command: `tools/auction` makes, starts, stops and lists them in a folder, without systemd."""

from __future__ import annotations

import json
import signal
import stat
import subprocess
from collections.abc import Iterator
from pathlib import Path

import pytest
from auction_folders import DEFINITION, SECONDS, Folder, read_port
from harness.conditions import Conditions
from harness.fronts import tool_words, with_package
from harness.programs import Program
from harness.users import User

pytestmark = pytest.mark.timeout(4 * SECONDS)


@pytest.fixture
def auctions(program: Program, room: Path) -> Iterator[Folder]:
    made = Folder(program, room)
    yield made
    made.kill_all()


def test_two_commands_let_bidders_in(auctions: Folder) -> None:
    sale = auctions.folder / "sale"
    lines = auctions.new("sale").splitlines()
    assert lines[0] == f"MADE sale {sale}" and lines[3] == f"TOKENS {sale / 'auction.tokens'}"
    port = read_port(sale)
    assert lines[1] == f"FRONT 127.0.0.1:{port}"
    assert auctions.run("start", "sale") == f"STARTED sale 127.0.0.1:{port}\n"
    assert auctions.ask("sale", "x", "BID x 1 a 100") == ["OK 1"]
    assert auctions.run("stop", "sale") == "STOPPED sale\n"
    assert auctions.run("start", "sale") == f"STARTED sale 127.0.0.1:{port}\n"
    assert auctions.ask("sale", "desk", "SHOW") == ["ROUND 1 STAGE 1 OPEN REVENUE 0 COUNT 1"]


def test_all_of_an_auction_is_its_owners_alone(auctions: Folder) -> None:
    auctions.new("sale")
    sale = auctions.folder / "sale"
    assert stat.S_IMODE(sale.stat().st_mode) == 0o700
    assert {path.name: stat.S_IMODE(path.stat().st_mode) for path in sale.iterdir()} == dict.fromkeys(
        ["auction.hpb", "auction.tokens", "front.key", "front.pem", "front.toml"], 0o600
    )


@pytest.mark.as_root
def test_root_makes_an_auction_for_the_user_whose_folder_it_is(auctions: Folder, nobody: User) -> None:
    nobody.own(auctions.folder)
    auctions.folder.parent.chmod(0o711)
    auctions.definition.chmod(0o644)
    auctions.new("sale")
    sale = auctions.folder / "sale"
    assert {path.stat().st_uid for path in [sale, *sale.iterdir()]} == {nobody.uid}


def test_each_auction_gets_ports_of_its_own(auctions: Folder) -> None:
    for name in ("one", "two", "three"):
        auctions.new(name)
    found = [line.split('"')[1] for name in ("one", "two", "three") for line in (auctions.folder / name / "front.toml").read_text().splitlines()
             if line.startswith("listen = ")]
    assert len(found) == len(set(found)) == 9
    auctions.new("four", "--listen", "0.0.0.0:7000", "--host", "auction.example")
    fields = (auctions.folder / "four" / "front.toml").read_text()
    assert 'listen = "0.0.0.0:7000"' in fields and 'names = ["auction.example"]' in fields
    shown = subprocess.run(["openssl", "x509", "-in", auctions.folder / "four" / "front.pem", "-noout", "-ext", "subjectAltName"],
                           capture_output=True, text=True, check=True, timeout=SECONDS).stdout
    assert "DNS:auction.example" in shown and "DNS:localhost" in shown


def test_all_are_listed_with_their_states(auctions: Folder) -> None:
    assert auctions.run("list") == "NAME  STATE  LISTEN  ROUND  COUNT\n"
    auctions.new("sale")
    auctions.new("other")
    auctions.run("start", "sale")
    assert auctions.ask("sale", "x", "BID x 1 a 100") == ["OK 1"]
    rows = [line.split() for line in auctions.run("list").splitlines()]
    ports = {name: f"127.0.0.1:{read_port(auctions.folder / name)}" for name in ("sale", "other")}
    assert rows == [
        ["NAME", "STATE", "LISTEN", "ROUND", "COUNT"],
        ["other", "stopped", ports["other"], "1", "0"],
        ["sale", "running", ports["sale"], "1", "1"],
    ]
    assert json.loads(auctions.run("status", "sale", "--json")) == [
        {"name": "sale", "state": "running", "listen": ports["sale"], "round": 1, "count": 1, "why": ""}
    ]
    assert auctions.ask("sale", "desk", "CLOSE 1", "CLOSE 2 ENDING") == ["OK 2", "OK 3"]
    assert json.loads(auctions.run("status", "sale", "--json"))[0]["state"] == "over"
    auctions.run("stop", "sale")
    assert json.loads(auctions.run("status", "sale", "--json"))[0]["state"] == "over"


def test_a_configuration_that_cant_be_read_spoils_no_list(auctions: Folder) -> None:
    auctions.new("sale")
    auctions.new("other")
    (auctions.folder / "other" / "front.toml").write_text("nonsense")
    rows = auctions.run("list").splitlines()
    assert rows[1].startswith("other  ?") and "front.toml" in rows[1]
    assert rows[2].split()[:2] == ["sale", "stopped"]


def test_a_definition_may_be_the_rows_of_a_spreadsheet(auctions: Folder, program: Program) -> None:
    definition = json.loads(DEFINITION)
    rows = [f"step,{definition['step']}", f"percent,{definition['percent']}", ",".join(["stages", *map(str, definition["stages"])]), "", "# the nodes,,,,"]
    if "waivers" in definition:
        rows.append(f"waivers,{definition['waivers']}")
    rows += [f"node,{node['name']},{node['parent'] or ''},{node.get('units', '')},{node.get('opening', '')}" for node in definition["nodes"]]
    rows += [f"bidder,{bidder['name']},{bidder['units']},," for bidder in definition["bidders"]]
    for name, mark in (("commas", ","), ("semicolons", ";")):
        table = auctions.folder.parent / f"{name}.csv"
        table.write_text("\ufeff" + "\r\n".join(rows).replace(",", mark) + "\r\n", encoding="utf-8")
        auctions.run("new", name, "--definition", table, "--journal", 16)
        kept = subprocess.run([*tool_words("definition"), str(auctions.folder / name / "auction.hpb")], env=with_package(Conditions().variables()),
                              capture_output=True, text=True, check=True, timeout=SECONDS).stdout
        assert json.loads(kept) == definition


@pytest.mark.parametrize(("name", "text", "words"), [
    ("d.csv", "step,10\nbidder,x\n", "row 2 isn't one of a definition: bidder,x"),
    ("d.csv", "step,ten\n", "row 1 isn't one of a definition: step,ten"),
    ("d.csv", "node,a,all,10,100,1\n", "row 1 isn't one of a definition: node,a,all,10,100,1"),
    ("d.csv", "colour,red\n", "row 1 isn't one of a definition: colour,red"),
    ("d.json", '{"step":0}', "the definition or the journal is refused: hpb: 61 field: percent: missing\n"),
    ("d.json", "\udcff", "it is no text in UTF-8"),
])
def test_a_wrong_definition_is_named_and_nothing_is_left(auctions: Folder, name: str, text: str, words: str) -> None:
    path = auctions.folder.parent / name
    path.write_bytes(text.encode(errors="surrogateescape"))
    ran = auctions.ran("new", "sale", "--definition", path, "--journal", 16)
    assert (ran.returncode, ran.stdout) == (1, "")
    assert words in ran.stderr
    assert list(auctions.folder.iterdir()) == []


def test_what_cant_be_done_is_said(auctions: Folder) -> None:
    auctions.new("sale")
    for words, said in [
        (("new", "sale", "--definition", auctions.definition), f"{auctions.folder}/sale is there already"),
        (("new", "No", "--definition", auctions.definition), "'No' is no name: it has 1 to 16 of a to z, 0 to 9 and _"),
        (("new", "x", "--definition", auctions.folder / "nix"), f"{auctions.folder}/nix: No such file or directory"),
        (("new", "x", "--definition", auctions.definition, "--listen", "nix"), "--listen: 'nix' has no address in figures and no port, as 127.0.0.1:6000 has"),
        (("new", "x", "--definition", auctions.definition, "--host", "a b"), "--host: 'a b' is no name of a host"),
        (("start", "nix"), f"nix: {auctions.folder} has no such auction"),
        (("stop", "sale"), "sale doesn't run"),
    ]:
        ran = auctions.ran(*words)
        assert (ran.returncode, ran.stdout, ran.stderr) == (1, "", f"auction: {said}\n"), words
    assert [path.name for path in auctions.folder.iterdir()] == ["sale"]
    ran = auctions.ran("new")
    assert ran.returncode == 2


def test_a_front_that_doesnt_start_says_why(auctions: Folder) -> None:
    auctions.new("sale")
    (auctions.folder / "sale" / "auction.tokens").chmod(0o644)
    ran = auctions.ran("start", "sale")
    assert ran.returncode == 1
    assert ran.stderr == (f"auction: sale: its front isn't ready: {auctions.folder}/sale/auction.tokens: others may read it; `chmod 600` it, and own it\n")
    (auctions.folder / "sale" / "auction.tokens").chmod(0o600)
    auctions.run("start", "sale")
    ran = auctions.ran("start", "sale")
    assert (ran.returncode, ran.stderr) == (1, "auction: sale runs already\n")


def test_a_new_that_is_killed_leaves_one_whole_auction_or_none(auctions: Folder) -> None:
    """At each call of the system that changes a name, a kill: then the next try makes the auction, or says that it is made."""
    whole = {"auction.hpb", "auction.tokens", "front.key", "front.pem", "front.toml"}
    sale = auctions.folder / "sale"
    killed = 0
    for count in range(1, 60):
        ran = auctions.ran("new", "sale", "--definition", auctions.definition, "--journal", 16, conditions=Conditions(environment=killing_at(auctions, count)))
        if ran.returncode == 0:
            break
        assert ran.returncode == -signal.SIGKILL, ran
        killed += 1
        assert not sale.exists() or {path.name for path in sale.iterdir()} == whole
        if sale.exists():
            assert auctions.ran("new", "sale", "--definition", auctions.definition).returncode == 1
            for path in sale.iterdir():
                path.unlink()
            sale.rmdir()
    assert killed >= 5 and {path.name for path in sale.iterdir()} == whole
    assert [path.name for path in auctions.folder.iterdir()] == ["sale"]


def killing_at(auctions: Folder, count: int) -> dict[str, str]:
    """Variables by which Python kills itself at its call number so many of those that change names or start programs."""
    hook = auctions.folder.parent / "hook"
    hook.mkdir(exist_ok=True)
    (hook / "sitecustomize.py").write_text(
        "import os, signal, sys\n"
        "left = int(os.environ.pop('KILL_AT', '0'))\n"
        "def see(event, words):\n"
        "    global left\n"
        "    if event in ('os.mkdir', 'os.rename', 'os.link', 'subprocess.Popen', 'os.truncate') or event == 'open' and '.sale.new' in str(words[0]):\n"
        "        left -= 1\n"
        "        if left == 0:\n"
        "            os.kill(os.getpid(), signal.SIGKILL)\n"
        "if left:\n"
        "    sys.addaudithook(see)\n"
    )
    return {"PYTHONPATH": str(hook), "KILL_AT": str(count)}
