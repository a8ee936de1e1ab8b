"""Copies of auctions by `tools/auction`: backups while a front runs, taken back, exported, archived, as a mock, and of what nobody won."""

from __future__ import annotations

import csv
import hashlib
import json
import os
import re
import shutil
import signal
import socket
import ssl
import subprocess
import threading
from collections.abc import Iterator
from pathlib import Path

import pytest
from auction_folders import DEFINITION, SECONDS, Folder, read_port
from harness.conditions import Conditions
from harness.fronts import tool_words, with_package
from harness.programs import Program
from harness.serving import wait_until

from hpb.rounds import NOTICE

pytestmark = pytest.mark.timeout(4 * SECONDS)

# Which node each bidder bids on, in the trial of a load.
NODES = {"x": "a", "y": "b", "z": "c", "w": "d"}
BACKUPS = 3
# Seconds from the answer to a close to the next one: prices have to grow through the whole trial.
PAUSE = 0.05
TOLD = re.compile(r"(BACKUP|WHOLE) COUNT ([0-9]+) RECORD ([0-9]+) ([0-9a-f]{64})")


@pytest.fixture
def auctions(program: Program, room: Path) -> Iterator[Folder]:
    made = Folder(program, room)
    yield made
    made.kill_all()


@pytest.fixture
def copies(room: Path) -> Path:
    """A folder for backups."""
    (room / "copies").mkdir()
    return room / "copies"


class Caller:
    """A connection of a name to an auction's front."""

    def __init__(self, sale: Path, name: str) -> None:
        tokens = dict(line.split(" ") for line in (sale / "auction.tokens").read_text().splitlines())
        context = ssl.create_default_context(cafile=sale / "front.pem")
        self.socket = context.wrap_socket(socket.create_connection(("127.0.0.1", read_port(sale)), SECONDS), server_hostname="localhost")
        self.lines = self.socket.makefile("rb")
        assert self.ask(f"TOKEN {tokens[name]}").startswith("WELCOME ")

    def send(self, line: str) -> None:
        self.socket.sendall(f"{line}\n".encode())

    def answer(self) -> str:
        return self.lines.readline().decode().rstrip("\n")

    def ask(self, line: str) -> str:
        self.send(line)
        return self.answer()


class Freezer:
    """A program that freezes a front's commands, as a backup does."""

    def __init__(self, sale: Path) -> None:
        self.socket = socket.socket(socket.AF_UNIX)
        self.socket.settimeout(SECONDS)
        with Folder_of(sale) as name:
            self.socket.connect(f"{name}/front.control")
        self.lines = self.socket.makefile("rb")

    def ask(self, word: str) -> str:
        self.socket.sendall(f"{word}\n".encode())
        return self.lines.readline().decode()

    def close(self) -> None:
        self.lines.close()
        self.socket.close()


class Folder_of:
    """A short name of a folder: a socket's address has 108 bytes at most."""

    def __init__(self, path: Path) -> None:
        self.file = os.open(path, os.O_RDONLY | os.O_DIRECTORY)

    def __enter__(self) -> str:
        return f"/proc/self/fd/{self.file}"

    def __exit__(self, *_: object) -> None:
        os.close(self.file)


class Load:
    """Bidders that bid in each round and an auctioneer who closes rounds, as fast as they are answered."""

    def __init__(self, sale: Path) -> None:
        self.sale, self.is_over, self.last_ok, self.faults = sale, threading.Event(), 0, list[str]()
        # A close before its first bid would leave a bidder without eligibility.
        self.have_bid = threading.Barrier(len(NODES) + 1, timeout=SECONDS)
        self.threads = [threading.Thread(target=self.keep_bidding, args=(name,)) for name in NODES] + [threading.Thread(target=self.keep_closing)]

    def __enter__(self) -> Load:
        for thread in self.threads:
            thread.start()
        return self

    def __exit__(self, *_: object) -> None:
        self.is_over.set()
        for thread in self.threads:
            thread.join(SECONDS)
            assert not thread.is_alive()
        assert not self.faults

    def took(self, answer: str) -> int:
        """One more ticket if a command was accepted."""
        if answer.startswith("OK "):
            self.last_ok = max(self.last_ok, int(answer[3:]))
            return 1
        if not answer.startswith(("ERR 24 ", "ERR 22 ", "ERR front end")):
            self.faults.append(answer)
        return 0

    def keep_bidding(self, name: str) -> None:
        caller, node = Caller(self.sale, name), NODES[name]
        self.took(caller.ask(f"BID {name} 1 {node} 100"))
        self.have_bid.wait()
        ticket = 2
        while not self.is_over.is_set():
            minimum = re.search(r" MIN ([0-9]+)", caller.ask(f"NODE {node}"))
            assert minimum
            ticket += self.took(caller.ask(f"BID {name} {ticket} {node} {minimum[1]}"))

    def keep_closing(self) -> None:
        caller, ticket = Caller(self.sale, "desk"), 1
        self.have_bid.wait()
        while not self.is_over.is_set():
            ticket += self.took(caller.ask(f"CLOSE {ticket}"))
            self.is_over.wait(PAUSE)


def told(words: str) -> tuple[int, int, str]:
    """The count, the number of the last entry and its hash, as the command says them."""
    found = TOLD.match(words)
    assert found, words
    return int(found[2]), int(found[3]), found[4]


def tool(name: str, *words: object) -> subprocess.CompletedProcess[str]:
    return subprocess.run([*tool_words(name), *map(str, words)], env=with_package(Conditions().variables()), capture_output=True, text=True,
                          timeout=SECONDS, check=False)


@pytest.mark.slow
def test_backups_that_are_made_under_load_open_and_equal_their_record(auctions: Folder, copies: Path) -> None:
    sale = auctions.folder / "sale"
    auctions.definition.write_text(json.dumps({**json.loads(DEFINITION), "percent": 1}))
    auctions.new("sale")
    auctions.run("start", "sale")
    counts = list[tuple[int, int, str]]()
    with Load(sale) as load:
        wait_until(lambda: load.last_ok > 20, SECONDS, "nobody's command is accepted")
        for number in range(BACKUPS):
            before = load.last_ok
            words = auctions.run("backup", "sale", copies / str(number))
            assert re.fullmatch(r"PAUSE [0-9]\.[0-9]{6}", words.splitlines()[1])
            counts.append(told(words))
            # All that was answered before is in it.
            assert counts[-1][0] >= before
            wait_until(lambda: load.last_ok > counts[-1][0], SECONDS, "commands don't go on behind a backup")
    assert len(set(counts)) == BACKUPS
    for number, (count, entries, last) in enumerate(counts):
        look_at_backup(auctions, copies / str(number), count, entries, last)
    # The front's own log says how long each freeze was.
    lines = [json.loads(line) for line in (sale / "auction.record.log").read_text().splitlines()]
    assert [line["outcome"] for line in lines if line["kind"] == "freeze"] == ["whole"] * BACKUPS
    go_on_with(auctions, copies / str(BACKUPS - 1), counts[-1][0])


def look_at_backup(auctions: Folder, copy: Path, count: int, entries: int, last: str) -> None:
    """By programs that have nothing to do with backups: the sums, the file by `hpb check`, and the record told to an auction in memory."""
    subprocess.run(["sha256sum", "--quiet", "--strict", "-c", "SHA256SUMS"], cwd=copy, check=True, timeout=SECONDS)
    shown = subprocess.run([auctions.program.path, "check", "--file", copy / "auction.hpb"], capture_output=True, text=True, check=True, timeout=SECONDS)
    assert shown.stdout.splitlines()[0].endswith(f" COUNT {count}")
    replayed = tool("replay", copy / "auction.record", "--file", copy / "auction.hpb", "--program", auctions.program.path)
    assert (replayed.returncode, replayed.stderr) == (0, "")
    assert f"{entries} entries in one chain of hashes" in replayed.stdout and f"The last hash is {last}." in replayed.stdout
    assert told(auctions.run("verify", copy)) == (count, entries, last)


def go_on_with(auctions: Folder, copy: Path, count: int) -> None:
    """An auction of a backup goes on with the count that it had."""
    auctions.run("stop", "sale")
    (auctions.folder / "sale").rename(auctions.folder.parent / "lost")
    assert auctions.run("restore", "sale", copy).startswith(f"RESTORED sale COUNT {count} RECORD ")
    auctions.run("start", "sale")
    assert auctions.ask("sale", "desk", "SHOW")[0].endswith(f" COUNT {count}")
    auctions.run("stop", "sale")


def test_an_auction_that_stands_or_never_ran_is_backed_up_too(auctions: Folder, copies: Path) -> None:
    auctions.new("sale")
    assert auctions.run("backup", "sale", copies / "new") == f"BACKUP COUNT 0 RECORD 0 {'0' * 64} {copies}/new\n"
    assert not (copies / "new" / "auction.record").exists()
    auctions.run("start", "sale")
    assert auctions.ask("sale", "x", "BID x 1 a 100") == ["OK 1"]
    auctions.run("stop", "sale")
    assert told(auctions.run("backup", "sale", copies / "stopped"))[0] == 1
    assert (copies / "stopped" / "auction.record.asked").exists()


def test_commands_wait_while_they_are_frozen_and_nothing_else_does(auctions: Folder) -> None:
    sale = auctions.folder / "sale"
    auctions.new("sale")
    auctions.run("start", "sale")
    assert oct((sale / "front.control").stat().st_mode) == "0o140600"
    freezer, bidder, watcher = Freezer(sale), Caller(sale, "x"), Caller(sale, "y")
    assert re.fullmatch(r"FROZEN 0 [0-9]+ [0-9a-f]{64}\n", freezer.ask("FREEZE"))
    bidder.send("BID x 1 a 100")
    assert watcher.ask("SHOW") == "ROUND 1 STAGE 1 OPEN REVENUE 0 COUNT 0"
    bidder.socket.settimeout(1)
    with pytest.raises(TimeoutError):
        bidder.answer()
    # Another one has to wait.
    assert Freezer(sale).ask("FREEZE") == "BUSY\n"
    assert freezer.ask("THAW").startswith("THAWED ")
    wait_until(lambda: watcher.ask("SHOW").endswith("COUNT 1"), SECONDS, "the bid doesn't go on")


def test_a_freeze_whose_program_goes_or_hangs_ends_by_itself(auctions: Folder) -> None:
    sale = auctions.folder / "sale"
    auctions.new("sale")
    auctions.run("start", "sale")
    freezer, bidder = Freezer(sale), Caller(sale, "x")
    assert freezer.ask("FREEZE").startswith("FROZEN 0 ")
    bidder.send("BID x 1 a 100")
    freezer.close()
    assert bidder.answer() == "OK 1"
    hanging = Freezer(sale)
    assert hanging.ask("FREEZE").startswith("FROZEN 1 ")
    # After ten seconds at most: then its copy isn't good any more.
    assert bidder.ask("BID x 1 a 100") == "OK 1"
    assert hanging.lines.readline() == b""
    lines = [json.loads(line) for line in (sale / "auction.record.log").read_text().splitlines()]
    assert [line["outcome"] for line in lines if line["kind"] == "freeze"] == ["broken", "broken"]


def test_a_front_that_is_stopped_in_a_freeze_answers_what_it_has(auctions: Folder) -> None:
    sale = auctions.folder / "sale"
    auctions.new("sale")
    auctions.run("start", "sale")
    freezer, bidder = Freezer(sale), Caller(sale, "x")
    assert freezer.ask("FREEZE").startswith("FROZEN 0 ")
    bidder.send("BID x 1 a 100")
    # By the time at which a later connection is answered, the front has taken the bid.
    assert Caller(sale, "y").ask("SHOW") == "ROUND 1 STAGE 1 OPEN REVENUE 0 COUNT 0"
    os.kill(int((sale / "front.pid").read_text()), signal.SIGTERM)
    assert bidder.answer() == "OK 1"
    # The copy that was made meanwhile isn't called good.
    assert freezer.ask("THAW") == ""


def test_a_server_that_is_killed_in_a_freeze_comes_back(auctions: Folder) -> None:
    sale = auctions.folder / "sale"
    auctions.new("sale")
    auctions.run("start", "sale")
    freezer, bidder = Freezer(sale), Caller(sale, "x")
    assert freezer.ask("FREEZE").startswith("FROZEN 0 ")
    bidder.send("BID x 1 a 100")
    main = (sale / "front.pid").read_text().strip()
    children = Path(f"/proc/{main}/task/{main}/children").read_text().split()
    server = next(int(child) for child in children if b"serve" in Path(f"/proc/{child}/cmdline").read_bytes().split(b"\0"))
    os.kill(server, signal.SIGKILL)
    assert freezer.ask("THAW").startswith("THAWED ")
    assert bidder.answer() == "OK 1"


def test_a_control_that_isnt_a_socket_is_named_and_one_of_a_killed_front_is_replaced(auctions: Folder) -> None:
    sale = auctions.folder / "sale"
    auctions.new("sale")
    (sale / "front.control").write_text("mine")
    ran = auctions.ran("start", "sale")
    assert ran.returncode == 1 and ran.stderr == f"auction: sale: its front isn't ready: control: {sale}/front.control is there already, and is no socket\n"
    assert (sale / "front.control").read_text() == "mine"
    (sale / "front.control").unlink()
    auctions.run("start", "sale")
    main = int((sale / "front.pid").read_text())
    os.kill(main, signal.SIGKILL)
    wait_until(lambda: not Path(f"/proc/{main}").exists() or "Z" in Path(f"/proc/{main}/stat").read_text().split(") ")[1][:1], SECONDS, "it doesn't end")
    assert (sale / "front.control").exists()
    auctions.run("start", "sale")
    assert Freezer(sale).ask("FREEZE").startswith("FROZEN 0 ")


def test_without_a_control_a_front_that_runs_isnt_backed_up(auctions: Folder, copies: Path) -> None:
    auctions.new("sale")
    config = auctions.folder / "sale" / "front.toml"
    config.write_text("".join(line for line in config.read_text().splitlines(keepends=True) if not line.startswith("control")))
    auctions.run("start", "sale")
    ran = auctions.ran("backup", "sale", copies / "one")
    assert ran.returncode == 1
    assert ran.stderr == (f'auction: sale: its front can\'t be asked to wait: add control = "front.control" to {config}, and start it again\n')
    assert list(copies.iterdir()) == []


@pytest.fixture
def backed_up(auctions: Folder, copies: Path) -> Path:
    """A backup of a stopped auction with two commands. One of it with one command is beside it."""
    auctions.new("sale")
    auctions.run("start", "sale")
    assert auctions.ask("sale", "x", "BID x 1 a 100") == ["OK 1"]
    auctions.run("backup", "sale", copies / "older")
    assert auctions.ask("sale", "y", "BID y 1 b 150") == ["OK 2"]
    auctions.run("stop", "sale")
    auctions.run("backup", "sale", copies / "one")
    return copies / "one"


def write_sums(copy: Path) -> None:
    """As somebody would who wants a changed backup to be taken for a whole one."""
    names = sorted(path.name for path in copy.iterdir() if path.name != "SHA256SUMS")
    (copy / "SHA256SUMS").write_text("".join(f"{hashlib.sha256((copy / name).read_bytes()).hexdigest()}  {name}\n" for name in names))


def test_a_backup_that_isnt_whole_is_named_and_not_taken(auctions: Folder, backed_up: Path) -> None:
    kept = {path.name: path.read_bytes() for path in backed_up.iterdir()}
    shutil.rmtree(auctions.folder / "sale")

    def refused(words: str) -> None:
        for command in (("verify", backed_up), ("restore", "sale", backed_up)):
            ran = auctions.ran(*command)
            assert (ran.returncode, ran.stdout) == (1, "") and ran.stderr.startswith("auction: ") and words in ran.stderr, ran
        assert list(auctions.folder.iterdir()) == []
        shutil.rmtree(backed_up)
        backed_up.mkdir()
        for name, data in kept.items():
            (backed_up / name).write_bytes(data)

    for name in kept:
        if name != "SHA256SUMS":
            changed = bytearray(kept[name])
            changed[len(changed) // 2] ^= 1
            (backed_up / name).write_bytes(changed)
            refused(f"{backed_up}: {name} was changed: its SHA-256 is another\n")
    (backed_up / "front.key").unlink()
    refused(f"{backed_up}: front.key is missing\n")
    (backed_up / "more").write_text("")
    refused(f"{backed_up}: more is not in its list\n")
    (backed_up / "SHA256SUMS").unlink()
    refused(f"{backed_up}: it has no SHA256SUMS, so it is no whole backup\n")
    # Sums that are right don't make a file of one moment go with a record of another.
    shutil.copy(backed_up.parent / "older" / "auction.hpb", backed_up)
    write_sums(backed_up)
    refused("the file has 1 commands, and the record 2: the file is older, or another")
    shutil.copy(backed_up.parent / "older" / "auction.record", backed_up)
    write_sums(backed_up)
    refused("the file has 2 commands, and the record 1: the record was cut, or is older")


def test_a_backup_that_is_older_than_the_record_isnt_taken(auctions: Folder, backed_up: Path) -> None:
    older, sale = backed_up.parent / "older", auctions.folder / "sale"
    before = {path.name: path.read_bytes() for path in sale.iterdir() if path.is_file()}
    ran = auctions.ran("restore", "sale", older)
    assert ran.returncode == 1
    assert re.fullmatch(
        r"auction: the backup is older than the record that is there: entries 4 to 5, with command 2, the last one 'BID y 1 b 150' at \S+Z, would be lost\. "
        rf"To take the backup all the same, move {re.escape(str(sale))} away first\n", ran.stderr), ran.stderr
    assert {path.name: path.read_bytes() for path in sale.iterdir() if path.is_file()} == before
    # The newest one is taken, and the old auction is kept beside it.
    assert auctions.run("restore", "sale", backed_up).startswith("RESTORED sale COUNT 2 ")
    assert {path.name: path.read_bytes() for path in (auctions.folder / "sale.before-1").iterdir() if path.is_file()} == before
    assert [line.split()[:2] for line in auctions.run("list").splitlines()[1:]] == [["sale", "stopped"]]


def test_a_backup_isnt_taken_beside_or_over_another_auction(auctions: Folder, backed_up: Path) -> None:
    ran = auctions.ran("restore", "other", backed_up)
    assert (ran.returncode, ran.stderr) == (1, "auction: sale has the same record, and two would be served as one auction: move it away first\n")
    auctions.new("third")
    auctions.run("start", "third")
    ran = auctions.ran("restore", "third", backed_up)
    assert ran.returncode == 1 and ran.stderr.startswith(f"auction: {auctions.folder}/third/auction.record is in use: stop its front first")
    auctions.run("stop", "third")
    (auctions.folder / "sale").rename(auctions.folder.parent / "away")
    ran = auctions.ran("restore", "third", backed_up)
    assert ran.returncode == 1 and ran.stderr.startswith("auction: the record that is there is another one than the backup's. To take the backup all the same, ")
    record = auctions.folder / "third" / "auction.record"
    record.write_bytes(record.read_bytes().replace(b'"kind":"started"', b'"kind":"startled"'))
    ran = auctions.ran("restore", "third", backed_up)
    assert ran.returncode == 1 and "can't be read whole, so nobody knows what would be lost" in ran.stderr


def test_a_move_takes_all_along_and_nothing_is_left_where_it_was(auctions: Folder, backed_up: Path, room: Path) -> None:
    sale, others = auctions.folder / "sale", room / "others"
    others.mkdir()
    whole = {path.name: path.read_bytes() for path in sale.iterdir() if path.is_file()}
    auctions.run("start", "sale")
    ran = auctions.ran("move", "sale", others)
    assert (ran.returncode, ran.stderr) == (1, f"auction: {sale}/auction.record is in use: stop its front first\n")
    auctions.run("stop", "sale")
    assert auctions.run("move", "sale", others) == f"MOVED sale {others}/sale\n"
    assert not sale.exists()
    assert whole.keys() <= {path.name for path in (others / "sale").iterdir()}
    assert (others / "sale" / "auction.tokens").read_bytes() == whole["auction.tokens"]
    ran = auctions.ran("move", "sale", others)
    assert (ran.returncode, ran.stderr) == (1, f"auction: sale: {auctions.folder} has no such auction\n")


def test_commands_and_results_are_exported(auctions: Folder, backed_up: Path) -> None:
    auctions.run("start", "sale")
    assert auctions.ask("sale", "desk", "CLOSE 1") == ["OK 3"]
    shown = json.loads(auctions.run("export", "sale"))
    assert shown["auction"] == "sale" and shown["definition"] == json.loads(DEFINITION)
    rows = [{name: value for name, value in row.items() if name != "at"} for row in shown["commands"]]
    empty = {"bidder": None, "node": None, "amount": None}
    assert rows == [
        {"number": 1, "round": 1, "name": "x", "command": "BID", "bidder": "x", "ticket": 1, "node": "a", "amount": 100},
        {"number": 2, "round": 1, "name": "y", "command": "BID", "bidder": "y", "ticket": 1, "node": "b", "amount": 150},
        {"number": 3, "round": 1, "name": "desk", "command": "CLOSE", "ticket": 1, **empty},
    ]
    (close,) = shown["closes"]
    assert (close["commands"], close["round"], close["over"], close["revenue"]) == (3, 2, False, 250)
    assert close["winners"] == [{"node": "a", "bidder": "x", "bid": 100}, {"node": "b", "bidder": "y", "bid": 150}]
    assert close["prices"]["a"] == 100 and close["eligibility"] == {"x": 10, "y": 10, "z": 0, "w": 0}
    table = list(csv.reader(auctions.run("export", "sale", "--csv").splitlines()))
    assert [row[:1] + row[2:] for row in table] == [
        ["number", "round", "name", "command", "bidder", "ticket", "node", "amount"],
        ["1", "1", "x", "BID", "x", "1", "a", "100"], ["2", "1", "y", "BID", "y", "1", "b", "150"], ["3", "1", "desk", "CLOSE", "", "1", "", ""],
    ]


def test_a_bundle_for_anyone_is_made_by_the_same_command(auctions: Folder, room: Path) -> None:
    auctions.new("sale")
    config = auctions.folder / "sale" / "front.toml"
    config.write_text(config.read_text() + '\n[seals]\nkey = "seal.key"\n')
    key = tool("front", "--config", config, "--make-seal-key").stdout.strip()
    auctions.run("start", "sale")
    assert auctions.ask("sale", "x", "BID x 1 a 100") == ["OK 1"]
    assert auctions.ask("sale", "desk", "CLOSE 1") == ["OK 2"]
    auctions.run("stop", "sale")
    assert auctions.run("archive", "sale", room / "bundle", "--key", key).splitlines()[-1].startswith("SHA256SUMS ")
    assert tool("verify", room / "bundle").returncode == 0
    # The key goes along into a backup.
    auctions.run("backup", "sale", room / "one")
    assert (room / "one" / "seal.key").read_bytes() == (auctions.folder / "sale" / "seal.key").read_bytes()
    ran = auctions.ran("archive", "sale", room / "bundle", "--key", key)
    assert (ran.returncode, ran.stderr) == (1, f"auction: {room}/bundle: File exists\n")


def test_a_mock_has_the_same_tokens_and_addresses_of_its_own(auctions: Folder) -> None:
    auctions.new("sale")
    lines = auctions.run("mock", "sale", "trial").splitlines()
    assert lines[0] == f"MADE trial {auctions.folder}/trial"
    sale, trial = (auctions.folder / name for name in ("sale", "trial"))
    assert read_port(trial) != read_port(sale) and lines[1] == f"FRONT 127.0.0.1:{read_port(trial)}"
    auctions.run("start", "sale")
    auctions.run("start", "trial")
    tokens = dict(line.split(" ") for line in (sale / "auction.tokens").read_text().splitlines())
    context = ssl.create_default_context(cafile=sale / "front.pem")
    with context.wrap_socket(socket.create_connection(("127.0.0.1", read_port(trial)), SECONDS), server_hostname="localhost") as caller:
        caller.sendall(f"TOKEN {tokens['x']}\n".encode())
        assert caller.recv(100) == b"WELCOME x MOCK\n"
    assert auctions.ask("trial", "x", "BID x 1 a 100", said=f"client: {NOTICE}\n") == ["OK 1"]
    assert auctions.ask("sale", "desk", "SHOW") == ["ROUND 1 STAGE 1 OPEN REVENUE 0 COUNT 0"]
    ran = auctions.ran("mock", "trial", "again")
    assert ran.returncode == 1 and ran.stderr == f"auction: {trial}/front.toml is the configuration of a mock already\n"
    ran = auctions.ran("mock", "sale", "again", "--first", "2026-12-01T18:00")
    assert ran.returncode == 1 and "it can't be moved by --first" in ran.stderr
    assert sorted(path.name for path in auctions.folder.iterdir()) == ["sale", "trial"]


def test_what_nobody_won_makes_another_auction(auctions: Folder, room: Path) -> None:
    auctions.new("sale")
    auctions.run("start", "sale")
    assert auctions.ask("sale", "x", "BID x 1 a 100") == ["OK 1"]
    ran = auctions.ran("reauction", "sale")
    assert (ran.returncode, ran.stderr) == (1, "auction: sale isn't over\n")
    assert auctions.ask("sale", "desk", "CLOSE 1", "CLOSE 2 ENDING") == ["OK 2", "OK 3"]
    # Of east a is sold, so b stands in its place below all.
    definition = json.loads(DEFINITION)
    nodes = {node["name"]: node for node in definition["nodes"]}
    wanted = {**definition, "nodes": [nodes["all"], {**nodes["b"], "parent": "all"}, nodes["c"], nodes["d"]]}
    again = auctions.run("reauction", "sale")
    assert json.loads(again) == wanted
    (room / "again.json").write_text(again)
    ran = auctions.ran("new", "second", "--definition", room / "again.json", "--journal", 16)
    warning = "stage 2 asks z for an activity of 38 units, and all licences have 35: each close lowers its eligibility"
    assert (ran.returncode, ran.stderr) == (0, f"auction: warning: {warning}\n")
