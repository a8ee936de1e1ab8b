"""The duties of a client in any language: the package's client, and those of examples/clients.

A client is a program `CLIENT PORT SECONDS`. It reads groups of lines without tickets, such as `BID x a 100`; an empty line ends a
group. It sends the lines of a group ahead. Then it writes the outcome of each line, in their order, and an empty line. An outcome
is

- the answer;
- `OK ?` for a command that was accepted and whose number isn't known any more;
- `UNANSWERED sent` or `UNANSWERED unsent`.
"""

from __future__ import annotations

import os
import random
import shutil
import subprocess
import sys
import threading
from collections.abc import Callable, Iterator
from contextlib import ExitStack
from dataclasses import dataclass, field
from pathlib import Path

import pytest

from conformance.relay import Relay
from harness import building
from harness.auctions import Layout
from harness.programs import Program
from harness.serving import Client as Connection
from harness.serving import Server, free_port, read_line

TOP = Path(__file__).resolve().parents[2]
CLIENTS = TOP / "examples" / "clients"
LANGUAGES = ("python", "c", "js")
SECONDS = 60
SESSIONS = 32

NODES_OF = {"x": ("a",), "y": ("b",), "z": ("all", "east", "a", "b", "c"), "w": ("c", "d")}
LICENCES_OF = {"all": 3, "east": 2}
# They start programs of their own, which is slow on a busy machine.
pytestmark = pytest.mark.timeout(240)

# Four questions for tickets, and nine bids.
LINES_OF_A_ROUND = 13


def bids_of(number: int) -> list[str]:
    """The nine bids of a round, counted from 1, without tickets. All are accepted, in any order."""
    return [f"BID {bidder} {node} {1000 * 2**number * LICENCES_OF.get(node, 1)}" for bidder, nodes in NODES_OF.items() for node in nodes]


@dataclass
class Auction:
    """A file that is served at one port, after a kill too."""

    program: Program
    file: Path
    port: int = field(default_factory=free_port)
    server: Server | None = None

    def start(self) -> None:
        """Serves the file."""
        self.server = Server(self.program, self.file, SESSIONS, self.port)

    def kill(self) -> None:
        """Kills the server, if there is one."""
        if self.server:
            self.server.kill()
        self.server = None

    def start_again(self) -> None:
        """Kills the server, and serves the file again."""
        self.kill()
        self.start()

    def ask(self, line: str) -> str:
        """The answer to a line that is sent over a connection of its own."""
        with Connection(self.port) as connection:
            return connection.ask(line)


@dataclass
class Driven:
    """A client that is driven by lines."""

    process: subprocess.Popen[bytes]

    def group(self, *lines: str) -> list[str]:
        """The outcomes of a group's lines."""
        assert self.process.stdin
        self.process.stdin.write("".join(f"{line}\n" for line in (*lines, "")).encode())
        self.process.stdin.flush()
        outcomes = [read_line(self.process, SECONDS) for _ in (*lines, "")]
        assert outcomes[-1] == "", outcomes
        return outcomes[:-1]


Drives = Callable[..., Driven]


@pytest.fixture(scope="session")
def built_clients(place: Path) -> dict[str, Path]:
    """The programs that had to be built."""
    compiler = shutil.which("gcc") or shutil.which("cc")
    if compiler is None:
        return {}
    folder = place / "clients"
    folder.mkdir(exist_ok=True)
    return {"c": building.executable(CLIENTS / "c" / "client.c", folder)}


@pytest.fixture(params=LANGUAGES)
def drive(request: pytest.FixtureRequest, built_clients: dict[str, Path], lack: Callable[[object], None]) -> Iterator[Drives]:
    """Starts the client of each language at a port; it is killed with its test."""
    node = shutil.which("node") or "node"
    words: dict[str, list[str]] = {
        "python": [sys.executable, "-B", str(Path(__file__).with_name("python_client.py"))],
        "c": [str(built_clients.get("c", ""))],
        "js": [node, str(CLIENTS / "js" / "client.mjs")],
    }
    if not Path(words[request.param][0]).is_file():
        lack(f"what runs a client in {request.param} isn't installed")
    with ExitStack() as stack:

        def drives(port: int, seconds: float = SECONDS) -> Driven:
            process = subprocess.Popen(
                [*words[request.param], str(port), str(seconds)],
                stdin=subprocess.PIPE,
                stdout=subprocess.PIPE,
                env={**os.environ, "PYTHONPATH": str(TOP / "python" / "src")},
            )
            stack.callback(process.communicate)
            stack.callback(process.kill)
            return Driven(process)

        yield drives


@pytest.fixture
def auction(program: Program, room: Path) -> Iterator[Auction]:
    """The first example's auction, served from a file with the least journal."""
    file = room / "auction"
    assert program.format(file, Layout.PAGES).status == 0
    made = Auction(program, file)
    made.start()
    yield made
    made.kill()


ROWS = [
    (["BID x a 100", "BID y b 150", "BID z all 500", "BID w c 100"], ["OK 1", "OK 2", "OK 3", "OK 4"]),
    (["CLOSE"], ["OK 5"]),
    (["SHOW", "NODE a", "WHO w"], [
        "ROUND 2 STAGE 1 OPEN REVENUE 500 COUNT 5",
        "NODE a HIGH 100 x PRICE 138 MIN 160 WIN no",
        "WHO w ELIGIBILITY 25 ACTIVITY 0 TICKET 1",
    ]),
    (["BID z a 150", "BID z b 215", "BID z nowhere 10", "BID z c 200", "BID nobody a 160"], [
        "ERR 22 low", "ERR 21 step", "ERR 12 node", "OK 6", "ERR 11 bidder",
    ]),
    (["WAIVE x", "STAGE", "BID x a 160"], ["ERR 28 waiver", "OK 7", "OK 8"]),
    (["STAGE"], ["ERR 27 stage"]),
    (["BID x a 170", "BID x b 210"], ["ERR 24 again", "ERR 25 eligibility"]),
    (["NODE nowhere", "WHO nobody"], ["ERR 12 node", "ERR 11 bidder"]),
    (["CLOSE"], ["OK 9"]),
    (["CLOSE"], ["OK 10"]),
    (["BID x a 300", "CLOSE", "SHOW"], ["ERR 20 closed", "ERR 20 closed", "ROUND 3 STAGE 2 CLOSED REVENUE 510 COUNT 10"]),
]


def test_rows(auction: Auction, drive: Drives) -> None:
    """Each row is a group. If a group has lines of several senders, their numbers may come in another order."""
    client = drive(auction.port)
    for lines, wanted in ROWS:
        assert sorted(client.group(*lines)) == sorted(wanted)


def test_more_lines_than_may_be_in_flight(auction: Auction, drive: Drives) -> None:
    """All but the first are refused, and those in flight behind them get new tickets."""
    client = drive(auction.port)
    assert client.group(*(f"BID z d {100 + 10 * more}" for more in range(100))) == ["OK 1", *["ERR 24 again"] * 99]
    assert client.group("BID z a 100", "WHO z")[0] == "OK 2"


@pytest.mark.parametrize("behind", [False, True], ids=["before", "behind"])
@pytest.mark.parametrize("at", [pytest.param(at, marks=[] if at in (3, 8, 13) else pytest.mark.long) for at in range(1, LINES_OF_A_ROUND + 1)])
def test_a_kill_at_a_line_loses_and_doubles_nothing(auction: Auction, drive: Drives, at: int, behind: bool) -> None:
    """The server is killed before that line reaches it, or after its answer, which is then lost."""
    with Relay(auction.port, at, behind, auction.start_again) as relay:
        outcomes = drive(relay.port).group(*bids_of(1))
        assert relay.has_acted
    assert all(outcome.startswith("OK ") for outcome in outcomes), outcomes
    assert auction.ask("SHOW") == "ROUND 1 STAGE 1 OPEN REVENUE 0 COUNT 9"


@pytest.mark.parametrize("at", [2, 3])
@pytest.mark.parametrize("behind", [False, True], ids=["before", "behind"])
def test_a_kill_doubles_no_close(auction: Auction, drive: Drives, at: int, behind: bool) -> None:
    """A second close would end the auction. The first line asks for the bidder's ticket, the third for the auctioneer's."""
    assert auction.ask("BID x 1 a 100") == "OK 1"
    with Relay(auction.port, at, behind, auction.start_again) as relay:
        assert drive(relay.port).group("CLOSE", "SHOW")[0] == "OK 2"
    assert auction.ask("SHOW") == "ROUND 2 STAGE 1 OPEN REVENUE 100 COUNT 2"


@pytest.mark.long
@pytest.mark.timeout(240)
@pytest.mark.parametrize("seed", range(3))
def test_kills_at_random_moments_lose_and_double_nothing(auction: Auction, drive: Drives, seed: int) -> None:
    """Eight rounds, in which the server is killed up to ten times."""
    dice, ended, killed = random.Random(seed), threading.Event(), list[bool]()

    def kill() -> None:
        while len(killed) < 10 and not ended.wait(dice.uniform(0.1, 2)):
            auction.start_again()
            killed.append(True)

    killer = threading.Thread(target=kill)
    killer.start()
    try:
        client = drive(auction.port)
        for number in range(1, 9):
            assert all(outcome.startswith("OK ") for outcome in client.group(*bids_of(number)))
            assert client.group("CLOSE") == [f"OK {10 * number}"]
    finally:
        ended.set()
        killer.join()
    assert killed
    assert auction.ask("SHOW").endswith(" COUNT 80")


def test_what_was_never_sent_is_told_so_in_its_time(drive: Drives) -> None:
    """Nobody listens there."""
    assert drive(free_port(), 1.5).group("BID x a 100", "SHOW") == ["UNANSWERED unsent", "UNANSWERED unsent"]


def test_a_client_gets_on_when_its_server_comes_late(program: Program, room: Path, drive: Drives) -> None:
    """The client is started before its server."""
    file = room / "auction"
    assert program.format(file, Layout.PAGES).status == 0
    auction = Auction(program, file)
    starter = threading.Timer(1, auction.start)
    starter.start()
    try:
        assert drive(auction.port).group("BID x a 100") == ["OK 1"]
    finally:
        starter.join()
        auction.kill()
