"""An auction is served to sessions over TCP: what they are answered, and how the program ends.

Each session that misbehaves has another one beside it, which must be answered meanwhile.
"""

from __future__ import annotations

import os
import socket
import subprocess
import time
from contextlib import suppress
from pathlib import Path

import pytest

from harness.auctions import EXAMPLES, PAGE, Layout
from harness.fronts import tool_words
from harness.notices import closes
from harness.programs import Program, shown
from harness.serving import ADDRESS, SECONDS, Serve, Server
from outside.lies import Liar

# The definition of the first example with a waiver for each bidder.
WAIVERS = (EXAMPLES / "waivers-at-work.txt").read_bytes().split(b"\n")[0] + b"\n"
MOST_SESSIONS = 32
JOURNAL, PAGES = 8, 21
MILLION = 1_000_000
TICKS = os.sysconf("SC_CLK_TCK")
EMPTY, ONE_BID, TWO_BIDS = (f"ROUND 1 STAGE 1 OPEN REVENUE 0 COUNT {count}" for count in range(3))


@pytest.fixture
def file(program: Program, room: Path) -> Path:
    """A new auction of the first example, with a journal of eight frames."""
    return new_file(program, room)


def new_file(program: Program, room: Path, text: bytes | None = None) -> Path:
    assert program.format(room / "F", Layout.PAGES, JOURNAL, text).told() == (f"FORMATTED {PAGES}\n", "", 0)
    return room / "F"


def first_shown(program: Program, file: Path) -> str:
    """What `check` shows first."""
    return program.check(file).lines()[0]


def serves_one_session(program: Program, file: Path) -> None:
    """One session is answered line by line, and the program ends with it."""
    with Server(program, file, seconds=program.seconds) as server:
        session = server.connect()
        assert session.ask("BID x 1 a 100") == "OK 1"
        assert session.ask("SHOW") == ONE_BID
        assert session.ask("BID x 1 a 100") == "OK 1"
        assert session.ask("BID x 1 a 110") == "ERR 14 ticket"
        assert session.ask("HELLO") == "ERR 10 line"
        session.send(b"SHOW\nWHO x\nNODE d\n")
        who, node = "WHO x ELIGIBILITY 10 ACTIVITY 10 TICKET 1", "NODE d HIGH 0 - PRICE 0 MIN 100 WIN no"
        assert [session.line() for _ in range(3)] == [ONE_BID, who, node]
        assert session.finish() == []
        closes(server, 1)


def test_one_session(program: Program, file: Path) -> None:
    serves_one_session(program, file)
    assert first_shown(program, file) == ONE_BID


def test_two_sessions(program: Program, file: Path, serve: Serve) -> None:
    server = serve(file, 2)
    first, second = server.connect(), server.connect()
    assert first.ask("BID x 1 a 100") == "OK 1"
    assert second.ask("BID y 1 b 150") == "OK 2"
    assert second.ask("SHOW") == TWO_BIDS
    assert first.finish() == second.finish() == []
    closes(server, 2)
    assert first_shown(program, file) == TWO_BIDS


def test_a_session_that_misbehaves_stops_nobody_else(file: Path, serve: Serve) -> None:
    server = serve(file, 7)
    cut, half, long, broken, silent, deaf, good = (server.connect() for _ in range(7))
    assert good.ask("SHOW") == EMPTY
    cut.send(b"BID x 1 a")
    assert cut.finish() == ["ERR 10 line"]
    assert good.ask("SHOW") == EMPTY
    half.send(b"BID x 1 ")
    assert good.ask("BID y 1 b 150") == "OK 1"
    long.send(b"x" * MILLION)
    assert good.ask("BID z 1 all 500") == "OK 2"
    broken.send(b"SHOW\n")
    broken.reset()
    assert good.ask("BID w 1 c 100") == "OK 3"
    deaf.socket.settimeout(1)
    with suppress(OSError):
        for _ in range(1000):
            deaf.send(b"SHOW\n" * 4096)
    assert good.ask("BID w 2 d 100") == "OK 4"
    assert half.ask("a 100") == "OK 5"
    long.send(b"\n")
    assert long.line() == "ERR 10 line"
    assert [session.finish() for session in (half, long, silent, good)] == [[]] * 4
    deaf.reset()
    closes(server, 5)


def seconds_used(server: Server) -> float:
    """The processor's time that it has used, by all its threads."""
    fields = Path(f"/proc/{server.process.pid}/stat").read_text().rsplit(")", 1)[1].split()
    return (int(fields[11]) + int(fields[12])) / TICKS


def used_in_a_second(server: Server) -> float:
    before = seconds_used(server)
    time.sleep(1)
    return seconds_used(server) - before


def test_idle_sessions_use_no_time_and_one_more_is_not_served(file: Path, serve: Serve) -> None:
    server = serve(file, MOST_SESSIONS)
    sessions = [server.connect() for _ in range(MOST_SESSIONS)]
    assert sessions[-1].ask("SHOW") == EMPTY
    with pytest.raises(OSError):
        server.connect().ask("SHOW")
    assert sessions[0].ask("BID x 1 a 100") == "OK 1"
    assert min(used_in_a_second(server) for _ in range(3)) < 1.5 / TICKS
    assert [session.finish() for session in sessions] == [[]] * MOST_SESSIONS
    closes(server, 1)


def test_after_a_kill_each_client_repeats_its_last_command(file: Path, serve: Serve) -> None:
    server = serve(file, 2)
    first, second = server.connect(), server.connect()
    assert [first.ask("BID x 1 a 100"), second.ask("BID y 1 b 150")] == ["OK 1", "OK 2"]
    server.kill()
    server = serve(file, 2)
    first, second = server.connect(), server.connect()
    assert [second.ask("BID y 1 b 150"), first.ask("BID x 1 a 100")] == ["OK 2", "OK 1"]
    assert [first.ask("CLOSE 1"), second.ask("SHOW")] == ["OK 3", "ROUND 2 STAGE 1 OPEN REVENUE 250 COUNT 3"]
    assert first.finish() == second.finish() == []
    closes(server, 3)


def client_asks(server: Server, lines: str) -> tuple[str, int]:
    """What the client of the tools prints, which asks line by line, and its status."""
    words = [*tool_words("client"), str(server.port)]
    ran = subprocess.run(words, input=lines.encode(), stdout=subprocess.PIPE, timeout=3 * SECONDS)
    return shown(ran.stdout), ran.returncode


def test_the_client_of_the_tools(file: Path, serve: Serve) -> None:
    server = serve(file)
    assert client_asks(server, "BID x 1 a 100\nSHOW\n") == (f"OK 1\n{ONE_BID}\n", 0)
    closes(server, 1)


AFTER_A_WAIVER = [
    ("WAIVE x 1", "OK 1"),
    ("WHO x", "WHO x ELIGIBILITY 10 ACTIVITY 0 TICKET 1 WAIVERS 0"),
    ("BID z 1 a 100", "OK 2"),
    ("CLOSE 1", "OK 3"),
    ("WHO x", "WHO x ELIGIBILITY 10 ACTIVITY 0 TICKET 1 WAIVERS 0"),
    ("WHO y", "WHO y ELIGIBILITY 10 ACTIVITY 0 TICKET 0 WAIVERS 0"),
    ("CLOSE 2", "OK 4"),
    ("WHO x", "WHO x ELIGIBILITY 0 ACTIVITY 0 TICKET 1 WAIVERS 0"),
    ("SHOW", "ROUND 2 STAGE 1 CLOSED REVENUE 100 COUNT 4"),
]


def test_a_waiver_is_kept_over_a_kill(program: Program, room: Path, serve: Serve) -> None:
    """It counts once when it is sent again, and WHO also shows what a close took of another bidder."""
    file = new_file(program, room, WAIVERS)
    server = serve(file, 2)
    first, second = server.connect(), server.connect()
    assert second.ask("WHO x") == "WHO x ELIGIBILITY 10 ACTIVITY 0 TICKET 0 WAIVERS 1"
    assert first.ask("WAIVE x 1") == "OK 1"
    assert second.ask("WHO x") == "WHO x ELIGIBILITY 10 ACTIVITY 0 TICKET 1 WAIVERS 0"
    assert second.ask("WAIVE x 2") == "ERR 28 waiver"
    server.kill()
    server = serve(file)
    lines, answers = ("".join(f"{row[place]}\n" for row in AFTER_A_WAIVER) for place in range(2))
    assert client_asks(server, lines) == (answers, 0)
    closes(server, 4)


# A file, a port, a number of sessions, the answer, and the status. The answer is about the earlier fault.
REFUSED = [
    ("F", "taken", 1, "ERR 92 stream\n", 1),
    ("blank", "taken", 1, "ERR 40 unformatted\n", 1),
    ("missing", "taken", 1, "ERR 91 device\n", 1),
    ("missing", "1023", 1, "", 2),
    ("F", "65536", 1, "", 2),
    ("F", "taken", 0, "", 2),
    ("F", "taken", 33, "", 2),
]


@pytest.mark.parametrize("name, port, sessions, answer, status", REFUSED)
def test_what_is_refused(
    program: Program, file: Path, name: str, port: str, sessions: int, answer: str, status: int
) -> None:
    file.with_name("blank").write_bytes(bytes(PAGES * PAGE))
    with socket.create_server((ADDRESS, 0)) as other:
        number = other.getsockname()[1] if port == "taken" else port
        ran = program.run("serve", "--file", file.with_name(name), "--port", number, "--sessions", sessions)
    assert (ran.output, ran.status, ran.errors != "") == (answer, status, True)
    assert not file.with_name("missing").exists()


@pytest.mark.parametrize("lie", ["silent", "ill"])
def test_another_end_is_seen(liar: Liar, file: Path, lie: str) -> None:
    with pytest.raises(AssertionError):
        serves_one_session(liar(lie), file)
