"""A program at a terminal says what to type, and behind each refused line, what would be accepted. From a pipe answers come alone."""

from __future__ import annotations

import socket
import subprocess
from pathlib import Path

import pytest

from harness.programs import Program, format_words
from harness.serving import ADDRESS, free_port
from harness.streams import Typed
from outside.lies import Liar
from outside.texts import COAST, NODES, SHOWN

TYPE = "hpb: standard input is a terminal: type"
TYPE_A_SCRIPT = f"{TYPE} the definition in JSON, in one line, then commands and questions, one a line; Ctrl-D ends the script\n"
TYPE_A_DEFINITION = f"{TYPE} the definition in JSON, in as many lines as you like; Ctrl-D ends it\n"
TYPE_LINES = f"{TYPE} commands and questions, one a line; Ctrl-D ends the run\n"
LONG_LINES = "hpb: a terminal cuts a line at 4,095 bytes: put a longer one into a file F, and give it by < F\n"
ACCEPTED = "hpb: the definition is accepted: type commands and questions\n"
END = b"\x04"

# Lines, the answer to each, and the message at a terminal. bob has 20 units; bay has 10, and cape 15.
REFUSED_LINES = [
    ("BID ann 1 bay 950", "ERR 22 low", "the least that may be bid on bay is 1000 dollars"),
    ("BID ann 1 twin 2450", "ERR 22 low", "the least that may be bid on twin is 2500 dollars"),
    ("BID ann 1 bay 1025", "ERR 21 step", "an amount is a multiple of 50 dollars"),
    ("BID ann 1 bay 2000000000000", "ERR 23 high", "the most that may be bid is 1000000000000 dollars"),
    ("BID ann 2 bay 1000", "ERR 15 gap", "the next ticket of ann is 1"),
    ("BID bob 1 bay 1000", "OK 1", None),
    ("BID bob 1 cape 1500", "ERR 14 ticket", "the next ticket of bob is 2"),
    ("BID bob 0 cape 1500", "ERR 13 old", "the next ticket of bob is 2"),
    ("BID bob 2 cape 1500", "ERR 25 eligibility", "bob is eligible for 20 bidding units, and active on 10 without this bid"),
    ("BID bob 2 bay 1100", "ERR 24 again", None),
    ("CLOSE 2", "ERR 15 gap", "the next ticket of the auctioneer is 1"),
    ("CLOSE 1", "OK 2", None),
    ("STAGE 1", "ERR 14 ticket", "the next ticket of the auctioneer is 2"),
    ("BID ann 1 bay 1000", "ERR 22 low", "the least that may be bid on bay is 1050 dollars"),
    ("BID eve 1 bay 1100", "ERR 11 bidder", None),
    ("HELP", "ERR 10 line", None),
    ("WAIVE ann 1", "ERR 28 waiver", None),
    ("WAIVE ann 2", "ERR 15 gap", "the next ticket of ann is 1"),
    ("STAGE 4", "ERR 15 gap", "the next ticket of the auctioneer is 2"),
    ("CLOSE 2", "OK 3", None),
    ("BID ann 1 bay 1100", "ERR 20 closed", None),
]
LINES = "".join(f"{line}\n" for line, _, _ in REFUSED_LINES).encode()
ANSWERS = "".join(f"{answer}\n" for _, answer, _ in REFUSED_LINES)


@pytest.fixture
def file(program: Program, room: Path) -> Path:
    """A new auction of the coast."""
    assert program.format(room / "F", text=COAST).told() == ("FORMATTED 17\n", "", 0)
    return room / "F"


def told(answer: str, reason: str | None) -> str:
    """The message at a terminal behind an answer."""
    return f"hpb: {answer.removeprefix('ERR ')}: {reason}\n" if reason else ""


def test_a_script(program: Program) -> None:
    with Typed(program) as typed:
        typed.says(TYPE_A_SCRIPT + LONG_LINES)
        typed.type(COAST)
        typed.says(ACCEPTED)
        for _ in range(2):
            typed.type(b"SHOW\n")
            typed.answers(SHOWN)
        typed.type(END)
        typed.ends(0)


def test_a_refused_definition(program: Program) -> None:
    with Typed(program) as typed:
        typed.says(TYPE_A_SCRIPT + LONG_LINES)
        typed.type(b"{}\n")
        typed.ends(1, "ERR 61 field\n", "hpb: 61 field: step: missing\n")


# Texts without a line feed behind them, the answers, the message, and the status.
UNENDED = [
    (b"{", "ERR 60 json\n", "hpb: 60 json: line 1 column 1: the text ends before the JSON does\n", 1),
    (COAST[:-1], "", ACCEPTED, 0),
    (COAST + b"x" * 129, "ERR 10 line\n", ACCEPTED, 0),
]


@pytest.mark.parametrize(("text", "answers", "said", "status"), UNENDED, ids=["a front", "a definition", "a long line"])
def test_nothing_is_read_after_the_end(program: Program, text: bytes, answers: str, said: str, status: int) -> None:
    """The first Ctrl-D hands on the line as it stands, and the second one ends the script. More could be typed then."""
    with Typed(program) as typed:
        typed.says(TYPE_A_SCRIPT + LONG_LINES)
        typed.type(text + END + END)
        typed.ends(status, answers, said)


def test_format(program: Program, room: Path) -> None:
    with Typed(program, *format_words(room / "F")) as typed:
        typed.says(TYPE_A_DEFINITION + LONG_LINES)
        typed.type(COAST.replace(b",", b",\n") + END)
        typed.ends(0, "FORMATTED 17\n")


def test_run(program: Program, file: Path) -> None:
    with Typed(program, "run", "--file", file) as typed:
        typed.says(TYPE_LINES)
        typed.type(b"SHOW\n")
        typed.answers(SHOWN)
        typed.type(b"BID ann 1 bay 1000\n")
        typed.answers("OK 1\n")
        typed.type(END)
        typed.ends(0)
    with Typed(program, "check", "--file", file) as typed:
        typed.ends(0, SHOWN.replace("COUNT 0", "COUNT 1") + NODES)


def test_serve(program: Program, file: Path) -> None:
    port = free_port()
    with Typed(program, "serve", "--file", file, "--port", port, "--sessions", 1) as typed:
        typed.answers(f"LISTENING {port}\n")
        with socket.create_connection((ADDRESS, port)) as connection:
            holder = f"{ADDRESS}:{connection.getsockname()[1]}"
        ended = f"hpb: place 1 of 1 ({holder}) has ended: its connection ended\n"
        typed.ends(0, "CLOSED 0\n", f"hpb: 1 of 1 places taken\nhpb: place 1 of 1 is held by {holder}\n{ended}")


def explains_refused_lines(typed: Typed) -> None:
    """Each line has its answer, and a refused one a message about what would do."""
    for line, answer, reason in REFUSED_LINES:
        typed.type(line.encode() + b"\n")
        typed.answers(f"{answer}\n")
        typed.says(told(answer, reason))
    typed.type(END)
    typed.ends(0)


def script_explains(program: Program) -> None:
    """So it is in a script."""
    with Typed(program) as typed:
        typed.type(COAST)
        typed.says(TYPE_A_SCRIPT + LONG_LINES + ACCEPTED)
        explains_refused_lines(typed)


def test_refused_lines_of_a_script(program: Program) -> None:
    script_explains(program)


def test_refused_lines_of_a_run(program: Program, file: Path) -> None:
    with Typed(program, "run", "--file", file) as typed:
        typed.says(TYPE_LINES)
        explains_refused_lines(typed)


def test_answers_come_before_what_is_said(program: Program) -> None:
    """Both streams go the same way."""
    with Typed(program, errors=subprocess.STDOUT) as typed:
        typed.type(COAST)
        typed.answers(TYPE_A_SCRIPT + LONG_LINES + ACCEPTED)
        for line, answer, reason in REFUSED_LINES:
            typed.type(line.encode() + b"\n")
            typed.answers(f"{answer}\n{told(answer, reason)}")
        typed.type(END)
        typed.ends(0)


def test_from_a_pipe_answers_come_alone(program: Program, file: Path) -> None:
    assert program.run(text=COAST + LINES).told() == (ANSWERS, "", 0)
    assert program.run("run", "--file", file, text=LINES).told() == (ANSWERS, "", 0)


@pytest.mark.parametrize("lie", ["silent", "ill"])
def test_a_terminal_that_is_told_otherwise_is_seen(liar: Liar, lie: str) -> None:
    with pytest.raises(AssertionError):
        script_explains(liar(lie))
