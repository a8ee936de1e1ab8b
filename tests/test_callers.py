"""Callers that don't play their part, beside one that does: nobody else waits for them, and the answers that they got stay valid."""

from __future__ import annotations

import socket
import struct
from pathlib import Path

import pytest

from harness.programs import Program, Ran
from harness.serving import Client, Ended, Serve, Server, free_port

# The lines of another caller beside an odd one, and their answers if nobody else has bid.
BIDS = ("BID y 1 b 150", "SHOW", "BID w 1 c 100", "WHO w")
ANSWERS = ["OK 1", "ROUND 1 STAGE 1 OPEN REVENUE 0 COUNT 1", "OK 2", "WHO w ELIGIBILITY 25 ACTIVITY 20 TICKET 1"]
TWO_BIDS = "ROUND 1 STAGE 1 OPEN REVENUE 0 COUNT 2"
HALF_A_MILLION = 500_000
# If nothing is taken of a caller for so many seconds, its session is regarded as stuck.
STUCK = 0.5
# The most questions, in thousands, that are sent until no more are taken: more bytes than any system keeps.
MOST_THOUSANDS = 40_000
# SO_LINGER with no time: closing such a connection resets it.
AT_ONCE = struct.pack("ii", 1, 0)
# The status of a program after a stream failed.
REFUSED = 1


def asked(caller: Client) -> list[str]:
    """The answers of the other caller."""
    return [caller.ask(line) for line in BIDS]


def ended_well(server: Server, count: int) -> None:
    """Checks that all sessions have ended, and that so many commands were accepted in all."""
    ran = server.ended()
    assert (ran.output, ran.status) == (f"CLOSED {count}\n", 0), ran


def fill(caller: Client) -> None:
    """Sends questions and reads nothing, until no more are taken."""
    caller.socket.settimeout(STUCK)
    with pytest.raises(TimeoutError):
        for _ in range(MOST_THOUSANDS):
            caller.send(b"SHOW\n" * 1_000)


def reset(caller: Client) -> None:
    """Ends its connection in a way that the other side sees as an error."""
    caller.socket.setsockopt(socket.SOL_SOCKET, socket.SO_LINGER, AT_ONCE)
    caller.close()


def test_a_caller_that_never_reads_holds_up_nobody(serve: Serve, file: Path) -> None:
    server = serve(file, sessions=2)
    odd, other = server.connect(), server.connect()
    fill(odd)
    assert asked(other) == ANSWERS
    assert other.finish() == []
    reset(odd)
    ended_well(server, 2)


def test_half_a_line_waits_for_its_other_half_alone(serve: Serve, file: Path) -> None:
    server = serve(file, sessions=2)
    odd, other = server.connect(), server.connect()
    odd.send(b"BID x 1 a")
    assert asked(other) == ANSWERS
    odd.send(b" 100\nBID x 2 a")
    assert odd.line() == "OK 3"
    assert odd.finish() == ["ERR 10 line"]
    assert other.ask("SHOW") == "ROUND 1 STAGE 1 OPEN REVENUE 0 COUNT 3"
    assert other.finish() == []
    ended_well(server, 3)


def test_a_million_bytes_of_one_line_are_one_refusal(serve: Serve, file: Path) -> None:
    server = serve(file, sessions=2)
    odd, other = server.connect(), server.connect()
    odd.send(b"a" * HALF_A_MILLION)
    assert asked(other) == ANSWERS
    odd.send(b"a" * HALF_A_MILLION)
    odd.send(b"\nBID x 1 a 100\n")
    assert [odd.line(), odd.line()] == ["ERR 10 line", "OK 3"]
    assert odd.finish() == other.finish() == []
    ended_well(server, 3)


def test_a_connection_that_is_reset_keeps_what_it_was_answered(serve: Serve, file: Path) -> None:
    server = serve(file, sessions=2)
    odd, other = server.connect(), server.connect()
    odd.send(b"BID x 1 a 100\nSHOW\n")
    assert odd.socket.recv(1, socket.MSG_PEEK) == b"O"
    reset(odd)
    assert other.ask("SHOW") == "ROUND 1 STAGE 1 OPEN REVENUE 0 COUNT 1"
    assert other.ask("BID y 1 b 150") == "OK 2"
    assert other.finish() == []
    ended_well(server, 2)


def test_a_caller_that_says_nothing_holds_up_nobody(serve: Serve, file: Path) -> None:
    server = serve(file, sessions=2)
    odd, other = server.connect(), server.connect()
    assert asked(other) == ANSWERS
    assert other.finish() == odd.finish() == []
    ended_well(server, 2)


def test_sessions_share_one_auction_and_a_later_server_goes_on_with_it(serve: Serve, file: Path) -> None:
    server = serve(file, sessions=2)
    first, second = server.connect(), server.connect()
    assert first.ask("BID x 1 a 100") == "OK 1"
    assert second.ask("BID y 1 b 150") == "OK 2"
    assert second.ask("SHOW") == TWO_BIDS
    assert first.finish() == second.finish() == []
    ended_well(server, 2)
    server = serve(file, sessions=1)
    third = server.connect()
    assert third.ask("SHOW") == TWO_BIDS
    assert third.ask("WHO x") == "WHO x ELIGIBILITY 10 ACTIVITY 10 TICKET 1"
    assert third.ask("WHO y") == "WHO y ELIGIBILITY 10 ACTIVITY 10 TICKET 1"
    # When it is sent again, each gets the number that it had.
    assert [third.ask("BID x 1 a 100"), third.ask("BID y 1 b 150")] == ["OK 1", "OK 2"]
    assert third.finish() == []
    ended_well(server, 2)


def test_listening_is_written_before_anyone_connects(serve: Serve, file: Path) -> None:
    # `serve` returns once the first line is there, and nobody has connected by then.
    server = serve(file)
    caller = server.connect()
    assert caller.ask("BID x 1 a 100") == "OK 1"
    assert caller.finish() == []
    ended_well(server, 1)


def test_one_connection_too_many_is_turned_away(serve: Serve, file: Path) -> None:
    server = serve(file, sessions=2)
    first, second = server.connect(), server.connect()
    assert first.ask("BID x 1 a 100") == "OK 1"
    assert second.ask("BID y 1 b 150") == "OK 2"
    with pytest.raises((Ended, OSError)):
        server.connect().ask("SHOW")
    assert first.ask("SHOW") == second.ask("SHOW") == TWO_BIDS
    assert first.finish() == second.finish() == []
    ended_well(server, 2)


def test_a_line_that_nobody_hears_ends_the_server(program: Program, file: Path) -> None:
    with open("/dev/full", "wb") as full:
        ran: Ran = program.run("serve", "--file", file, "--port", free_port(), "--sessions", 1, output=full)
    assert (ran.status, ran.errors.split(":")[:2]) == (REFUSED, ["hpb", " 92 stream"]), ran
    assert program.count(file) == 0
