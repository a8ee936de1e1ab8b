"""Sessions of `serve`: their places, how each ends, and that each promised session is served to its end."""

from __future__ import annotations

import re
import signal
import socket
import struct
import tempfile
from collections.abc import Iterator
from contextlib import ExitStack
from pathlib import Path

import pytest

from harness.auctions import Layout
from harness.bidding import bidders_definition
from harness.conditions import NORMAL
from harness.programs import Program
from harness.serving import Client, Ended, NotServing, Serve, Server

SESSIONS = 8
# Within how many seconds a session is answered.
BOUND = 10
# Limits of memory are tried in steps of so many KiB, from the least with which a server starts, and this number of them.
STEP, STEPS = 16, 48
# More answers than a connection has room for.
MANY = 4_000_000


def peer(client: Client) -> str:
    """The address of the client's end of its connection."""
    address, port = client.socket.getsockname()
    return f"{address}:{port}"


def has_begun(client: Client, place: int, places: int) -> str:
    return f"hpb: place {place} of {places} is held by {peer(client)}\n"


def has_ended(who: str, place: int, places: int, why: str) -> str:
    return f"hpb: place {place} of {places} ({who}) has ended: {why}\n"


def reset(client: Client) -> None:
    """Breaks the connection off."""
    client.socket.setsockopt(socket.SOL_SOCKET, socket.SO_LINGER, struct.pack("ii", 1, 0))
    client.close()


def test_who_has_which_place_is_told(file: Path, serve: Serve) -> None:
    """And also when a place's session has ended, in whatever order."""
    server = serve(file, 2)
    with server.connect() as one:
        assert one.ask("SHOW").startswith("ROUND 1 ")
        with server.connect() as other:
            assert other.ask("SHOW").startswith("ROUND 1 ")
            first, second = peer(one), peer(other)
            begun = "hpb: 1 of 2 places taken\n" + has_begun(one, 1, 2) + "hpb: 2 of 2 places taken\n" + has_begun(other, 2, 2)
            assert server.wait_until_said(has_begun(other, 2, 2), BOUND) == begun
            assert other.finish() == []
            ended = begun + has_ended(second, 2, 2, "its connection ended")
            assert server.wait_until_said("has ended", BOUND) == ended
            assert one.ask("BID x 1 a 100") == "OK 1"
        assert one.finish() == []
    ran = server.ended()
    assert (ran.output, ran.errors, ran.status) == ("CLOSED 1\n", ended + has_ended(first, 1, 2, "its connection ended"), 0)


def test_a_connection_that_breaks_is_told_with_its_fault(file: Path, serve: Serve) -> None:
    server = serve(file)
    with server.connect() as client:
        assert client.ask("SHOW").startswith("ROUND 1 ")
        who, begun = peer(client), has_begun(client, 1, 1)
        reset(client)
    ran = server.ended()
    fault = has_ended(who, 1, 1, "92 stream: reading: Connection reset by peer (os error 104)")
    assert (ran.errors, ran.status) == (f"hpb: 1 of 1 places taken\n{begun}{fault}", 0)


def test_a_client_that_reads_nothing_and_goes_is_told_with_its_fault(file: Path, serve: Serve) -> None:
    """The session has an answer waiting when the connection breaks."""
    server = serve(file)
    with server.connect() as client:
        who = peer(client)
        client.socket.settimeout(1)
        with pytest.raises(TimeoutError):
            client.send(b"SHOW\n" * MANY)
        reset(client)
    ran = server.ended()
    assert ran.status == 0
    assert re.search(r"has ended: 92 stream: writing: (Connection reset by peer|Broken pipe) \(os error \d+\)\n$", ran.errors), ran
    assert f"({who})" in ran.errors.splitlines()[-1]


def test_a_line_that_is_too_long_ends_no_session_in_silence(file: Path, serve: Serve) -> None:
    """Whatever ends it, there is one line for each place at the end."""
    server = serve(file, 2)
    with server.connect() as one, server.connect() as other:
        one.send(b"x" * 1_000_000 + b"\n")
        assert one.line() == "ERR 10 line"
        assert (one.finish(), other.finish()) == ([], [])
    ended = [line for line in server.ended().errors.splitlines() if " has ended: " in line]
    assert len(ended) == 2


@pytest.fixture(scope="module")
def least(program: Program, place: Path) -> int:
    """The least `ulimit -v`, in KiB, with which so many sessions are promised."""
    file = Path(tempfile.mkdtemp(prefix="least-", dir=place)) / "F"
    assert program.format(file, text=bidders_definition(SESSIONS)).status == 0
    low, high = 1024, 1 << 20
    while high - low > STEP:
        middle = (low + high) // 2
        low, high = (low, middle) if is_promised(program, file, middle) else (middle, high)
    return high


def is_promised(program: Program, file: Path, kib: int) -> bool:
    """Whether a server says under this limit that it listens."""
    try:
        with Server(program, file, SESSIONS, conditions=NORMAL.with_memory(kib)):
            return True
    except (NotServing, OSError):
        return False


def test_sessions_that_are_promised_are_served_to_their_end(program: Program, least: int, room: Path, layout: Layout) -> None:
    """Memory may run out while they connect. Each session is answered to its end, or learns that memory was refused. No signal ends
    the program.
    """
    file = room / "F"
    assert program.format(file, layout, text=bidders_definition(SESSIONS)).status == 0
    faults = [fault for kib in range(least - 4 * STEP, least + STEPS * STEP, STEP) for fault in served_at(program, file, kib)]
    assert faults == []


def served_at(program: Program, file: Path, kib: int) -> Iterator[str]:
    """The faults, if all places are asked for under a limit of memory."""
    try:
        server = Server(program, file, SESSIONS, conditions=NORMAL.with_memory(kib))
    except NotServing as reason:
        # If it says anything but LISTENING, the harness kills it.
        if reason.ran.status not in (0, 1, -signal.SIGKILL):
            yield f"{kib} KiB, while it starts: {reason.ran}"
        return
    with server, ExitStack() as stack:
        answers = [answer(stack, server) for _ in range(SESSIONS)]
        stack.close()
        ran = server.ended()
        served = [line for line in answers if line.startswith("ROUND 1 ")]
        if ran.status not in (0, 1) or (ran.status == 0) != (len(served) == SESSIONS) or served != answers[: len(served)]:
            yield f"{kib} KiB: {len(served)} of {SESSIONS} served, {ran}"
        if ran.status == 1 and "90 memory" not in ran.errors:
            yield f"{kib} KiB: it isn't told why: {ran}"


def answer(stack: ExitStack, server: Server) -> str:
    """The answer to a client, or the reason why there is none. The client stays connected."""
    try:
        client = stack.enter_context(server.connect(BOUND))
        return client.ask("SHOW")
    except (OSError, Ended) as reason:
        return f"{type(reason).__name__}"
