"""Lines that are none: of a million bytes, of all bytes, in pieces. Scripts, runs and sessions answer each, and the next one, too."""

from __future__ import annotations

from collections.abc import Iterator
from pathlib import Path

import pytest

from harness.auctions import Layout, definition
from harness.notices import closes
from harness.programs import Program
from harness.serving import Serve
from outside.answering import Lines
from outside.jobs import EMPTY, FIRST_BID, ONE_BID, THREE_BIDS
from outside.lies import Liar

MILLION = 1_000_000
NO_LINE, NO_BIDDER, NO_NODE = "ERR 10 line\n", "ERR 11 bidder\n", "ERR 12 node\n"
# Bytes of which a reader may make room at a time, and the greatest length of a line.
ROOMS = (128, 256, 4096, 8192, 65_536, 131_072, MILLION)
PATIENCE = 100


# Blanks, words and bytes too many, in a number those beside the digits; and a line is judged by its form before its names.
MALFORMED = (
    b" BID x 1 a 100", b"BID x 1 a 100 ", b"BID x 1 a 100 1", b"BID x +1 a 100", b"BID x 1/ a 1000000", b"BID x 1: a 1000000",
    b"BID x 1\xb1 a 1000000", b"bid x 1 a 100", b"NODE ", b"BID q 1 e 1x",
)
# The bidder comes before the node, and both before the ticket.
WELL_FORMED = (
    (b"BID q 1 e 100", NO_BIDDER),
    (b"BID a 0 x 0", NO_BIDDER),
    (b"BID x 1 e 100", NO_NODE),
    (b"NODE a\r", NO_NODE),
    (b"BID x 0 a 123456789", "ERR 13 old\n"),
    (b"BID x 10 a 1000000", "ERR 15 gap\n"),
    (b"BID x 12345678 a 90817263", "ERR 15 gap\n"),
    (b"BID x 4294967295 a 18446744073709551615", "ERR 15 gap\n"),
)


def long_lines() -> Iterator[bytes]:
    """Each is no line. Behind the room that a reader may have stands what would be one."""
    for byte in (b"x", b"\xff", b"\0", b" ", b"0", b"\r"):
        yield byte * MILLION
    yield b"BID x 2 a 1" + b"0" * MILLION
    yield b"SHOW" * (MILLION // 4)
    for room in ROOMS:
        yield b"x" * room + b"SHOW"
        yield b"x" * (room - 1) + b"\0SHOW"
        yield b"SHOW" + b" " * room


def short_lines() -> Iterator[tuple[bytes, str]]:
    """Each with its answer: numbers that are too great, words as long as they can be, and each byte alone, in a word and behind one."""
    for line in (b"", b"BID x 4294967296 a 100", b"BID x 1 a 18446744073709551616", *MALFORMED):
        yield line, NO_LINE
    yield from WELL_FORMED
    for word, answer in ((b"WHO ", NO_BIDDER), (b"NODE ", NO_NODE)):
        longest = word.ljust(128, b"x")
        yield longest, answer
        yield longest + b"x", NO_LINE
        yield longest[:-1] + b"\0", answer
    for byte in (bytes([value]) for value in range(256) if value != ord("\n")):
        for line in (byte, b"SHOW" + byte, byte + b"SHOW", b"WHO x " + byte):
            yield line, NO_LINE
        if byte not in b" wxyz":
            yield b"WHO " + byte, NO_BIDDER
        if byte not in b" abcd":
            yield b"BID x 2 " + byte + b" 110", NO_NODE


def hostile() -> Lines:
    """Behind each line stands a bid, which is a repeat from the second time on, or a question."""
    answers = [(line, NO_LINE, FIRST_BID, "OK 1\n") for line in long_lines()]
    answers += [(line, answer, b"SHOW\n", f"{ONE_BID}\n") for line, answer in short_lines()]
    text = b"".join(line + b"\n" + behind for line, _, behind, _ in answers)
    return Lines(definition(), text, "".join(first + then for _, first, _, then in answers), 1, PATIENCE)


def of_all_bytes() -> Lines:
    """The bytes from 0 to 255 again and again."""
    text = bytes(range(256)) * (MILLION // 256) + b"\n"
    return Lines(definition(), text + FIRST_BID, NO_LINE * text.count(b"\n") + "OK 1\n", 1, PATIENCE)


def without_line_feed(last: bytes) -> Lines:
    """What stands behind the last line feed is no line."""
    return Lines(definition(), FIRST_BID + last, "OK 1\n" + NO_LINE, 1)


LINES = {
    "hostile": hostile(),
    "empty": Lines(definition(), b"\n" * MILLION + FIRST_BID, NO_LINE * MILLION + "OK 1\n", 1, PATIENCE),
    "of all bytes": of_all_bytes(),
    "a million bytes at the end": without_line_feed(b"x" * MILLION),
    "a bid at the end": without_line_feed(b"BID y 1 b 150"),
    "half a bid at the end": without_line_feed(b"BID y 1 b 1"),
    "SHOW at the end": without_line_feed(b"SHOW"),
}


@pytest.mark.parametrize("lines", LINES.values(), ids=list(LINES))
def test_a_script(program: Program, lines: Lines) -> None:
    lines.script(program)


@pytest.mark.parametrize("lines", LINES.values(), ids=list(LINES))
def test_a_run(program: Program, room: Path, layout: Layout, lines: Lines) -> None:
    lines.run(program, room / "F", layout)


@pytest.mark.parametrize("lines", LINES.values(), ids=list(LINES))
def test_a_session(program: Program, room: Path, layout: Layout, lines: Lines) -> None:
    lines.session(program, room / "F", layout)


def test_pieces_keep_nobody_waiting(program: Program, room: Path, serve: Serve) -> None:
    """A bid comes byte by byte, a line stops in a million bytes, and one in a bid."""
    assert program.format(room / "F").status == 0
    server = serve(room / "F", 4)
    slow, long, stops, other = (server.connect() for _ in range(4))
    long.send(b"x" * (MILLION // 2))
    stops.send(b"BID z 1 all 50")
    for byte in FIRST_BID[:-1]:
        slow.send(bytes([byte]))
        assert other.ask("SHOW") == EMPTY
    slow.send(FIRST_BID[-1:])
    assert slow.line() == "OK 1"
    assert other.ask("SHOW") == ONE_BID
    assert long.tell(b"x" * (MILLION // 2) + b"\nBID y 1 b 150\nSHOW") == f"{NO_LINE}OK 2\n{NO_LINE}"
    assert stops.tell(b"0\nSHOW\n") == f"OK 3\n{THREE_BIDS}\n"
    assert slow.finish() == other.finish() == []
    closes(server, 3)


def test_the_rest_of_a_line_that_is_taken_for_the_next_one_is_seen(liar: Liar, room: Path) -> None:
    with pytest.raises(AssertionError):
        LINES["hostile"].script(liar("lines"))
    with pytest.raises(AssertionError):
        LINES["hostile"].run(liar("lines"), room / "F", Layout.PAGES)
