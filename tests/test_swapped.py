"""A file that somebody replaces by another one while `serve` opens it, before each call that names it."""

from __future__ import annotations

from collections.abc import Callable
from pathlib import Path

from harness.auctions import Layout
from harness.conditions import NORMAL
from harness.programs import Program
from harness.serving import NotServing, Serve

SOURCE = Path(__file__).with_name("swap.c")
# The calls that name the file look at streams, open the file, watch it and compare both. There are fewer than the greatest number.
LEAST_CALLS, MOST_CALLS = 3, 20
BID = "BID x 1 a 100"


def test_what_is_accepted_is_in_the_file_or_it_is_said_that_it_is_not(
    program: Program, room: Path, layout: Layout, serve: Serve, library: Callable[[Path], Path]
) -> None:
    loaded = library(SOURCE)
    refused = 0
    for number in range(1, MOST_CALLS):
        file, other = room / f"F{number}", room / f"G{number}"
        for made in (file, other):
            assert program.format(made, layout).status == 0
        conditions = NORMAL.with_library(loaded, SWAPPED=str(file), SWAPPED_BY=str(other), SWAP_AT=str(number))
        try:
            server = serve(file, conditions=conditions)
        except NotServing as reason:
            # The path now leads to another file than the opened one.
            assert (reason.ran.output, other.exists()) == ("ERR 91 device", False), reason.ran
            assert program.count(file) == 0
            refused += 1
            continue
        was_swapped = not other.exists()
        with server.connect() as client:
            assert client.ask(BID) == "OK 1"
            assert client.finish() == []
        ran = server.ended()
        assert ran.output == "CLOSED 1\n", ran
        assert program.count(file) == 1 or "no name" in ran.errors, ran
        if not was_swapped:
            # There are no more calls that name the file.
            assert number > LEAST_CALLS and refused
            return
    raise AssertionError(f"more than {MOST_CALLS} calls name the file")
