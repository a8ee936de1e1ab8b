"""The making of a file is stopped, or others make it at the same time: the same words make it afterwards, and nothing else is left."""

from __future__ import annotations

import random
import subprocess
import time
from collections.abc import Callable
from pathlib import Path

import pytest

from harness.auctions import PAGE, Layout, definition
from harness.programs import Program, format_words, shown
from harness.streams import opened
from harness.tracing import can_trace, killed_at
from outside.jobs import EMPTY, FIRST_BID
from outside.lies import Liar

# Side by side each takes one stop of so many.
SLICES = 4
# More stops than the making of a file has, and fewer.
MOST_STOPS, LEAST_STOPS = 4000, 20
# A journal that takes some time to be made.
LONG = 1024
SEED, SECONDS = 7, 20
REFUSED = {"ERR 41 formatted\n", "ERR 43 length\n", "ERR 91 device\n"}


def names_in(folder: Path) -> list[str]:
    return sorted(path.name for path in folder.iterdir())


def makes_again(program: Program, room: Path, layout: Layout, journal: int) -> None:
    """The same words make the file, or find it made; then it keeps an auction, and there is nothing beside it."""
    ran = program.format(room / "F", layout, journal)
    assert (ran.output, ran.status) in [(f"FORMATTED {layout.pages(journal)}\n", 0), ("ERR 41 formatted\n", 1)], ran
    assert names_in(room) == ["F"]
    assert program.check(room / "F").lines()[0] == EMPTY


def is_stopped(program: Program, room: Path, layout: Layout, stop: int) -> bool:
    """Whether there is such a stop. What it leaves has known names, and a file that has its own name has its length."""
    room.mkdir()
    text = room.with_name("definition")
    text.write_bytes(definition())
    if not killed_at(program, stop, format_words(room / "F", layout), text):
        return False
    assert set(names_in(room)) <= {"F", "F.new"}
    journal = layout.least_journal
    assert not (room / "F").exists() or (room / "F").stat().st_size == layout.pages(journal) * PAGE
    makes_again(program, room, layout, journal)
    return True


@pytest.mark.parametrize("first", range(1, SLICES + 1))
def test_stopped_at_each_call(program: Program, room: Path, layout: Layout, first: int, lack: Callable[[object], None]) -> None:
    """Of the system, before and behind it."""
    if not can_trace():
        lack("calls of the system can't be seen here")
    stops = range(first, MOST_STOPS, SLICES)
    made = next((stop for stop in stops if not is_stopped(program, room / str(stop), layout, stop)), MOST_STOPS)
    assert LEAST_STOPS < made < MOST_STOPS - SLICES


@pytest.mark.parametrize("number", range(12))
def test_stopped_after_some_time(program: Program, room: Path, number: int) -> None:
    """The making of a long file, once or twice."""
    dice, made = random.Random(f"{SEED} {number}"), room / "made"
    made.mkdir()
    (room / "definition").write_bytes(definition())
    whole = program.format(room / "whole", journal=LONG).seconds
    for _ in range(dice.choice([1, 1, 2])):
        with opened(room / "definition") as text:
            process = program.start(*format_words(made / "F", journal=LONG), input=text, errors=subprocess.DEVNULL)
        time.sleep(dice.uniform(0, 1.1 * whole))
        process.kill()
        process.communicate()
    makes_again(program, made, Layout.PAGES, LONG)


def make_together(program: Program, room: Path, count: int) -> None:
    """Some make one file at the same time: one of them does."""
    (room / "definition").write_bytes(definition())
    made = room / "made"
    made.mkdir()
    with opened(room / "definition") as first, opened(room / "definition") as second, opened(room / "definition") as third:
        texts = (first, second, third)[:count]
        makers = [program.start(*format_words(made / "F"), input=text, errors=subprocess.DEVNULL) for text in texts]
        answers = [shown(maker.communicate(timeout=SECONDS)[0]) for maker in makers]
    assert answers.count("FORMATTED 17\n") == 1
    assert {answer for answer in answers if answer != "FORMATTED 17\n"} <= REFUSED
    assert names_in(made) == ["F"]
    assert program.check(made / "F").lines()[0] == EMPTY


@pytest.mark.parametrize("count", [2, 3])
def test_made_at_the_same_time(program: Program, room: Path, count: int) -> None:
    for number in range(30):
        folder = room / str(number)
        folder.mkdir()
        make_together(program, folder, count)


def test_a_file_that_keeps_an_auction_is_not_written_over(program: Program, room: Path) -> None:
    assert program.format(room / "F").status == program.run_lines(room / "F", FIRST_BID).status == 0
    kept = (room / "F").read_bytes()
    ran = program.format(room / "F")
    assert (ran.output, ran.status, (room / "F").read_bytes() == kept) == ("ERR 41 formatted\n", 1, True)
    assert names_in(room) == ["F"]


@pytest.mark.parametrize("size", [0, 5, PAGE])
def test_no_other_file_is_written_over(program: Program, room: Path, size: int) -> None:
    (room / "F").write_bytes(b"x" * size)
    ran = program.format(room / "F")
    assert (ran.output, ran.status, (room / "F").read_bytes()) == ("ERR 43 length\n", 1, b"x" * size)
    assert names_in(room) == ["F"]


@pytest.mark.parametrize("lie", ["wrong", "ill"])
def test_another_answer_is_seen(liar: Liar, room: Path, lie: str) -> None:
    with pytest.raises(AssertionError):
        makes_again(liar(lie), room, Layout.PAGES, 4)
