"""Pages of `tools/report`, from the beginning of an auction to its end, by what the program shows of the same file."""

from __future__ import annotations

import random
import re
from collections import Counter
from collections.abc import Iterable
from pathlib import Path

import pytest
from harness.auctions import EXAMPLES, PAGE, Layout, definition, greatest_definition, long_name, text_of
from harness.markup import picture_kind
from harness.programs import Program
from reports import EFFECT, NOW, Told, copy_run, look_at_page, read_page

SCRIPTS = sorted(EXAMPLES.glob("*.txt"))
BOTH = list(Layout)
# The fields of docs/FORMATS.md, of a state in the first slot.
STATE = 4 * PAGE
COUNT = STATE + 8
MOST_COMMANDS = 1_000_000


@pytest.mark.parametrize(("number", "script"), enumerate(SCRIPTS), ids=[script.stem for script in SCRIPTS])
def test_each_example_from_its_beginning_to_its_end(program: Program, memory: Path, number: int, script: Path) -> None:
    """In both layouts in turn, after each close, stage and waiver."""
    text, *lines = script.read_bytes().splitlines(keepends=True)
    file = program.keep(memory / "F", (), text, BOTH[number % 2])
    marks = sorted({0, len(lines), *(at for at, line in enumerate(lines, 1) if line.startswith((b"CLOSE", b"STAGE", b"WAIVE")))})
    for before, mark in zip([0, *marks], marks):
        program.run_lines(file, b"".join(lines[before:mark]))
        look_at_page(program, file)


# Each kind of what a close leaves, and of what an auction is.
KINDS = {"keeps n", "keeps n by its own waiver", "keeps n, a waiver is taken", "falls to n", "over", "ends", "goes on"}


@pytest.mark.timeout(300)
def test_random_auctions(program: Program, memory: Path) -> None:
    """Bids, waivers, stages and closes by dice, some of which are refused. Each kind is met."""
    seen = Counter[str]()
    for seed in range(4):
        dice = random.Random(seed)
        file, lines = program.keep(memory / f"seed-{seed}", (), definition(waivers=seed), Layout.CELLS), list[str]()
        for _ in range(12):
            program.run_lines(file, text_of(lines))
            found, told = look_at_page(program, file)
            lines = [random_line(dice, told) for _ in range(dice.randrange(5))]
            seen.update(re.sub("[0-9]+", "n", row.get(EFFECT, "over")) for row in found.tables[NOW])
            seen["ends" if told.ends else "goes on"] += 1
    assert KINDS - seen.keys() == set()


def random_line(dice: random.Random, told: Told) -> str:
    """Its ticket is mostly the next one."""
    now, node = dice.choice(told.whos), dice.choice([*told.nodes.values()])
    bidder, ticket, other = now[1], int(now[7]) + (dice.random() < 0.9), int(told.shown[1]) + int(told.shown[3]) - 1
    bid = f"BID {bidder} {ticket} {node[1]} {int(node[8]) + 10 * dice.randrange(-1, 30)}"
    return dice.choice([bid] * 4 + [f"WAIVE {bidder} {ticket}"] * 2 + [f"CLOSE {other}", f"STAGE {other}"])


@pytest.mark.parametrize("most", [900, 10**12], ids=["small", "great"])
def test_the_greatest_auction(program: Program, memory: Path, most: int) -> None:
    file = program.keep(memory / "F", (), greatest_definition(), journal=64)
    look_at_page(program, file)
    dice = random.Random(5)
    amounts = [(long_name("n", dice.randrange(127)), max(6400, dice.randrange(0, most, 10))) for _ in range(64)]
    bids = [f"BID {long_name('b', place)} 1 {node} {amount}" for place, (node, amount) in enumerate(amounts)]
    ran = program.run_lines(file, text_of([*bids, "CLOSE 1", f"WAIVE {long_name('b', 0)} 2"]), "--batch", 64)
    assert ran.lines() == [f"OK {number}" for number in range(1, 67)]
    found, _ = look_at_page(program, file)
    assert len({picture_kind(picture) for picture in found.pictures}) == 1


def put(file: Path, parts: Iterable[tuple[int, bytes]]) -> None:
    image = bytearray(file.read_bytes())
    for at, part in parts:
        image[at : at + len(part)] = part
    file.write_bytes(image)


def test_after_the_last_of_all_commands_nothing_is_shown_of_a_close(program: Program, memory: Path) -> None:
    """Its count is put into the state in its slot: after 1,000,000 commands a close is refused too."""
    file = program.keep(memory / "F")
    put(file, [(COUNT, MOST_COMMANDS.to_bytes(4, "big"))])
    assert program.count(file) == MOST_COMMANDS
    assert copy_run(program, file, ["CLOSE 1"]) == ["ERR 26 limit"]
    found = read_page(program, file)
    assert [notice[:31] for notice in found.notices()] == ["Nothing is accepted any more, a"]
    assert EFFECT not in found.tables[NOW][0]


@pytest.mark.parametrize("waivers", [0, 20])
@pytest.mark.parametrize("layout", BOTH)
def test_the_pages_of_files_with_and_without_waivers(program: Program, memory: Path, layout: Layout, waivers: int) -> None:
    look_at_page(program, program.keep(memory / "F", (), definition(waivers), layout))


@pytest.mark.parametrize("layout", BOTH)
def test_the_page_of_a_file_of_the_first_format_of_states(program: Program, memory: Path, layout: Layout) -> None:
    """By docs/FORMATS.md: byte 25 of the head, and the first byte of the state, are 1."""
    file = program.keep(memory / "F", (), None, layout)
    put(file, [(25, b"\1"), (STATE, b"\1")])
    assert program.count(file) == 0
    look_at_page(program, file)
