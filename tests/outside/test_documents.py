"""The dumps of DEVICE, with the bytes of files."""

from __future__ import annotations

from collections.abc import Sequence
from pathlib import Path

import pytest

from harness.auctions import FIRST_ROUND, Layout, rounds, text_of
from harness.programs import Program
from outside.documents import dump_line, dumps_of, read_page

DUMPS = dumps_of(read_page("DEVICE.md"))


def image_of(program: Program, file: Path, layout: Layout, *batches: Sequence[str]) -> bytes:
    """The bytes of a file with these batches."""
    assert program.format(file, layout).status == 0
    for batch in batches:
        assert program.run_lines(file, text_of(batch), "--batch", 64).status == 0
    return file.read_bytes()


def is_dumped(image: bytes, dump: Sequence[str]) -> None:
    """Each line of a dump has the bytes of the file; `*` stands for lines that are all like the one before."""
    places = [int(line[:8], 16) if line != "*" else None for line in dump]
    for number, (line, at) in enumerate(zip(dump, places)):
        if at is not None:
            assert dump_line(image, at) == line
            continue
        before, behind = places[number - 1], places[number + 1]
        assert before is not None and behind is not None
        between = {image[place : place + 16] for place in range(before + 16, behind, 16)}
        assert between == {image[before : before + 16]}, dump[number - 1 : number + 2]


def test_there_are_five_dumps() -> None:
    assert len(DUMPS) == 5


# Of which file each dump is: its layout, and its batches.
IMAGES: list[tuple[Layout, list[Sequence[str]]]] = [
    (Layout.PAGES, []),
    (Layout.PAGES, [FIRST_ROUND[:1]]),
    (Layout.CELLS, []),
    (Layout.CELLS, [*([line] for line in FIRST_ROUND), rounds(3)]),
    (Layout.CELLS, [*([line] for line in FIRST_ROUND), rounds(3)]),
]


@pytest.mark.parametrize("number", range(5))
def test_a_dump(program: Program, room: Path, number: int) -> None:
    layout, batches = IMAGES[number]
    is_dumped(image_of(program, room / "F", layout, *batches), DUMPS[number])


def test_another_file_than_the_dumped_one_is_seen(program: Program, room: Path) -> None:
    with pytest.raises(AssertionError):
        is_dumped(image_of(program, room / "F", Layout.PAGES), DUMPS[1])
