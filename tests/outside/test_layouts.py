"""Files of both layouts of a journal: each byte, by an encoder that follows docs/FORMATS.md and docs/DEVICE.md alone, and the answers."""

from __future__ import annotations

import re
from pathlib import Path

import pytest

from harness.auctions import FIRST_ROUND, PAGE, Layout, commands, definition, rounds, text_of
from harness.notices import closes
from harness.programs import Program, format_words
from harness.serving import Server
from outside.encoder import BIDDERS, CELL, CLOSED, FRAME, HEAD_AT, JOURNAL_AT, NODES, OPEN, SLOTS, Auction, Image
from outside.jobs import EMPTY, first_shown
from outside.lies import Liar

QUESTIONS = ["SHOW", *(f"NODE {name}" for name in NODES), *(f"WHO {name}" for name in BIDDERS)]
JOURNALS = [(Layout.PAGES, journal) for journal in (4, 16, 1024)] + [(Layout.CELLS, journal) for journal in (16, 24, 64, 1024)]
# Numbers of frames that a layout can't have.
NO_JOURNALS = [(Layout.PAGES, journal) for journal in (0, 3, 1025)]
NO_JOURNALS += [(Layout.CELLS, journal) for journal in (0, 4, 8, 12, 15, 17, 20, 1020, 1025, 1032, 2**32 - 1)]
# The length of the body of a batch of 30.
BODY = {Layout.PAGES: 4080, Layout.CELLS: 1008}
WAIVERS = definition().replace(b'"nodes"', b'"waivers":2,"nodes"', 1)


def differ(some: bytes, others: bytes | bytearray) -> str:
    """The first place at which two texts of bytes differ, or their lengths."""
    if len(some) != len(others):
        return f"{len(some)} and {len(others)} bytes"
    return next((f"at {place}" for place in range(len(some)) if some[place] != others[place]), "")


def is_made(program: Program, file: Path, layout: Layout, journal: int) -> None:
    """A new file has each byte that it has to have."""
    assert program.format(file, layout, journal).told() == (f"FORMATTED {layout.pages(journal)}\n", "", 0)
    assert differ(file.read_bytes(), Image(layout, journal).bytes) == ""
    assert first_shown(program, file) == EMPTY


@pytest.mark.parametrize("layout, journal", JOURNALS)
def test_a_new_file(program: Program, room: Path, layout: Layout, journal: int) -> None:
    is_made(program, room / "F", layout, journal)


@pytest.mark.parametrize("byte", [b"\x07", OPEN], ids=["closed", "open"])
def test_a_file_of_other_bytes_is_used(program: Program, room: Path, layout: Layout, byte: bytes) -> None:
    """Bytes that no reader looks at stay, and so do gates that are closed."""
    journal = layout.least_journal
    new, wanted = Image(layout, journal), Image(layout, journal)
    wanted.put(0, byte * len(new.bytes))
    for start, end in ((0, 1), (HEAD_AT, 3 * PAGE), (SLOTS[0], SLOTS[0] + 1), (SLOTS[0] + PAGE, SLOTS[1])):
        wanted.put(start, bytes(new.bytes[start:end]))
    for gate in (SLOTS[1], *(wanted.frame(index) for index in range(journal))):
        wanted.put(gate, CLOSED if byte == OPEN else byte)
    (room / "F").write_bytes(byte * len(new.bytes))
    assert program.format(room / "F", layout, journal).status == 0
    assert differ((room / "F").read_bytes(), wanted.bytes) == ""
    assert first_shown(program, room / "F") == EMPTY


def test_16_frames_of_cells_are_77824_bytes(program: Program, room: Path) -> None:
    is_made(program, room / "F", Layout.CELLS, 16)
    assert (room / "F").stat().st_size == 77_824


@pytest.mark.parametrize("word, layout", [("1", Layout.PAGES), ("2", Layout.CELLS), ("002", Layout.CELLS)])
def test_the_number_of_a_layout(program: Program, room: Path, word: str, layout: Layout) -> None:
    ran = program.run(*format_words(room / "F", journal=16), f"--layout={word}", text=definition())
    assert ran.told() == (f"FORMATTED {layout.pages(16)}\n", "", 0)
    assert (room / "F").read_bytes()[24] == layout


@pytest.mark.parametrize("layout, journal", NO_JOURNALS)
def test_a_number_of_frames_that_a_layout_cant_have(program: Program, room: Path, layout: Layout, journal: int) -> None:
    ran = program.format(room / "F", layout, journal)
    assert (ran.output, ran.status) == ("ERR 43 length\n", 1)
    assert re.fullmatch(r"hpb: 43 length: [^\n]+--journal[^\n]*\n", ran.errors)
    assert list(room.iterdir()) == []


@pytest.mark.parametrize("word", ["0", "3", "255", "256", "two", "", "-1", "+2", "2.0"])
def test_what_is_no_layout(program: Program, room: Path, word: str) -> None:
    ran = program.run(*format_words(room / "F", journal=16), f"--layout={word}", text=definition())
    assert (ran.output, ran.errors[:7], ran.status) == ("", "error: ", 2)
    assert list(room.iterdir()) == []


def test_a_wrong_definition_comes_before_a_wrong_number(program: Program, room: Path) -> None:
    ran = program.format(room / "F", Layout.CELLS, 20, b"{}\n")
    assert (ran.output, ran.status) == ("ERR 61 field\n", 1)
    assert list(room.iterdir()) == []


@pytest.mark.parametrize("job", ["run", "check"])
def test_format_alone_has_a_layout(program: Program, room: Path, job: str) -> None:
    ran = program.run(job, "--file", room / "F", "--layout", "2")
    assert (ran.output, ran.status) == ("", 2)
    assert list(room.iterdir()) == []


# Of 19 pages of zeros: a layout with its journal, another one that doesn't fit, and one of the other layout.
ZEROS = [
    (Layout.CELLS, 16, (Layout.PAGES, 16), (Layout.PAGES, 6)),
    (Layout.PAGES, 6, (Layout.PAGES, 16), (Layout.CELLS, 16)),
]


@pytest.mark.parametrize("layout, journal, wrong, other", ZEROS, ids=["cells", "pages"])
def test_a_file_of_zeros_is_used(
    program: Program, room: Path, layout: Layout, journal: int, wrong: tuple[Layout, int], other: tuple[Layout, int]
) -> None:
    """If it has the length of the layout and the journal. Then it keeps an auction."""
    file = room / "F"
    file.write_bytes(bytes(19 * PAGE))
    ran = program.format(file, *wrong)
    assert (ran.output, ran.status) == ("ERR 43 length\n", 1)
    assert program.format(file, layout, journal).told() == ("FORMATTED 19\n", "", 0)
    assert differ(file.read_bytes(), Image(layout, journal).bytes) == ""
    kept = file.read_bytes()
    ran = program.format(file, *other)
    assert (ran.output, ran.status, file.read_bytes() == kept) == ("ERR 41 formatted\n", 1, True)


def first_round(program: Program, file: Path, layout: Layout) -> None:
    """Makes a file of 16 frames, with a batch for each of five commands."""
    assert program.format(file, layout, 16).status == 0
    assert program.run_lines(file, text_of(FIRST_ROUND), "--batch", 1).status == 0


def test_each_byte_of_batches(program: Program, room: Path, layout: Layout) -> None:
    """A batch for each of five commands, and then one of 30."""
    file, wanted, lines = room / "F", Image(layout, 16), rounds(3)
    first_round(program, file, layout)
    for index, line in enumerate(FIRST_ROUND):
        wanted.put_batch(index, index + 1, [line])
    assert differ(file.read_bytes(), wanted.bytes) == ""
    # Nothing is written into the third cell, whatever its bytes are.
    if layout is Layout.CELLS:
        wanted.put(wanted.frame(6) - CELL, b"\x77" * CELL)
        file.write_bytes(wanted.bytes)
    ran = program.run_lines(file, text_of(lines), "--batch", 64)
    assert (ran.output, ran.status) == ("".join(f"OK {number}\n" for number in range(6, 36)), 0)
    assert wanted.put_batch(5, 6, lines) == BODY[layout]
    assert differ(file.read_bytes(), wanted.bytes) == ""
    assert first_shown(program, file).endswith(" COUNT 35")


# Numbers of commands, and the bytes of the cells that a batch of these takes.
SIZES = [(1, 496), (29, 496), (30, 1008), (60, 1008), (61, 1520), (64, 1520)]


@pytest.mark.parametrize(("count", "size"), SIZES)
def test_the_cells_of_a_batch(program: Program, room: Path, count: int, size: int) -> None:
    """Behind them no byte of the frame is written."""
    wanted, lines = Image(Layout.CELLS, 16), commands(count)
    wanted.put(wanted.frame(0) + 1, b"\x5a" * (FRAME[Layout.CELLS] - 1))
    (room / "F").write_bytes(wanted.bytes)
    assert program.run_lines(room / "F", text_of(lines), "--batch", 64).status == 0
    assert wanted.put_batch(0, 1, lines) == size
    assert differ((room / "F").read_bytes(), wanted.bytes) == ""
    assert first_shown(program, room / "F").endswith(f" COUNT {count}")


def test_the_last_frame_of_the_longest_journal_and_then_its_first(program: Program, room: Path, layout: Layout) -> None:
    """The first bid is that of batch 1,023, the second that of batch 1,024."""
    wanted, auction = Image(layout, 1024), Auction()
    auction.count = 1023
    wanted.put_state(1, auction.state(1023))
    (room / "F").write_bytes(wanted.bytes)
    lines = ["BID x 1 a 100", "BID y 1 b 150"]
    ran = program.run_lines(room / "F", text_of(lines), "--batch", 1)
    assert ran.told() == ("OK 1024\nOK 1025\n", "", 0)
    for index, line in enumerate(lines, 1023):
        wanted.put_batch(index, index + 1, [line])
    assert (wanted.frame(1023) + FRAME[layout], wanted.frame(1024)) == (len(wanted.bytes), JOURNAL_AT)
    assert differ((room / "F").read_bytes(), wanted.bytes) == ""
    assert first_shown(program, room / "F").endswith(" COUNT 1025")


AT = JOURNAL_AT + 5 * FRAME[Layout.CELLS]
# Of a file of cells: the place of other bytes, these bytes, and the end of the first line that is shown then.
CHANGES = {
    "the layout, pages": (24, b"\x01", "ERR 42 layout"),
    "the layout, none": (24, b"\x03", "ERR 42 layout"),
    "the number of frames": (43, b"\x18", "ERR 42 layout"),
    "eight bytes that are zero, the last of them": (AT + CELL - 1, b"\x01", "ERR 45 frame"),
    "the index in the second cell": (AT + CELL + 7, b"\x04", "ERR 45 frame"),
    "the number of the second cell": (AT + CELL + 8, b"\x02", "ERR 45 frame"),
    "a zero behind that number": (AT + CELL + 15, b"\x01", "ERR 45 frame"),
    "the end of the second cell": (AT + 2 * CELL - 1, b"\x01", "ERR 45 frame"),
    "the gate": (AT, b"\x00", " COUNT 5"),
    "a gate that is neither open nor closed": (AT, b"\xa4", " COUNT 5"),
    "the third cell": (AT + 2 * CELL, b"\xff" * CELL, " COUNT 35"),
    "bytes behind the gate": (AT + 1, b"\xff" * 15, " COUNT 35"),
}


def test_other_bytes_of_cells(program: Program, room: Path) -> None:
    file = room / "F"
    first_round(program, file, Layout.CELLS)
    assert program.run_lines(file, text_of(rounds(3)), "--batch", 64).status == 0
    whole = file.read_bytes()
    for what, (place, other, shown) in CHANGES.items():
        file.write_bytes(whole[:place] + other + whole[place + len(other) :])
        assert first_shown(program, file).endswith(shown), what
    for size in (len(whole) - PAGE, len(whole) + PAGE):
        file.write_bytes(whole[:size].ljust(size, b"\0"))
        assert first_shown(program, file) == "ERR 42 layout"


# The same of a file of pages with the first round in its first frame. Bytes change behind the gate, in the index, in the number of the
# first command, in the number of records, and in the bidder of the first of them.
PAGES_AT = JOURNAL_AT
PAGES_CHANGES = {
    "the gate": (PAGES_AT, b"\xa4", " COUNT 0"),
    "bytes behind the gate": (PAGES_AT + 1, b"\xff" * 15, " COUNT 5"),
    "another index": (PAGES_AT + 23, b"\x04", " COUNT 0"),
    "another first command": (PAGES_AT + 31, b"\x02", "ERR 45 frame"),
    "a record too many": (PAGES_AT + 33, b"\x41", "ERR 45 frame"),
    "an unknown bidder": (PAGES_AT + 41, b"\x04", "ERR 45 frame"),
}


def test_other_bytes_of_pages(program: Program, room: Path) -> None:
    image = Image(Layout.PAGES, 4)
    image.put_batch(0, 1, FIRST_ROUND)
    for what, (place, other, shown) in PAGES_CHANGES.items():
        whole = bytes(image.bytes)
        (room / "F").write_bytes(whole[:place] + other + whole[place + len(other) :])
        assert first_shown(program, room / "F").endswith(shown), what


LINES = [*FIRST_ROUND, "BID x 1 a 100", "BID q 1 a 100", "", *rounds(7, 2), "STAGE 9", *QUESTIONS]


@pytest.mark.parametrize("batch, every", [(1, 0), (1, 3), (8, 0), (64, 0), (64, 1)])
def test_both_layouts_answer_runs_alike(program: Program, room: Path, batch: int, every: int) -> None:
    found = []
    for layout in Layout:
        file = room / layout.name
        assert program.format(file, layout, text=WAIVERS).status == 0
        ran = program.run_lines(file, text_of(LINES), "--batch", batch, "--every", every)
        found.append((ran.told(), program.check(file).output))
    assert found[0] == found[1]
    assert found[0][0][0].count("\n") == len(LINES)


def test_both_layouts_answer_sessions_alike(program: Program, room: Path) -> None:
    found = []
    for layout in Layout:
        file = room / layout.name
        assert program.format(file, layout, text=WAIVERS).status == 0
        with Server(program, file) as server:
            session = server.connect()
            answers = [session.ask(line) for line in LINES]
            assert session.finish() == []
            closes(server, sum(answer.startswith("OK ") for answer in answers) - 1)
        found.append((answers, program.check(file).output))
    assert found[0] == found[1]


@pytest.mark.parametrize("lie", ["wrong", "ill", "blamed"])
def test_another_file_is_seen(liar: Liar, room: Path, lie: str) -> None:
    with pytest.raises(AssertionError):
        is_made(liar(lie), room / "F", Layout.CELLS, 16)


def test_another_byte_is_seen(program: Program, room: Path) -> None:
    is_made(program, room / "F", Layout.PAGES, 4)
    changed = Image(Layout.PAGES, 4)
    changed.put(16, b"\x49")
    assert differ((room / "F").read_bytes(), changed.bytes) == "at 16"
