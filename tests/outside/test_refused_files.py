"""Files that are refused, and the message about each: of the wrong length, damaged, formatted already, none at all."""

from __future__ import annotations

import os
from collections.abc import Sequence
from pathlib import Path

import pytest

from harness.auctions import EXAMPLES, PAGE, Layout
from harness.programs import Program, Ran
from harness.serving import free_port
from harness.users import User
from outside.lies import Liar
from outside.texts import COAST, COPY, UNFORMATTED, refused

OF_PAGES, OF_CELLS = "from 4 to 1,024 frames", "from 16 to 1,024 frames, in eights"
TOO_LONG = (1 << 26) + 1
# The least length of a file, in pages.
LEAST = 17
NONE_THERE = "name a file that isn't there"
OWNERS_ALONE = 0o600

# A journal that can't be, its layout, those that can be, the nearest one, and the pages that it makes.
JOURNALS = [
    (0, Layout.PAGES, OF_PAGES, 4, 17),
    (3, Layout.PAGES, OF_PAGES, 4, 17),
    (1025, Layout.PAGES, OF_PAGES, 1024, 1037),
    (4294967295, Layout.PAGES, OF_PAGES, 1024, 1037),
    (0, Layout.CELLS, OF_CELLS, 16, 19),
    (12, Layout.CELLS, OF_CELLS, 16, 19),
    (20, Layout.CELLS, OF_CELLS, 24, 22),
    (1025, Layout.CELLS, OF_CELLS, 1024, 397),
    (4294967288, Layout.CELLS, OF_CELLS, 1024, 397),
]


def refuses_journal(program: Program, file: Path, asked: tuple[int, Layout, str, int, int]) -> None:
    """A journal that can't be is refused with the nearest that can, and no file is made."""
    journal, layout, possible, nearest, pages = asked
    of = "" if layout is Layout.PAGES else " --layout 2"
    said = f"--journal {journal}{of} can't be: such a journal has {possible}. --journal {nearest}{of} can, and makes a file of"
    assert program.format(file, layout, journal, COAST).told() == refused("43 length", f"{said} {pages} pages")
    assert not file.exists()


@pytest.mark.parametrize("asked", JOURNALS, ids=[f"{journal}-{layout.name.lower()}" for journal, layout, *_ in JOURNALS])
def test_a_journal_that_cant_be(program: Program, room: Path, asked: tuple[int, Layout, str, int, int]) -> None:
    refuses_journal(program, room / "F", asked)


# The length of a file that keeps nothing, the words of its journal, and the message about it.
LENGTHS = [
    (18 * PAGE, "4", f"has 18 pages, and --journal 4 wants 17: give --journal 5, or {NONE_THERE}"),
    (19 * PAGE, "24 --layout 2", f"has 19 pages, and --journal 24 --layout 2 wants 22: give --journal 16 --layout 2, or {NONE_THERE}"),
    (18 * PAGE, "16 --layout 2", f"has 18 pages, and --journal 16 --layout 2 wants 19: give --journal 5, or {NONE_THERE}"),
    (PAGE, "4", f"has 1 page, and --journal 4 wants 17: {NONE_THERE}"),
    (17 * PAGE + 1, "4", f"has 69633 bytes, which are no whole pages, and --journal 4 wants 17: {NONE_THERE}"),
]


@pytest.mark.parametrize("length, words, said", LENGTHS, ids=[f"{length}-{words}" for length, words, _ in LENGTHS])
def test_a_file_of_another_length_that_keeps_nothing(program: Program, room: Path, length: int, words: str, said: str) -> None:
    file = room / "F"
    file.write_bytes(bytes(length))
    ran = program.run("format", "--file", file, "--journal", *words.split(), text=COAST)
    assert ran.told() == refused("43 length", f"{file} is there and {said}")


def wrong_lengths(file: Path, pages: int, journal: str) -> list[tuple[int, str, str]]:
    """Wrong lengths of a file of so many pages, each with the number of its refusal and the message."""
    longer = (
        f"it was made longer. Copy it, cut it by `truncate -s {pages * PAGE} {file}`, and see it by `hpb check --file {file}`; "
        "if it is refused still, go back to your newest backup"
    )
    cut = "it was cut. Leave it as it is, and go back to your newest backup"
    by_head, none = f"and by its head {pages} ({journal})", f"{file} keeps no auction"
    return [
        (pages * PAGE + PAGE, "42 layout", f"{file} has {pages + 1} pages, {by_head}: {longer}"),
        (pages * PAGE - PAGE, "42 layout", f"{file} has {pages - 1} pages, {by_head}: {cut}"),
        (
            LEAST * PAGE - 1,
            "40 unformatted",
            f"{none}: it has 69631 bytes, which are no whole pages, and one that does has 17 at least. {UNFORMATTED}",
        ),
        (PAGE, "40 unformatted", f"{none}: it has 1 page, and one that does has 17 at least. {UNFORMATTED}"),
        (0, "40 unformatted", f"{none}: it is empty. {UNFORMATTED}"),
    ]


@pytest.mark.parametrize("which", range(5), ids=["page more", "page less", "byte less", "page", "empty"])
@pytest.mark.parametrize("journal, pages", [("--journal 8", 21), ("--journal 16 --layout 2", 19)], ids=["pages", "cells"])
def test_an_auction_whose_length_changed(program: Program, room: Path, journal: str, pages: int, which: int) -> None:
    file = room / "F"
    made = program.run("format", "--file", file, *journal.split(), text=COAST)
    assert made.told() == (f"FORMATTED {pages}\n", "", 0)
    length, number, said = wrong_lengths(file, pages, journal)[which]
    file.write_bytes(file.read_bytes()[:length].ljust(length, b"\0"))
    assert program.check(file).told() == refused(number, said)


def test_a_head_of_the_other_layout(program: Program, room: Path) -> None:
    file = room / "F"
    assert program.format(file, Layout.CELLS, text=COAST).output == "FORMATTED 19\n"
    whole = file.read_bytes()
    file.write_bytes(whole[:24] + b"\1" + whole[25:])
    said = f"{file} has 19 pages, and by its head 29 (--journal 16): it was cut. Leave it as it is, and go back to your newest backup"
    assert program.check(file).told() == refused("42 layout", said)


def test_a_folder_is_no_file(program: Program) -> None:
    assert program.check(EXAMPLES).told() == refused("91 device", f"{EXAMPLES} is no regular file: name one")


def test_a_file_that_is_too_long(program: Program, room: Path) -> None:
    file = room / "F"
    file.touch()
    os.truncate(file, TOO_LONG)
    assert program.check(file).told() == refused("91 device", f"{file} is longer than any file of an auction: name another")


# Files by the name under which F is made first: the bytes, the mode, and the message.
BESIDE = [
    (b"x", 0o644, "is there, by which name {0} is made first: if no other hpb makes it now, give that one another name"),
    (b"", 0o620, "may be written by others, and {0} is made by that name first: if no other hpb makes it now, give that one another name"),
]


@pytest.mark.parametrize("data, mode, said", BESIDE, ids=["another file", "one that others may write"])
def test_what_stands_where_a_file_is_made_first(program: Program, room: Path, data: bytes, mode: int, said: str) -> None:
    file, beside = room / "F", room / "F.new"
    beside.write_bytes(data)
    beside.chmod(mode)
    ran = program.format(file, text=COAST)
    assert ran.told() == refused("91 device", f"{beside} {said.format(file)}")
    assert (beside.read_bytes(), file.exists()) == (data, False)


@pytest.mark.as_root
def test_what_is_another_users(program: Program, room: Path, nobody: User) -> None:
    file, beside = room / "F", room / "F.new"
    beside.touch(OWNERS_ALONE)
    nobody.own(beside)
    said = f"{beside} is another user's, and {file} is made by that name first: name a file in a folder that only you may write"
    assert program.format(file, text=COAST).told() == refused("91 device", said)
    beside.rename(file)
    said = f"{file} is another user's, who could change the auction: name a file that isn't there, in a folder that only you may write"
    assert program.format(file, text=COAST).told() == refused("91 device", said)


def test_an_own_rest_is_used(program: Program, room: Path) -> None:
    """The file is its owner's alone, whatever the mask is."""
    beside = room / "F.new"
    beside.touch()
    beside.chmod(0o644)
    mask = os.umask(0o277)
    try:
        assert program.format(room / "F", text=COAST).told() == ("FORMATTED 17\n", "", 0)
    finally:
        os.umask(mask)
    assert not beside.exists()
    assert (room / "F").stat().st_mode & 0o7777 == OWNERS_ALONE


@pytest.fixture
def file(program: Program, room: Path) -> Path:
    """A new auction of the coast: no frame of its journal has a batch."""
    assert program.format(room / "F", text=COAST).told() == ("FORMATTED 17\n", "", 0)
    return room / "F"


def damage(file: Path, at: int, byte: int) -> None:
    """Another byte stands there."""
    data = bytearray(file.read_bytes())
    data[at] = byte
    file.write_bytes(data)


def test_a_file_that_is_formatted(program: Program, file: Path) -> None:
    said = f"{file} keeps an auction already, and nothing was changed: see it by `hpb check --file {file}`, or name another file"
    assert program.format(file, text=COAST).told() == refused("41 formatted", said)


LONGER = "17 pages, and --journal 64 wants 77"
NOBODYS = "{0} is there and has " + LONGER + ": give --journal 4, or name a file that isn't there"
SOMEBODYS = (
    "{0} keeps an auction already, and nothing was changed: it has " + LONGER + ". See it by `hpb check --file {0}`, or name another file"
)


@pytest.mark.parametrize(
    "at, byte, said",
    [(0, 0, NOBODYS), (60, 0xFF, SOMEBODYS), (60, None, SOMEBODYS)],
    ids=["a rest of format", "a damaged head", "a whole file"],
)
def test_a_longer_journal_than_the_files(program: Program, file: Path, at: int, byte: int | None, said: str) -> None:
    """What a format left that was stopped is nobody's auction, and a damaged head is somebody's."""
    if byte is not None:
        damage(file, at, byte)
    assert program.format(file, journal=64, text=COAST).told() == refused("43 length", said.format(file))


COMMANDS = ["check", "run", "serve"]


def run_command(program: Program, command: str, file: Path) -> Ran:
    """One of them on a file, with a question as its text."""
    more: Sequence[object] = ["--port", free_port(), "--sessions", 1] if command == "serve" else []
    return program.run(command, "--file", file, *more, text=b"SHOW\n")


@pytest.mark.parametrize("command", COMMANDS)
def test_no_file(program: Program, room: Path, command: str) -> None:
    system = "could not be opened: No such file or directory (os error 2): see that its path is right. Only `hpb format` makes a file"
    assert run_command(program, command, room / "F").told() == refused("91 device", f"{room / 'F'} {system}")


# The place of a damaged byte, its value, the number of the refusal, and the message.
DAMAGES = [
    (0, 0, "40 unformatted", "{0} keeps no auction: it doesn't begin as one that does. " + UNFORMATTED),
    (24, 9, "42 layout", "the head of {0} is damaged, and the file has 17 pages: " + COPY),
    (3 * PAGE, 0, "44 checkpoint", "{0} has no whole checkpoint, which no power cut does to it: " + COPY),
    (13 * PAGE, 0xA5, "45 frame", "a batch in the journal of {0} is damaged, which no power cut does to it: " + COPY),
]


@pytest.mark.parametrize("command", COMMANDS)
@pytest.mark.parametrize("at, byte, number, said", DAMAGES, ids=[number for _, _, number, _ in DAMAGES])
def test_a_damaged_file(program: Program, file: Path, command: str, at: int, byte: int, number: str, said: str) -> None:
    damage(file, at, byte)
    assert run_command(program, command, file).told() == refused(number, said.format(file))


@pytest.mark.parametrize("lie", ["wrong", "silent", "well"])
def test_other_refusals_are_seen(liar: Liar, room: Path, lie: str) -> None:
    with pytest.raises(AssertionError):
        refuses_journal(liar(lie), room / "F", JOURNALS[0])
    with pytest.raises(AssertionError):
        test_no_file(liar(lie), room, "check")
