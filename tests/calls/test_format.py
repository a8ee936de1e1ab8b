"""Each call of `format` of a new file, of an existing one, and of one that is refused."""

from __future__ import annotations

import os
from pathlib import Path

import pytest

from calls.watched import Watched, holds_calls
from harness.auctions import PAGE, Layout, definition
from harness.file_calls import REFUSED, Recorder
from harness.programs import Program, format_words
from harness.serving import Server
from outside.encoder import OPEN


@pytest.mark.parametrize("journal", [None, 24], ids=["least", "24"])
def test_new_files(program: Program, recorder: Recorder, layout: Layout, journal: int | None) -> None:
    watched = Watched(program, recorder, layout, journal, waivers=4 if journal else layout.least_journal)
    watched.engine.make_file()
    watched.engine.format()
    watched.ends(watched.formatted)
    watched.formats(watched.formatted)


@pytest.mark.parametrize("part", [b"\0\0\0\0", OPEN * 4, b"\x01hpb"], ids=["zeros", "gates", "text"])
def test_files_of_something_else(watched: Watched, part: bytes) -> None:
    watched.hold(part * (len(watched.engine.image) // len(part)))
    watched.takes()
    watched.engine.format()
    watched.ends(watched.formatted)
    watched.formats(watched.formatted)


def test_fewer_zeros_that_a_killed_process_left(watched: Watched) -> None:
    watched.file.with_name("F.new").write_bytes(bytes(PAGE))
    watched.engine.make_file(left=PAGE)
    watched.engine.format()
    watched.ends(watched.formatted)
    watched.formats(watched.formatted)


def test_both_names_that_a_killed_process_left(watched: Watched) -> None:
    watched.hold(bytes(len(watched.engine.image)))
    os.link(watched.file, watched.file.with_name("F.new"))
    watched.takes()
    watched.engine.ask("unlink", of="file beside")
    watched.engine.format()
    watched.ends(watched.formatted)
    watched.formats(watched.formatted)


def test_a_name_without_a_folder(watched: Watched) -> None:
    """The folder in which the program runs is synced."""
    watched.engine.make_file()
    watched.engine.format()
    watched.ends(watched.formatted)
    bare, conditions = Path(watched.file.name), watched.recorder.conditions().within(watched.file.parent)
    watched.program.run(*format_words(bare, watched.layout), text=definition(), conditions=conditions)
    holds_calls(watched.recorder.calls(bare), watched.engine.taken())


@pytest.fixture
def formatted(program: Program, recorder: Recorder, layout: Layout) -> Watched:
    """A new file of 24 frames whose bidders have waivers."""
    return Watched(program, recorder, layout, 24, waivers=4).make()


def test_a_formatted_file_is_refused(formatted: Watched) -> None:
    formatted.takes()
    assert not formatted.engine.format()
    formatted.ends("ERR 41 formatted\n")
    formatted.formats("ERR 41 formatted\n")


def test_a_file_of_another_length_is_refused(formatted: Watched) -> None:
    formatted.takes()
    formatted.engine.ask("close")
    formatted.engine.looks()
    formatted.engine.put(b"ERR 43 length\n")
    formatted.formats("ERR 43 length\n", 32)


def test_a_journal_that_no_layout_has_is_refused(formatted: Watched) -> None:
    formatted.engine.put(b"ERR 43 length\n")
    formatted.formats("ERR 43 length\n", 2000)


@pytest.mark.parametrize(("job", "access", "lock"), [("check", "to read", "shared"), ("run", "to read and write", "alone")])
def test_nothing_is_read_of_a_file_in_use(formatted: Watched, job: str, access: str, lock: str) -> None:
    with Server(formatted.program, formatted.file):
        formatted.engine.ask("open", how=access)
        formatted.engine.ask("lock", how=lock, fault=REFUSED)
        formatted.ends("ERR 91 device\n")
        _, found = formatted.run(job, "--file", formatted.file)
        formatted.holds(found)
