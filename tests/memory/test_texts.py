"""Scripts, refused definitions, words of the command line and lines, with each request for memory refused in turn."""

from __future__ import annotations

import os
import subprocess
from functools import partial
from pathlib import Path

import pytest

from harness.auctions import EXAMPLES, definition
from harness.fixtures import Companion
from harness.programs import Program
from harness.refusals import Refusals, each
from memory.endings import Whole, ending

SCRIPTS = ("package-beats-parts", "prices-of-the-package", "malformed-lines", "refused-bids", "stages", "waivers-at-work")
DEFINITIONS = sorted((EXAMPLES / "refused-definitions").glob("*.txt"))
WORDS = (["--help"], ["format", "--help"], ["check", "--help"], ["run", "--help"], ["serve", "--help"], ["--version"], ["bogus"])
LINES = b"BID x 1 a 100\nSHOW\nCLOSE 1\nNODE a\nWHO x\n"
# A program that answers lines has a status for each fault of its streams.
READER_FAILED, WRITER_FAILED = 2, 3


def goes_through(program: Program, refusals: Refusals, room: Path, words: list[str], text: bytes = b"") -> None:
    """AssertionError if a run in which one request is refused ends in another way than it may."""
    whole = Whole(refusals.run(program, words, room, text=text))
    requests = range(1, whole.tried.requests + 1)
    assert requests
    found = each(room, requests, lambda number, folder: refusals.run(program, words, folder, number, text))
    assert [(number, ending(tried)) for number, tried in zip(requests, found) if not whole.allows(tried)] == []


@pytest.mark.parametrize("name", SCRIPTS)
def test_scripts(program: Program, refusals: Refusals, room: Path, name: str) -> None:
    goes_through(program, refusals, room, [], (EXAMPLES / f"{name}.txt").read_bytes())


@pytest.mark.parametrize("path", DEFINITIONS, ids=[path.stem for path in DEFINITIONS])
def test_refused_definitions(program: Program, refusals: Refusals, room: Path, path: Path) -> None:
    goes_through(program, refusals, room, [], path.read_bytes())


@pytest.mark.parametrize("words", WORDS, ids=" ".join)
def test_words(program: Program, refusals: Refusals, room: Path, words: list[str]) -> None:
    goes_through(program, refusals, room, words)


def test_a_word_that_is_no_text(program: Program) -> None:
    ran = program.run(b"\xff")
    assert (ran.status, ran.output) == (2, "") and ran.errors


def test_a_session_takes_no_memory(program: Program, refusals: Refusals, room: Path) -> None:
    """It makes as many requests for one question as for 4,000."""
    few, many = (refusals.run(program, [], room, text=definition() + b"SHOW\n" * count) for count in (1, 4000))
    assert (few.status, many.status) == (0, 0)
    assert few.requests == many.requests


@pytest.mark.parametrize("name", SCRIPTS)
def test_scripts_of_the_library(companion: Companion, refusals: Refusals, room: Path, name: str) -> None:
    goes_through(companion("hpb_test_memory"), refusals, room, [], (EXAMPLES / f"{name}.txt").read_bytes())


@pytest.mark.parametrize("path", DEFINITIONS, ids=[path.stem for path in DEFINITIONS])
def test_refused_definitions_of_the_library(companion: Companion, refusals: Refusals, room: Path, path: Path) -> None:
    goes_through(companion("hpb_test_memory"), refusals, room, [], path.read_bytes())


def test_lines_of_the_library(companion: Companion, refusals: Refusals, room: Path) -> None:
    goes_through(companion("hpb_test_memory"), refusals, room, ["lines"], LINES)


@pytest.mark.parametrize(("descriptor", "status"), [(0, READER_FAILED), (1, WRITER_FAILED)], ids=["input", "output"])
def test_closed_streams_of_the_library(companion: Companion, descriptor: int, status: int) -> None:
    """A stream that fails isn't taken for memory."""
    with open(EXAMPLES / "stages.txt", "rb") as text:
        ran = subprocess.run([companion("hpb_test_memory").path], stdin=text, capture_output=True, preexec_fn=partial(os.close, descriptor), timeout=20)
    assert ran.returncode == status
