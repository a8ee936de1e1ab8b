"""Words of a command line: messages about wrong ones and about values that are refused, and help."""

from __future__ import annotations

import unicodedata

import pytest

from harness.programs import Program
from outside.lies import Liar

VERSION = "hpb 0.1.0\nrattle-kit-13f logic dac8208d650f15bf\n"
# Characters that can't be seen as they are, and how each is shown: those that end a line or a word, and those that turn it round.
CONTROLS = {"\n": "\\n", "\t": "\\t", **{letter: f"\\u{{{ord(letter):x}}}" for letter in "\x1b\x7f\x9b\u202e\u2028\u200b"}}
UNSEEN = (
    "\u061c\u200b\u200c\u200d\u200e\u200f\u2028\u2029\u202a\u202b\u202c\u202d\u202e\u2060\u2066\u2067\u2069\ufeff"
)
# Wrong words; in place of @ a letter is put in.
WRONG = [
    ["zz@z"],
    ["--zz@z"],
    ["check", "--zz@z"],
    ["check", "--file", "f", "@"],
    ["format", "--file", "f", "--journal", "@4"],
    ["run", "--file", "f", "--batch", "6@5"],
    ["serve", "--file", "f", "--sessions", "1", "--port", "50@0"],
]
PLAIN = "qzq"
USAGES = [
    "Usage: hpb < SCRIPT",
    "hpb format --file F --journal J [--layout 1|2] < DEFINITION",
    "hpb run --file F [--batch N] [--every K] < LINES",
    "hpb check --file F",
    "hpb serve --file F --port P --sessions N",
]
LINES = [
    "BID bidder ticket node amount",
    "WAIVE bidder ticket",
    "CLOSE ticket",
    "STAGE ticket",
    "SHOW",
    "NODE name",
    "WHO bidder",
]
# What help says of the options, and of the numbers that they take.
HELP = {
    "format": [
        "--file <F>     The path of the file\n",
        "--journal <J>  The number of frames of the journal: 4 to 1024, and of cells a multiple of 8 from 16\n",
        "--layout <L>   The layout of the journal: 1, a page for each frame, or 2, cells [default: 1]\n",
        "J is from 4 to 1,024, and the file has 13 + J pages.\n",
        "J is a multiple of 8 from 16 to 1,024, and the file has 13 + 3J/8 pages.\n",
        "hpb format --file auction.hpb --journal 64 < definition.json",
    ],
    "check": ["--file <F>  The path of the file\n", "hpb check --file auction.hpb"],
    "run": [
        "--file <F>   The path of the file\n",
        "--batch <N>  The most commands that are put on the disk together, from 1 to 64 [default: 1]\n",
        "--every <K>  The number of batches after which a checkpoint is written, or 0 [default: 0]\n",
        "hpb run --file auction.hpb --batch 16 --every 50 < lines",
    ],
    "serve": [
        "--file <F>      The path of the file\n",
        "--port <P>      The port of 127.0.0.1, from 1024 to 65535\n",
        "--sessions <N>  The number of sessions, from 1 to 32\n",
        "hpb serve --file auction.hpb --port 5000 --sessions 2",
    ],
}
NO_NAME = "invalid value '' for '--file <F>': a file's name has a character at least"
BY_DIGITS = "a number is given by digits alone"
# Words with a value that is refused, and the message.
VALUES = [
    ("format --file= --journal=+4", NO_NAME),
    ("check --file ''", NO_NAME),
    ("run --file=", NO_NAME),
    ("serve --port=5000 --file '' --sessions=2", NO_NAME),
    ("format --file a --journal +8", f"invalid value '+8' for '--journal <J>': {BY_DIGITS}"),
    ("format --file=a --journal=16 --layout=+1", f"invalid value '+1' for '--layout <L>': {BY_DIGITS}"),
    ("format --file=a --journal=16 --layout=3", "invalid value '3' for '--layout <L>': 3 is not in 1..=2"),
    ("run --file a --batch +1", f"invalid value '+1' for '--batch <N>': {BY_DIGITS}"),
    ("run --file a --batch 65", "invalid value '65' for '--batch <N>': 65 is not in 1..=64"),
    ("run --file a --every=-0", f"invalid value '-0' for '--every <K>': {BY_DIGITS}"),
    ("serve --file=a --port +5000 --sessions=2", f"invalid value '+5000' for '--port <P>': {BY_DIGITS}"),
    ("serve --file=a --port=1023 --sessions=2", "invalid value '1023' for '--port <P>': 1023 is not in 1024..=65535"),
    ("serve --file=a --port=5000 --sessions +2", f"invalid value '+2' for '--sessions <N>': {BY_DIGITS}"),
    ("serve --file=a --port=5000 --sessions=33", "invalid value '33' for '--sessions <N>': 33 is not in 1..=32"),
]
# Words that lack an option, and which.
MISSING = [
    ("format", "--file <F>"),
    ("format --file a", "--journal <J>"),
    ("serve --file a --sessions 2", "--port <P>"),
    ("serve --file a --port 5000", "--sessions <N>"),
]


def words_of(line: str) -> list[str]:
    """The words of a command line; '' is an empty one."""
    return ["" if word == "''" else word for word in line.split(" ")]


def refuses_value(program: Program, line: str, said: str) -> None:
    """A value that is refused is named, with what would do."""
    assert program.run(*words_of(line)).told() == ("", f"error: {said}\n\nFor more information, try '--help'.\n", 2)


def helps(program: Program, command: str) -> None:
    """Help of a command has its words and its status."""
    ran = program.run(command, "--help")
    assert (ran.output, ran.status) == ("", 0)
    assert [text for text in [f"Usage: hpb {command} ", "Status: 0 ", *HELP[command]] if text not in ran.errors] == []


@pytest.mark.parametrize("words", [[b"\xff"], ["check", "--file", b"\xff"]], ids=["a word", "a name"])
def test_an_argument_that_is_no_text(program: Program, words: list[str | bytes]) -> None:
    assert program.run(*words).told() == ("", "hpb: an argument is not UTF-8\n", 2)


@pytest.mark.parametrize("words", WRONG, ids=[" ".join(words) for words in WRONG])
def test_wrong_words_are_shown_so_that_all_can_be_seen(program: Program, words: list[str]) -> None:
    plain = program.run(*(word.replace("@", PLAIN) for word in words))
    assert (plain.output, plain.errors[:7], plain.status) == ("", "error: ", 2)
    for control, shown in CONTROLS.items():
        ran = program.run(*(word.replace("@", control) for word in words))
        assert ran.told() == ("", plain.errors.replace(PLAIN, shown), 2)
        assert {letter for letter in ran.errors if unicodedata.category(letter) == "Cc"} <= {"\n"}


@pytest.mark.parametrize("letter", UNSEEN, ids=[f"U+{ord(letter):04X}" for letter in UNSEEN])
def test_a_letter_that_is_not_seen_is_shown_by_its_number(program: Program, letter: str) -> None:
    ran = program.run(f"no{letter}file")
    assert ran.errors.startswith(f"error: unrecognized subcommand 'no\\u{{{ord(letter):x}}}file'\n\nUsage: hpb < SCRIPT")
    assert (ran.output, letter in ran.errors, ran.status) == ("", False, 2)


@pytest.mark.parametrize("line, said", VALUES, ids=[line for line, _ in VALUES])
def test_a_value_that_is_refused(program: Program, line: str, said: str) -> None:
    refuses_value(program, line, said)


@pytest.mark.parametrize("line, part", MISSING, ids=[line for line, _ in MISSING])
def test_an_option_that_is_missing(program: Program, line: str, part: str) -> None:
    ran = program.run(*words_of(line))
    assert (ran.output, ran.errors[:7], part in ran.errors, ran.status) == ("", "error: ", True, 2)


def test_the_version(program: Program) -> None:
    assert program.run("--version").told() == ("", VERSION, 0)


def test_help(program: Program) -> None:
    ran = program.run("--help")
    assert (ran.output, ran.status) == ("", 0)
    lines = [" ".join(line.split()) for line in ran.errors.splitlines()]
    assert [usage for usage in USAGES if not any(line.endswith(usage) for line in lines)] == []
    assert [words for words in LINES if not any(line.startswith(f"{words} ") for line in lines)] == []


@pytest.mark.parametrize("command", list(HELP))
def test_help_of_a_command(program: Program, command: str) -> None:
    helps(program, command)


@pytest.mark.parametrize("lie", ["silent", "well"])
def test_other_words_are_seen(liar: Liar, lie: str) -> None:
    with pytest.raises(AssertionError):
        refuses_value(liar(lie), *VALUES[4])


@pytest.mark.parametrize("lie", ["silent", "ill"])
def test_other_help_is_seen(liar: Liar, lie: str) -> None:
    with pytest.raises(AssertionError):
        helps(liar(lie), "check")
