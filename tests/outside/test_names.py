"""Odd numbers in a command line, and odd names of files: none at all, some that would turn a line round, and long ones."""

from __future__ import annotations

import re
import unicodedata
from pathlib import Path

import pytest

from harness.auctions import definition
from harness.conditions import NORMAL
from harness.programs import Program, Ran, format_words
from harness.serving import free_port
from harness.streams import full
from outside.jobs import EMPTY
from outside.lies import Liar

JOBS = ("format", "check", "run", "serve")
# Options that take a number: the words before it, and a good number.
NUMBERS = {
    "--journal": (["format", "--file", "new"], "4"),
    "--layout": (["format", "--file", "new", "--journal", "16"], "2"),
    "--batch": (["run", "--file", "F"], "1"),
    "--every": (["run", "--file", "F"], "1"),
    "--port": (["serve", "--file", "missing", "--sessions", "1"], "5000"),
    "--sessions": (["serve", "--file", "missing", "--port", "5000"], "1"),
}
# Texts that aren't numbers, with a good one in place of {}.
ODD_NUMBERS = "+{} -{} +0 -0 + - {}.0 {}e0 {}_0 0x{} \u0664 99999999999999999999".split() + ["", " {}", "{} "]
ODD = "\u202e\u202d\u202a\u202b\u202c\u2066\u2067\u2068\u2069\u2028\u2029\u0085\x1b\x07\x7f\x9b"
# Those that turn what stands behind them round, or end a line.
TURNING = set("\u202e\u202d\u202a\u202b\u202c\u2066\u2067\u2068\u2069\u2028\u2029")
NO_DEVICE = ("ERR 91 device\n", 1)
# More characters than any line of a file with a long name has, whose commands have its name whole.
TOO_MANY = 1100
# More bytes than such a line has otherwise.
MANY = 600


@pytest.fixture
def file(program: Program, room: Path) -> Path:
    """A new auction of the first example."""
    assert program.format(room / "F").status == 0
    return room / "F"


def run_job(program: Program, room: Path, job: str, *words: object) -> Ran:
    """A job in a folder; the words name a file."""
    options: dict[str, list[object]] = {"format": ["--journal", 4], "serve": ["--port", free_port(), "--sessions", 1]}
    return program.run(job, *words, *options.get(job, []), text=definition(), conditions=NORMAL.within(room))


def told(ran: Ran) -> tuple[str, int]:
    return ran.output, ran.status


@pytest.mark.parametrize("odd", ODD_NUMBERS)
@pytest.mark.parametrize("option", list(NUMBERS))
def test_what_is_no_number(program: Program, file: Path, option: str, odd: str) -> None:
    """Digits alone are one."""
    words, number = NUMBERS[option]
    conditions = NORMAL.within(file.parent)
    forms = [[f"{option}={odd.format(number)}"], *([[option, odd.format(number)]] if odd in ("+{}", "+0") else [])]
    for form in forms:
        ran = program.run(*words, *form, text=definition(), conditions=conditions)
        assert (ran.output, ran.errors[:7], ran.status) == ("", "error: ", 2)
    assert [path.name for path in file.parent.iterdir()] == ["F"]


@pytest.mark.parametrize("journal, pages", [("007", 20), ("0" * 40 + "4", 17)])
def test_zeros_at_the_front_of_a_journal(program: Program, room: Path, journal: str, pages: int) -> None:
    ran = program.run("format", "--file", room / "F", "--journal", journal, text=definition())
    assert told(ran) == (f"FORMATTED {pages}\n", 0)


def test_zeros_at_the_front_of_other_numbers(program: Program, file: Path) -> None:
    assert program.run_lines(file, b"SHOW\n", "--batch", "007", "--every=000").told() == (f"{EMPTY}\n", "", 0)
    assert told(program.run_lines(file, b"SHOW\n", "--batch", "065")) == ("", 2)
    words = ("serve", "--file", file.with_name("missing"), "--port", f"0{free_port()}", "--sessions=01")
    assert told(program.run(*words)) == NO_DEVICE


@pytest.mark.parametrize("words", [("--file", ""), ("--file=",)], ids=["two words", "one word"])
@pytest.mark.parametrize("job", JOBS)
def test_no_name(program: Program, room: Path, job: str, words: tuple[str, ...]) -> None:
    ran = run_job(program, room, job, *words)
    assert told(ran) == ("", 2)
    assert "--file" in ran.errors and "os error" not in ran.errors


def raw_in(text: str) -> set[str]:
    """The characters that have no place in a message, but for the ends of lines."""
    return {c for c in text if (unicodedata.category(c) in ("Cc", "Zl", "Zp") and c != "\n") or c in TURNING}


def escapes(program: Program, job: str, odd: str, room: Path) -> None:
    """A name with such a character is shown escaped, in one line."""
    ran = run_job(program, room, job, "--file", f"none/a{odd}b" if job == "format" else f"a{odd}b")
    assert told(ran) == NO_DEVICE
    assert (ran.errors.count("\n"), raw_in(ran.errors)) == (1, set())
    assert re.search(r"a\\[^\\]*b", ran.errors)


@pytest.mark.parametrize("odd", ODD, ids=[f"U+{ord(odd):04X}" for odd in ODD])
@pytest.mark.parametrize("job", JOBS)
def test_a_character_that_would_turn_or_end_a_line(program: Program, room: Path, job: str, odd: str) -> None:
    escapes(program, job, odd, room)


@pytest.mark.parametrize("odd", sorted({*TURNING, "\x1b"}), ids=lambda odd: f"U+{ord(odd):04X}")
def test_wrong_words_with_such_a_character(program: Program, odd: str) -> None:
    for words in ([f"a{odd}b"], [f"--a{odd}b"], ["run", "--file", "F", "--batch", f"1{odd}"]):
        ran = program.run(*words)
        assert (*told(ran), raw_in(ran.errors)) == ("", 2, set())


def test_a_file_with_such_a_name(program: Program, room: Path) -> None:
    name = "F\u202e\u2028\x1bF"
    assert told(run_job(program, room, "format", "--file", name)) == ("FORMATTED 17\n", 0)
    again = run_job(program, room, "format", "--file", name)
    assert (again.output, raw_in(again.errors)) == ("ERR 41 formatted\n", set())
    with full() as output:
        ran = program.run("run", "--file", name, text=b"SHOW\n", output=output, conditions=NORMAL.within(room))
    assert (ran.status, raw_in(ran.errors)) == (1, set())


def long_names(room: Path) -> list[object]:
    """Names that are too long for the system, or are those of no file."""
    return [room / ("n" * 300), room / ("\u202e" * 300), room / ("\N{GRINNING FACE}" * 300), "/" + "n/" * 2000]


@pytest.mark.parametrize("job", JOBS)
def test_a_long_name_is_cut(program: Program, room: Path, job: str) -> None:
    """So that a line stays short."""
    name = long_name(room)
    for missing in [*long_names(room), *([] if job == "format" else [name])]:
        ran = run_job(program, room, job, "--file", missing)
        assert told(ran) == NO_DEVICE
        assert ".." in ran.errors
        assert (len(ran.errors.encode()) < MANY, ran.errors.count("\n")) == (True, 1)


def long_name(room: Path) -> Path:
    """One of 150 characters, in a folder of 200."""
    (room / ("d" * 200)).mkdir()
    return room / ("d" * 200) / ("n" * 150)


def test_a_command_that_is_to_be_pasted_has_its_name_whole(program: Program, room: Path) -> None:
    """Up to 400 bytes."""
    name = long_name(room)
    assert program.format(name).told() == ("FORMATTED 17\n", "", 0)
    again = program.run(*format_words(name), text=definition())
    assert (again.status, ".." in again.errors, len(again.errors) < TOO_MANY) == (1, True, True)
    with full() as output:
        ran = program.run("run", "--file", name, text=b"SHOW\n", output=output)
    assert (ran.status, f"`hpb run --file {name}" in ran.errors, len(ran.errors) < TOO_MANY) == (1, True, True)


# Names, how each is shown, and how it is pasted: a shell takes more than 400 bytes, but no line has room for them.
QUOTED = [(f"a{odd}b", f"a{odd}b", f"'a{odd}b'") for odd in " $&;|<>()`\"\\*?[]{}~#!^"]
NAMES = [
    *QUOTED,
    ("-it's mine", "-it's mine", r"'./-it'\''s mine'"),
    ("-a", "-a", "./-a"),
    ("a.b_c-d+e,f:g@h%i=j", "a.b_c-d+e,f:g@h%i=j", "a.b_c-d+e,f:g@h%i=j"),
    ("d" * 200 + "/" + "n" * 199, "d" * 100 + "..", "d" * 200 + "/" + "n" * 199),
    ("d" * 200 + "/" + "n" * 200, "d" * 100 + "..", "F"),
]


@pytest.mark.parametrize(("name", "shown", "pasted"), NAMES, ids=[*(name for name, _, _ in NAMES[:-2]), "400 bytes", "401 bytes"])
def test_a_name_that_a_shell_would_read_otherwise_is_in_quotes(program: Program, room: Path, name: str, shown: str, pasted: str) -> None:
    (room / name).parent.mkdir(exist_ok=True)
    assert told(run_job(program, room, "format", f"--file={name}")) == ("FORMATTED 17\n", 0)
    again = run_job(program, room, "format", f"--file={name}")
    said = f"{shown} keeps an auction already, and nothing was changed: see it by `hpb check --file {pasted}`, or name another file"
    assert again.told() == ("ERR 41 formatted\n", f"hpb: 41 formatted: {said}\n", 1)


@pytest.mark.parametrize("job", ["check", "run", "serve"])
def test_a_long_name_of_a_file_that_keeps_nothing(program: Program, room: Path, job: str) -> None:
    name = long_name(room)
    name.write_bytes(bytes(17 * 4096))
    ran = run_job(program, room, job, "--file", name)
    assert (ran.output, ".." in ran.errors, len(ran.errors) < TOO_MANY) == ("ERR 40 unformatted\n", True, True)


@pytest.mark.parametrize("word", ["x" * 300, "--" + "x" * 300], ids=["word", "option"])
def test_a_long_word(program: Program, word: str) -> None:
    assert told(program.run(word)) == ("", 2)


@pytest.mark.parametrize("lie", ["wrong", "silent", "well"])
def test_another_answer_to_a_name_is_seen(liar: Liar, room: Path, lie: str) -> None:
    with pytest.raises(AssertionError):
        escapes(liar(lie), "check", ODD[0], room)
