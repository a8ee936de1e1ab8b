"""Lines and refusals compared with docs/PROTOCOL.md, and the grammar compared with the program."""
import pathlib
import re

import pytest
from hypothesis import given
from hypothesis import strategies as some

from hpb.lines import (
    Accepted, AskNode, AskWho, Bid, Close, NoAnswer, NodeShown, Show, Shown, Stage, Waive, WhoShown, format_answer, format_line,
    parse_answer, parse_line,
)
from hpb.refusals import BadLine, FrontRefused, Refused, refusal
from serving import DEFINITION, Program, few

ROWS = [
    ("BID x 1 a 100", Bid("x", "a", 100, ticket=1)),
    ("WAIVE x 4294967295", Waive("x", ticket=4294967295)),
    ("CLOSE 0", Close(0)),
    ("STAGE 2", Stage(2)),
    ("SHOW", Show()),
    ("NODE a\r", AskNode("a\r")),
    ("WHO \u00ff", AskWho("\u00ff")),
    ("BID x 1 a 18446744073709551615", Bid("x", "a", 18446744073709551615, ticket=1)),
]
REFUSED = [
    "", " ", "SHOW ", " SHOW", "show", "SHOW\r", "BID x 01 a 100", "BID x 1 a 1e2", "BID x 1 a +100", "BID x -1 a 100", "BID x 1 a ",
    "BID  1 a 100", "BID x 1  100", "BID x 1 a 100 5", "BID x 4294967296 a 1", "BID x 1 a 18446744073709551616", "CLOSE", "CLOSE 1 ",
    "STAGE x", "WAIVE x", "NODE", "NODE ", "WHO", "WHO a b", "NODE " + "a" * 124, "BID x 1 a \u0661", "CLOSE \u00b2",
]
ANSWERS = [
    ("OK 1000000", Accepted(1_000_000)),
    ("ROUND 2 STAGE 1 OPEN REVENUE 500 COUNT 5", Shown(2, 1, False, 500, 5)),
    ("ROUND 3 STAGE 4 CLOSED REVENUE 0 COUNT 9", Shown(3, 4, True, 0, 9)),
    ("NODE a HIGH 100 x PRICE 138 MIN 160 WIN no", NodeShown("a", 100, "x", 138, 160, False)),
    ("NODE d HIGH 0 - PRICE 0 MIN 100 WIN no", NodeShown("d", 0, None, 0, 100, False)),
    ("WHO w ELIGIBILITY 25 ACTIVITY 0 TICKET 1", WhoShown("w", 25, 0, 1)),
    ("WHO x ELIGIBILITY 10 ACTIVITY 0 TICKET 2 WAIVERS 0", WhoShown("x", 10, 0, 2, 0)),
    ("ERR 22 low", refusal(22)),
    ("ERR front rights", FrontRefused("rights")),
]


@pytest.mark.parametrize("text, line", ROWS)
def test_a_line_is_read_and_written(text: str, line: object) -> None:
    assert parse_line(text) == line
    assert format_line(parse_line(text)) == text


@pytest.mark.parametrize("text", REFUSED)
def test_what_is_no_line_is_refused_by_10(text: str, program: Program) -> None:
    with pytest.raises(BadLine):
        parse_line(text)
    if "\u0661" not in text:
        assert program.script(DEFINITION, [text]) == ["ERR 10 line"]


@pytest.mark.parametrize("text, answer", ANSWERS)
def test_an_answer_is_read_and_written(text: str, answer: object) -> None:
    assert parse_answer(text) == answer
    assert format_answer(parse_answer(text)) == text


@pytest.mark.parametrize("text", ["", "OK", "OK 0", "OK 01", "OK 1000001", "ERR 22 high", "ERR 22", "ERR 47 x", "WELCOME ann", "ROUND 1", "ok 1"])
def test_what_is_no_answer_raises(text: str) -> None:
    with pytest.raises(NoAnswer):
        parse_answer(text)


@pytest.mark.parametrize(
    "line",
    [
        Bid("x y", "a", 1), Bid("x", "a\n", 1), Bid("", "a", 1), Bid("x", "a", -1), Bid("x", "a", 2**64), Close(2**32),
        Bid("x\N{EURO SIGN}", "a", 1), Bid("x", "a" * 120, 1),
    ],
)
def test_what_can_not_be_a_line_is_not_written(line: Bid | Close) -> None:
    with pytest.raises(ValueError):
        format_line(line)


def plain(cell: str) -> str:
    """The text of a table's cell, without marks and links."""
    return re.sub(r"\[([^\]]*)\]\([^)]*\)", r"\1", cell).replace("`", "")


def test_each_refusal_of_the_protocol_has_a_class_and_no_other(documents: pathlib.Path) -> None:
    text = (documents / "PROTOCOL.md").read_text(encoding="utf-8")
    rows = re.findall(r"^\| (\d+) \| `(\w+)` \| (.*?) \| (.*?) \|$", text[text.index("\n## Refusals") :], re.MULTILINE)
    table = {int(number): (word, plain(meaning), plain(advice)) for number, word, meaning, advice in rows}
    assert {number: (kind.word, kind.meaning, kind.advice) for number, kind in Refused.by_number.items()} == table


def test_a_refusal_says_number_word_and_what_to_do() -> None:
    assert str(refusal(22)) == "22 low: the amount is below the minimum. What to do: ask NODE, and bid MIN or more"
    assert refusal(22) == refusal(22, "by the last close") != refusal(21)


WORDS = some.sampled_from(["BID", "WAIVE", "CLOSE", "STAGE", "SHOW", "NODE", "WHO", "x", "a", "all", "1", "0", "01", "100", "", "\r", "4294967296", "-1"])


@few(25)
@given(some.lists(some.lists(WORDS, max_size=6).map(" ".join) | some.text("BDIS OHW1ax\t\r\x00\xff", max_size=12), min_size=50, max_size=80))
def test_the_program_refuses_by_10_what_the_package_does(program: Program, lines: list[str]) -> None:
    for line, answered in zip(lines, program.script(DEFINITION, lines), strict=True):
        try:
            parse_line(line)
            is_line = True
        except BadLine:
            is_line = False
        assert (answered != "ERR 10 line") == is_line, line
