"""Stand-ins that do something else than the page says, and pages that say something else: the tests have to see each."""

from __future__ import annotations

from collections.abc import Callable

import pytest

from outside.lies import stand_in
from protocol.page import PAGE, TOP, Page, sentences
from protocol.talking import FIRST, Asks, Hpb, asks_script
from protocol.test_definition import judge
from protocol.test_page import faults

TEXT = (TOP / "docs" / "PROTOCOL.md").read_text()


def tries(hpb: Hpb, lie: str) -> Hpb:
    """A stand-in that tells this lie, on a folder whose file F is one of a program that doesn't."""
    hpb.formats()
    return Hpb(stand_in(hpb.program, hpb.folder, lie), hpb.folder)


# By a lie of outside.liar: what has to see it.
SEEN: list[tuple[str, Callable[[Hpb], None]]] = [
    *((lie, lambda hpb: asks_script(hpb.program, FIRST)) for lie in ("wrong", "blamed", "ill")),
    *((lie, lambda hpb: hpb.runs(FIRST)) for lie in ("wrong", "blamed", "ill")),
    *((lie, lambda hpb: hpb.refuses("format --file F --journal 4", "41 formatted", PAGE.definition)) for lie in ("wrong", "silent", "well")),
    *((lie, lambda hpb: judge(hpb.program, "{}\n", 61)) for lie in ("wrong", "silent", "well")),
    *((lie, lambda hpb: hpb.fills("run --file F", "BID x 1 a 100 = 91")) for lie in ("wrong", "silent", "well")),
    *((lie, lambda hpb: hpb.misreads("script")) for lie in ("silent", "well")),
]


@sentences("Each line begins .. If a line is about .. If all is well .. Exceptions are a ..")
@pytest.mark.parametrize(("lie", "check"), SEEN)
def test_a_stand_in_that_lies_is_seen(hpb: Hpb, lie: str, check: Callable[[Hpb], None]) -> None:
    with pytest.raises(AssertionError):
        check(tries(hpb, lie))


@pytest.mark.parametrize(
    ("old", "new"),
    [
        ("Send no next command before the last one is answered.", "Send what you like."),
        ("The first four are commands;", "The first four are commands. All others do nothing. They"),
        ("\n## Answers\n", "\nA sentence that nothing shows.\n\n## Answers\n"),
        ("sent more than 1,000,000,000", "sent more than 2,000,000,000"),
        ("| 2 | three cells", "| 3 | four cells"),
    ],
)
def test_a_page_that_says_something_else_is_seen(old: str, new: str) -> None:
    assert old in TEXT
    assert list(faults(Page(TEXT.replace(old, new, 1))))


@pytest.mark.parametrize("row", range(5))
def test_a_table_with_another_answer_is_seen(asks: Asks, row: int) -> None:
    pairs = PAGE.table("Line", "Answer").pairs()
    pairs[row] = (pairs[row][0], "ERR 22 low")
    with pytest.raises(AssertionError):
        asks("; ".join(map(" = ".join, pairs)))
