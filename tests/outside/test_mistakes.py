"""Mistakes in a definition: the answers and messages of a script and of `format`.

examples/mistakes has ordinary ones, examples/each-reason one for each thing that may be said.
"""

from __future__ import annotations

import re
from pathlib import Path

import pytest

from harness.auctions import Layout
from harness.fronts import run_tool
from harness.programs import Program
from outside.lies import Liar
from outside.mistakes import MISTAKES, ONE_LINE, OVER_MANY_LINES, REASONS, Mistake

# The numbers by which a definition is refused.
NUMBERS = {*range(50, 58), 60, 61, 62}
SCRIPTS = [*MISTAKES, *REASONS]
REFUSED = [mistake for mistake in [*SCRIPTS, *OVER_MANY_LINES] if mistake.said]
ACCEPTED = [mistake for mistake in SCRIPTS if not mistake.said]


def titles(mistakes: list[Mistake]) -> list[str]:
    return [mistake.title for mistake in mistakes]


def answers_script(program: Program, mistake: Mistake) -> None:
    """A script with this mistake has its answer, its message, and the status."""
    assert program.run(text=mistake.script).told() == (mistake.output, mistake.said, int(bool(mistake.said)))


def answers_format(program: Program, mistake: Mistake, layout: Layout, file: Path) -> None:
    """`format` answers and says the same of the definition, but for advice about scripts, and makes no file."""
    text = mistake.script if mistake in OVER_MANY_LINES else mistake.script.split(b"\n")[0]
    said = mistake.said.replace(ONE_LINE, "")
    assert program.format(file, layout, text=text).told() == (mistake.output, said, 1)
    assert not file.exists()


@pytest.mark.parametrize("mistake", SCRIPTS, ids=titles(SCRIPTS))
def test_a_script_is_answered(program: Program, mistake: Mistake) -> None:
    answers_script(program, mistake)


@pytest.mark.parametrize("mistake", REFUSED, ids=titles(REFUSED))
def test_format_answers_the_same(program: Program, mistake: Mistake, layout: Layout, room: Path) -> None:
    answers_format(program, mistake, layout, room / "F")


@pytest.mark.parametrize("mistake", REFUSED, ids=titles(REFUSED))
def test_number_and_word_are_the_same_in_both_places(mistake: Mistake) -> None:
    """The error is one line of text."""
    answered = re.fullmatch(r"ERR (\d+ [a-z]+)\n", mistake.output)
    said = re.fullmatch(r"hpb: (\d+ [a-z]+): [^\x00-\x1f\x7f]+\n", mistake.said)
    assert answered and said and answered[1] == said[1]


@pytest.mark.parametrize("mistake", ACCEPTED, ids=titles(ACCEPTED))
def test_explain_warns_of_one_that_is_accepted(mistake: Mistake, room: Path) -> None:
    file = room / "script"
    file.write_bytes(mistake.script)
    ran = run_tool("explain", file)
    assert (ran.output, ran.status) == (mistake.warned, int(bool(mistake.warned)))


def test_each_number_has_a_mistake() -> None:
    assert len(MISTAKES) == 45
    assert {mistake.number for mistake in REASONS if mistake.said} == NUMBERS


@pytest.mark.parametrize("lie", ["wrong", "silent", "well"])
def test_another_answer_to_a_mistake_is_seen(liar: Liar, room: Path, lie: str) -> None:
    with pytest.raises(AssertionError):
        answers_script(liar(lie), MISTAKES[0])
    with pytest.raises(AssertionError):
        answers_format(liar(lie), MISTAKES[0], Layout.CELLS, room / "F")


@pytest.mark.parametrize("lie", ["wrong", "blamed", "ill"])
def test_another_answer_to_what_is_accepted_is_seen(liar: Liar, lie: str) -> None:
    with pytest.raises(AssertionError):
        answers_script(liar(lie), ACCEPTED[0])
