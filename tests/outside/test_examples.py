"""The scripts of examples/, each with the answers that stand beside it."""

from __future__ import annotations

from pathlib import Path

import pytest

from harness.auctions import EXAMPLES
from harness.programs import Program, shown
from outside.lies import Liar

SCRIPTS = sorted(EXAMPLES.rglob("*.txt"))
# What begins the names of folders whose definitions are all refused.
REFUSED = ("refused-definitions", "ten-mistakes")


def holds(program: Program, script: Path) -> None:
    """A script has its answers. If its definition is refused the status is 1, else it is 0."""
    ran = program.run(text=script.read_bytes())
    is_refused = script.parent.name.startswith(REFUSED)
    assert (ran.output, ran.status) == (shown(script.with_suffix(".out").read_bytes()), int(is_refused))


@pytest.mark.parametrize("script", SCRIPTS, ids=[str(script.relative_to(EXAMPLES)) for script in SCRIPTS])
def test_each_example_has_its_answers(program: Program, script: Path) -> None:
    holds(program, script)


def test_there_are_examples_of_each_kind() -> None:
    kinds = {script.parent.name for script in SCRIPTS}
    assert kinds == {"examples", "refused-definitions", "refused-definitions-one-change", "slips", "ten-mistakes"}


@pytest.mark.parametrize("lie, name", [("wrong", "coast"), ("ill", "coast"), ("well", "ten-mistakes/01-many-lines")])
def test_another_answer_is_seen(liar: Liar, lie: str, name: str) -> None:
    with pytest.raises(AssertionError):
        holds(liar(lie), EXAMPLES / f"{name}.txt")
