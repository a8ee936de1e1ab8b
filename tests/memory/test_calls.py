"""Calls of the libraries that take memory, with each of their requests refused in turn.

If a request is refused, the call reports that memory was refused. There are two exceptions: if the record of a device in memory has to
grow, it reports the device; if a house is refused a place, the place. Its arguments are the same as before. The call is then made again, and
gives the same as if nothing had been refused. Under definitions of different sizes it gives different results.
"""

from __future__ import annotations

from dataclasses import dataclass
from pathlib import Path

import pytest

from harness.fixtures import Companion
from harness.programs import Program
from harness.refusals import Refusals, each
from memory.calls import CALLS, Call, Lie, lies_of, names_another, sums_nothing

# How many requests of a call are refused at most when its output is changed by a lie.
SOME = 40
FRONT = "CALL\nCAME\n"
# The calls under all their definitions, in each of their layouts.
CASES = [pytest.param(call, layout, id=f"{call.name}-{layout}") for call in CALLS for layout in call.layouts]
TOLD = [pytest.param(call, lie, nodes, id=f"{call.name}-{lie.__name__}") for call in CALLS for lie, nodes in lies_of(call)]
SIZED = [pytest.param(call, id=call.name) for call in CALLS if len(call.sizes) > 1]


def truth(output: str) -> str:
    """No lie."""
    return output


@dataclass(frozen=True)
class Trial:
    """The program that makes the calls, and a lie about its output."""

    program: Program
    refusals: Refusals
    room: Path
    lie: Lie = truth

    def make(self, call: Call, nodes: int, layout: int, folder: Path, number: int = 0) -> tuple[str, int]:
        """The output behind the marks, with the status if it isn't 0, and how many requests the call made."""
        words = (call.name, nodes, layout)
        ran = self.refusals.run(self.program, words, folder, number, call.text(nodes), is_marked=True)
        output = self.lie(ran.output.decode())
        if not output.startswith(FRONT):
            return f"{output}, status {ran.status}: {ran.errors[:200]!r}", ran.requests
        return output.removeprefix(FRONT).removesuffix("\n") + ("" if ran.status == 0 else f", status {ran.status}"), ran.requests

    def tries(self, call: Call, nodes: int, layout: int, most: int | None = None) -> str:
        """The result with memory. AssertionError if a request that is refused has another outcome than it may. At most about `most` are
        refused, spread over all of them; by default all are.
        """
        whole, requests = self.make(call, nodes, layout, self.room)
        given = whole.split(", ")[0]
        assert given.startswith("ok ") and whole == f"{given}, same, {given}" and requests, whole
        numbers = range(1, requests + 1, max(1, requests // most) if most else 1)
        found = each(self.room, numbers, lambda number, folder: self.make(call, nodes, layout, folder, number)[0])
        assert numbers.step > 1 or call.are_in_order(found, nodes), "the parts come in another order"
        wrong = [(number, answer) for number, answer in zip(numbers, found) if answer != call.wanted(answer, given)]
        assert wrong == []
        return given


@pytest.fixture
def trial(companion: Companion, refusals: Refusals, room: Path) -> Trial:
    """The program that makes the calls."""
    return Trial(companion("hpb_test_memory"), refusals, room)


@pytest.mark.parametrize(("call", "layout"), CASES)
def test_calls(trial: Trial, call: Call, layout: int) -> None:
    given = [trial.tries(call, nodes, layout) for nodes in call.sizes]
    assert len(set(given)) == len(given)


@pytest.mark.parametrize(("call", "lie", "nodes"), TOLD)
def test_lies_are_found(trial: Trial, call: Call, lie: Lie, nodes: int) -> None:
    liar = Trial(trial.program, trial.refusals, trial.room, lie)
    with pytest.raises(AssertionError):
        # The order of the parts shows only if all requests are refused.
        liar.tries(call, nodes, call.layouts[0], None if lie is names_another else SOME)


@pytest.mark.parametrize("call", SIZED)
def test_equal_sums_are_found(trial: Trial, call: Call) -> None:
    """If a call gave the same sum under each definition, that would be seen."""
    liar = Trial(trial.program, trial.refusals, trial.room, sums_nothing)
    given = [liar.tries(call, nodes, call.layouts[0], 1) for nodes in call.sizes]
    assert len(set(given)) == 1
