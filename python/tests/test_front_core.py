"""Days of a front's core by seeds: whatever happens, each promise of docs/FRONT.md is kept (`front_promises`)."""
from __future__ import annotations

import ast
import dataclasses
import pathlib
import random
from collections.abc import Mapping

import pytest

import hpb.front.core
from front_days import Day
from front_promises import Promises
from front_world import World
from hpb.front.core import Front, effects, events, ledger, state, step, steps
from hpb.front.core.effects import Effect
from hpb.front.core.events import Event

ALL = "kills losses disks reloads jumps stops vanishing streams freezes"
SEEDS, MORE_SEEDS = 10, 100
# The parts of a state of which a step changes copies of its own.
COPIED = ("Connection", "Item", "Name", "Session", "Ledger")
# The core's modules: none may use a clock, a socket, a file, a thread or a task.
PURE = {"collections", "dataclasses", "enum", "hpb", "re", "typing"}


@pytest.mark.parametrize("faults", [*ALL.split(), "", "slow", "hangs", "mislaid", "mislaid kills", ALL, f"{ALL} slow", f"{ALL} hangs"])
def test_each_promise_is_kept_on_days_with_these_faults(faults: str) -> None:
    for seed in range(SEEDS):
        Day(seed, frozenset(faults.split())).run()


@pytest.mark.slow
@pytest.mark.parametrize("faults", [ALL, f"{ALL} slow", f"{ALL} hangs"])
def test_each_promise_is_kept_on_many_days(faults: str) -> None:
    for seed in range(SEEDS, SEEDS + MORE_SEEDS):
        Day(seed, frozenset(faults.split())).run()


class Values(Promises):
    """Checks in addition that no step changes the value that it was given, and that the same step gives the same value again."""

    def __init__(self) -> None:
        super().__init__()
        self.before: object = None
        self.steps = 0

    def stepped(self, before: Front, event: Event, clock: float, outcome: tuple[Front, list[Effect]]) -> None:
        super().stepped(before, event, clock, outcome)
        whole = parts(before)
        assert step(before, event, clock) == outcome
        assert parts(before) == whole and (self.before is None or whole == self.before or before.time == 0)
        self.before = parts(outcome[0])
        self.steps += 1


def parts(value: object) -> object:
    """All that a value is made of, in mappings of its own."""
    if isinstance(value, Mapping):
        return {key: parts(one) for key, one in value.items()}
    if isinstance(value, tuple | list):
        return [parts(one) for one in value]
    is_value = dataclasses.is_dataclass(value) and type(value).__module__.startswith("hpb.front.core")
    return {field.name: parts(getattr(value, field.name)) for field in dataclasses.fields(value)} if is_value else value


def test_a_step_changes_no_value_and_gives_the_same_each_time() -> None:
    day = Day(1, frozenset(ALL.split()))
    day.world.watch = day.promises = watch = Values()
    day.run(300)
    assert watch.steps > 300


class Together(Promises):
    """Checks in addition that events which are taken together give what they give one after the other."""

    def __init__(self, source: random.Random) -> None:
        super().__init__()
        self.source, self.steps = source, 0
        self.begin: Front | None = None
        self.events: list[Event] = []

    def started(self, world: World) -> None:
        super().started(world)
        self.begin, self.events = None, []

    def stepped(self, before: Front, event: Event, clock: float, outcome: tuple[Front, list[Effect]]) -> None:
        super().stepped(before, event, clock, outcome)
        self.begin = self.begin or before
        self.events.append(event)
        if self.source.random() < 0.1:
            front, done = self.begin, list[Effect]()
            for one in self.events:
                front, more = step(front, one, clock)
                done += more
            whole = parts(self.begin)
            assert steps(self.begin, self.events, clock) == (front, done)
            assert parts(self.begin) == whole
            self.begin, self.events, self.steps = None, [], self.steps + 1


@pytest.mark.parametrize("faults", ["", "stops", ALL, f"{ALL} slow"])
def test_events_that_are_taken_together_give_what_they_give_one_by_one(faults: str) -> None:
    taken = 0
    for seed in range(4):
        day = Day(seed, frozenset(faults.split()))
        day.world.watch = day.promises = watch = Together(random.Random(seed))
        day.run()
        taken += watch.steps
    assert taken > 100


@pytest.mark.parametrize("module", [events, effects, state, ledger])
def test_events_effects_and_states_are_frozen_but_for_those_that_a_step_copies(module: object) -> None:
    kinds = [kind for kind in vars(module).values() if isinstance(kind, type) and dataclasses.is_dataclass(kind)]
    assert kinds and all(getattr(kind, "__dataclass_params__").frozen for kind in kinds if kind.__name__ not in COPIED)


def test_the_core_imports_nothing_that_has_input_or_output() -> None:
    imported = set()
    for path in pathlib.Path(hpb.front.core.__file__).parent.glob("*.py"):
        for node in ast.walk(ast.parse(path.read_text())):
            if isinstance(node, ast.Import):
                imported |= {alias.name.split(".")[0] for alias in node.names}
            elif isinstance(node, ast.ImportFrom):
                imported.add(str(node.module).split(".")[0])
    assert imported <= PURE
