"""Days of a front with seals by seeds: whatever happens, each close has one seal, stamps come in order, and the record verifies (`front_sealed`).
The bugs at the end are planted, and each is caught by the promise that it breaks."""
from __future__ import annotations

from collections.abc import Callable

import pytest

from front_promises import Broken, Promise
from front_round_days import PLANS
from front_sealed import SealedDay, SealedRoundDay
from hpb.front.core import sealing, sessions
from hpb.front.core.events import RecordOpened, SealOnDisk, Stamped
from hpb.front.core.state import Item
from hpb.front.core.stepping import Step
from hpb.front.core.values import changed

ALL = "kills losses disks reloads jumps stops vanishing streams offline"
ROUNDS = "kills boundary losses sleeps set sync drift jumps stops vanishing reloads disks offline"
SEEDS, MORE_SEEDS, PLANT_SEEDS = 5, 200, 40
Patch = pytest.MonkeyPatch
Plant = Callable[[Patch], None]


@pytest.mark.parametrize("faults", ["", "kills offline", "losses offline", "disks offline", "stops offline", "kills stops offline", "hangs", "mislaid kills", ALL, f"{ALL} slow"])
def test_each_close_is_sealed_and_the_record_verifies_on_days_with_these_faults(faults: str) -> None:
    for seed in range(SEEDS):
        SealedDay(seed, frozenset(faults.split())).run()


@pytest.mark.parametrize("faults", ["", "kills boundary offline", ROUNDS])
@pytest.mark.parametrize("plan", [*PLANS, "free"])
def test_each_close_by_the_clock_is_sealed_too(plan: str, faults: str) -> None:
    SealedRoundDay(1, plan, frozenset(faults.split())).run()


@pytest.mark.slow
@pytest.mark.timeout(3_600)
@pytest.mark.parametrize("faults", ["kills stops offline", ALL, f"{ALL} slow", f"{ALL} hangs"])
def test_each_close_is_sealed_on_many_days(faults: str) -> None:
    for seed in range(SEEDS, SEEDS + MORE_SEEDS):
        SealedDay(seed, frozenset(faults.split())).run()


@pytest.mark.slow
@pytest.mark.timeout(3_600)
@pytest.mark.parametrize("plan", [*PLANS, "free"])
def test_each_close_by_the_clock_is_sealed_on_many_days(plan: str) -> None:
    for seed in range(2, 2 + MORE_SEEDS // 4):
        SealedRoundDay(seed, plan, frozenset(ROUNDS.split())).run()


# Planted bugs.

begin, take_sealed, take_stamp, may_begin = sealing.begin, sealing.take_sealed, sealing.take_stamp, sessions.may_begin



def closes_are_not_sealed(patch: Patch) -> None:
    patch.setattr(sealing, "is_due", lambda front: False)


def commands_do_not_wait(patch: Patch) -> None:
    """Commands go on while a seal is on its way."""

    def blind(step: Step, item: Item, gate: int | None) -> bool:
        before = step.front.sealing
        step.set(sealing=changed(before, closed=0))
        found = may_begin(step, item, gate)
        step.set(sealing=before)
        return found

    patch.setattr(sessions, "may_begin", blind)


def forgotten_after_a_kill(patch: Patch) -> None:
    """A front that starts again takes the last close for sealed."""

    def forget(step: Step, event: RecordOpened) -> None:
        begin(step, event)
        sealing.change(step, sealed=event.closed)

    patch.setattr(sealing, "begin", forget)


def goes_on_before_the_disk(patch: Patch) -> None:
    """A seal counts as soon as it is written."""
    hear = sealing.hear

    def early(step: Step, answer: bytes) -> None:
        hear(step, answer)
        if step.front.sealing.entry is not None:
            sealing.change(step, sealed=step.front.sealing.closed)

    patch.setattr(sealing, "hear", early)


def sealed_twice(patch: Patch) -> None:
    """The front doesn't note that a seal is on the disk, the first time."""

    def once_more(step: Step, seal: SealOnDisk) -> None:
        sealed = step.front.sealing.sealed
        take_sealed(step, seal)
        if seal.number % 2:
            sealing.change(step, sealed=sealed)

    patch.setattr(sealing, "take_sealed", once_more)


def stamp_of_another_seal(patch: Patch) -> None:
    patch.setattr(sealing, "take_stamp", lambda step, stamp: take_stamp(step, Stamped(stamp.number + 1, stamp.time, stamp.token)))


def stamped_twice(patch: Patch) -> None:
    def twice(step: Step, stamp: Stamped) -> None:
        take_stamp(step, stamp)
        take_stamp(step, stamp)

    patch.setattr(sealing, "take_stamp", twice)


def receipts_for_everybody(patch: Patch) -> None:
    patch.setattr(sealing, "seen_by", lambda viewer, fact: fact)


def an_end_is_not_sealed(patch: Patch) -> None:
    patch.setattr(sealing, "seal_end", lambda step: step.write(sealing.SEAL, round=0, count=step.front.ledger.count + 1, answers=[]))


PLANTS: list[tuple[Plant, Promise, str]] = [
    (closes_are_not_sealed, Promise.SEALED, ""),
    (commands_do_not_wait, Promise.SEALED, ""),
    (forgotten_after_a_kill, Promise.SEALED, "kills"),
    (goes_on_before_the_disk, Promise.SEALED, ""),
    (sealed_twice, Promise.SEALED, ""),
    (stamp_of_another_seal, Promise.STAMPED, ""),
    (stamped_twice, Promise.STAMPED, ""),
    (receipts_for_everybody, Promise.RECEIPTS, ""),
    (an_end_is_not_sealed, Promise.VERIFIES, ""),
]


@pytest.mark.parametrize(("plant", "promise", "faults"), PLANTS, ids=[plant.__name__ for plant, _, _ in PLANTS])
def test_a_planted_bug_of_seals_is_caught(plant: Plant, promise: Promise, faults: str, monkeypatch: Patch) -> None:
    plant(monkeypatch)
    with pytest.raises(Broken) as caught:
        for seed in range(PLANT_SEEDS):
            SealedDay(seed, frozenset(faults.split())).run()
    assert caught.value.promise == promise, caught.value
