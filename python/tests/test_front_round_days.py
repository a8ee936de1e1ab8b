"""Rounds that keep time: whatever happens round their ends, each promise of docs/ROUNDS.md is kept (`front_round_days`). The bugs at the end are
planted, and each is caught by the promise that it breaks."""
from __future__ import annotations

from collections.abc import Callable

import pytest

from front_promises import Broken
from front_round_days import PLANS, RoundDay
from front_rounds import Kept, NotKept, RoundPromises
from front_world import World
from hpb.front.core import clock, desk, news, rounds, sessions
from hpb.front.core.books import Books
from hpb.front.core.clock import Plan
from hpb.front.core.effects import Effect
from hpb.front.core.events import Event
from hpb.front.core.state import Front, Item
from hpb.front.core.stepping import Step
from hpb.front.core.values import changed
from hpb.front.rights import for_server

ALL = "kills boundary losses sleeps set sync drift jumps stops vanishing reloads disks freezes"
FAULTS = ["", "kills boundary", "kills boundary sleeps", "set sync", "jumps drift", "losses vanishing reloads", ALL, f"{ALL} slow"]
SEEDS, PLANT_SEEDS = 3, 60
# The long run has so many seeds, in so many parts.
MORE_SEEDS, PARTS = 10_000, 50


@pytest.mark.parametrize("faults", FAULTS)
@pytest.mark.parametrize("plan", [*PLANS, "free"])
def test_each_promise_is_kept_on_days_with_these_faults(plan: str, faults: str) -> None:
    for seed in range(SEEDS):
        RoundDay(seed, plan, frozenset(faults.split())).run()


@pytest.mark.slow
@pytest.mark.timeout(3600)
@pytest.mark.parametrize("part", range(PARTS))
def test_each_promise_is_kept_on_many_days(part: int) -> None:
    plans = [*PLANS, "free"]
    for seed in range(part, MORE_SEEDS, PARTS):
        RoundDay(SEEDS + seed, plans[seed // PARTS % len(plans)], frozenset(FAULTS[seed // PARTS // len(plans) % len(FAULTS)].split())).run()


class Few(RoundPromises):
    """Looks at the end alone, since several names share a session."""

    def event(self, world: World, event: Event) -> None:
        """Nothing is looked at."""

    def effect(self, world: World, effect: Effect) -> None:
        """Nothing is looked at."""

    def at_the_end(self, world: World) -> None:
        closed = [entry["closed"] for entry in world.disk.entries if entry["kind"] == "clock" and entry["what"] == "closed"]
        assert world.disk.accepted() == [(line, f"OK {number}") for number, line in enumerate(world.server.file, 1)]
        assert closed == list(range(1, 1 + sum(line.startswith("CLOSE ") for line in world.server.file)))


@pytest.mark.parametrize("sessions", [1, 2, 3])
@pytest.mark.parametrize("plan", PLANS)
def test_names_that_share_sessions_hold_one_another_up_for_no_longer_than_a_close(plan: str, sessions: int) -> None:
    """All lines are answered, and all rounds come to their close."""
    for seed, faults in enumerate(("", "kills boundary", "losses vanishing reloads", "set sync sleeps")):
        day = RoundDay(seed, plan, frozenset(faults.split()))
        day.world.sessions, day.promises = sessions, Few()
        day.world.watch = day.promises
        day.run()


# Planted bugs.

Patch = pytest.MonkeyPatch
Plant = Callable[[Patch], None]
mark, look_at_open, resume, was_closed, begin = rounds.mark, rounds.look_at_open, rounds.resume, rounds.was_closed, rounds.begin
refusal, answer, next_line = desk.refusal, desk.answer, news.next_line


def ends_early(patch: Patch) -> None:
    """A round ends with its last warning."""
    patch.setattr(rounds, "look_at_open", lambda step, until, now: look_at_open(step, until - 10, now))


def goes_by_the_clock_that_was_set(patch: Patch) -> None:
    """Time is UTC by the last reading, and nobody looks whether it was set."""
    patch.setattr(rounds, "time_of", lambda front: front.rounds.offset + front.time)
    patch.setattr(rounds, "JUMP_SECONDS", 1e9)


def closed_again_after_a_kill(patch: Patch) -> None:
    """A front that starts again tells the last close once more."""

    def twice(step: Step) -> None:
        begin(step)
        if step.front.rounds.saved and step.front.rounds.closed:
            was_closed(step)

    patch.setattr(rounds, "begin", twice)


def a_repeat_closes_once_more(patch: Patch) -> None:
    """Whenever SHOW comes behind a CLOSE, a round counts as closed."""
    patch.setattr(rounds, "closed_by", lambda known: known.closed + 1 if known.has_begun and known.at != "over" else known.round - (not known.is_over))


def close_does_not_wait(patch: Patch) -> None:
    """A CLOSE by the clock leaves at the end of the round, though commands of the round wait, which are then told."""
    patch.setattr(sessions, "is_waited_for", lambda step, counts: False)


def takes_after_the_time(patch: Patch) -> None:
    """Commands are taken until the close."""
    patch.setattr(rounds, "mark", lambda front: front.rounds.round if front.rounds.at in ("open", "closing") and not front.rounds.paused else mark(front))


def takes_in_a_pause(patch: Patch) -> None:
    """Commands are taken while the clock is paused."""

    def blind(front: Front) -> int:
        return mark(changed(front, rounds=changed(front.rounds, paused="")))

    patch.setattr(rounds, "mark", blind)


def refuses_in_time(patch: Patch) -> None:
    """A command that waits when the time is over is refused, though it was taken before."""

    def late(step: Step, item: Item) -> str | None:
        now = rounds.mark(step.front)
        return refusal(step, changed(item, round=min(item.round, now)))

    patch.setattr(desk, "refusal", late)


def round_is_not_compared(patch: Patch) -> None:
    """The number of a command's round isn't looked at."""

    def blind(step: Step, item: Item) -> str | None:
        return refusal(step, changed(item, line=for_server(item.line)) if item.line.startswith(b"IN ") else item)

    patch.setattr(desk, "refusal", blind)


def repeats_are_refused(patch: Patch) -> None:
    """A command that the file has is refused, if its round is over."""

    def blind(step: Step, item: Item) -> str | None:
        ledger = step.front.ledger
        if item.line.startswith(b"CLOSE "):
            return refusal(step, item)
        step.set_ledger(used={})
        word = refusal(step, item)
        step.set_ledger(used=ledger.used)
        return word

    patch.setattr(desk, "refusal", blind)


def absence_is_not_noticed(patch: Patch) -> None:
    """A round is closed whenever its end is noticed."""
    patch.setattr(rounds, "AWAY_SECONDS", 1e9)
    patch.setattr(rounds, "LATE_SECONDS", 1e9)


def time_is_not_given_back(patch: Patch) -> None:
    """After a pause the round ends when it was to end before."""

    def short(step: Step) -> None:
        rounds.change(step, left=0.0)
        resume(step)

    patch.setattr(rounds, "resume", short)


def clock_may_end_it(patch: Patch) -> None:
    """Any close may end the auction."""
    patch.setattr(Books, "would_end", lambda self: False)


def told_before_it_is_written(patch: Patch) -> None:
    """News leave at once."""
    patch.setattr(news, "next_line", lambda front, name, after, most_entry: next_line(front, name, after, front.ledger.written))


def schedule_before_it_is_written(patch: Patch) -> None:
    """The state of the clock leaves at once."""
    patch.setattr(desk, "answer", lambda step, name, line: (answer(step, name, line)[0], 0 if line == b"SCHEDULE" else step.front.ledger.written))


def told_to_others(patch: Patch) -> None:
    """Everybody gets news that are for one name."""
    patch.setattr(news, "seen_by", lambda viewer, fact: fact)


def never_ends(patch: Patch) -> None:
    """The end of a round isn't noticed."""
    patch.setattr(rounds, "look_at_open", lambda step, until, now: None)


def absence_by_a_kill_is_not_noticed(patch: Patch) -> None:
    """A front that starts again closes a round whose time is over."""

    def blind(step: Step) -> None:
        begin(step)
        rounds.change(step, seen=rounds.time_of(step.front))

    patch.setattr(rounds, "begin", blind)


PLANTS: list[tuple[Plant, Kept, str, str]] = [
    (ends_early, Kept.NEVER_EARLY, "windows", ""),
    (goes_by_the_clock_that_was_set, Kept.TIME_GIVEN_BACK, "lengths", "set"),
    (closed_again_after_a_kill, Kept.CLOSED_ONCE, "lengths", "kills boundary"),
    (a_repeat_closes_once_more, Kept.CLOSED_ONCE, "lengths", ""),
    (close_does_not_wait, Kept.OF_ITS_ROUND, "lengths", ""),
    (takes_after_the_time, Kept.OF_ITS_ROUND, "windows", ""),
    (takes_in_a_pause, Kept.OF_ITS_ROUND, "windows", ""),
    (refuses_in_time, Kept.TAKEN_IN_TIME, "lengths", ""),
    (round_is_not_compared, Kept.BOUND, "lengths", ""),
    (repeats_are_refused, Kept.NEVER_DENIED, "lengths", "kills boundary vanishing"),
    (absence_is_not_noticed, Kept.ABSENCE_TOLD, "lengths", "sleeps"),
    (time_is_not_given_back, Kept.TIME_GIVEN_BACK, "lengths", ""),
    (clock_may_end_it, Kept.NO_SLIP, "lengths", ""),
    (told_before_it_is_written, Kept.NEWS_IN_ORDER, "lengths", ""),
    (schedule_before_it_is_written, Kept.NEWS_IN_ORDER, "lengths", ""),
    (told_to_others, Kept.NEWS_IN_ORDER, "lengths", ""),
    (never_ends, Kept.READY, "lengths", ""),
    (absence_by_a_kill_is_not_noticed, Kept.ABSENCE_TOLD, "lengths", "kills boundary"),
]


@pytest.mark.parametrize(("plant", "promise", "plan", "faults"), PLANTS, ids=[plant.__name__ for plant, _, _, _ in PLANTS])
def test_a_planted_bug_is_caught(plant: Plant, promise: Kept, plan: str, faults: str, monkeypatch: Patch) -> None:
    plant(monkeypatch)
    with pytest.raises((NotKept, Broken)) as caught:
        for seed in range(PLANT_SEEDS):
            RoundDay(seed, plan, frozenset(faults.split())).run()
    assert isinstance(caught.value, NotKept) and caught.value.promise == promise, caught.value


def test_a_window_that_has_begun_is_used_no_more() -> None:
    plan = Plan(windows=((1000.0, 1100.0), (1200.0, 1300.0), (1300.0, 1400.0)))
    assert [plan.next(now, None) for now in (0.0, 1004.0, 1006.0)] == [(1000.0, 1100.0), (1000.0, 1100.0), (1200.0, 1300.0)]
    assert (plan.next(1100.0, 1000.0), plan.next(1202.0, 1200.0), plan.next(1301.0, 1300.0)) == ((1200.0, 1300.0), (1300.0, 1400.0), None)


def test_lengths_and_gaps_begin_with_the_first_time_and_go_on_behind_each_close() -> None:
    plan = Plan(first=1000.0, length=60, gap=10)
    assert (plan.next(0.0, None), plan.next(1000.5, None), plan.next(1061.2, 1000.0)) == ((1000.0, 1060.0), (1001.0, 1061.0), (1072.0, 1132.0))


def test_what_is_said_of_the_constants_holds() -> None:
    """A round isn't paused by the pace of readings alone: they come each half second, and the record hears of an open round in time."""
    assert clock.LATE_SECONDS > 4 * 0.5 and clock.AWAY_SECONDS > 2 * clock.BEAT_SECONDS + clock.LATE_SECONDS
