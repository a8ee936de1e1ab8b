"""Sessions that wait are answered: refusals behind a bid, halts, what a disk that hangs or a full journal holds up, and questions.

A server that loses a wake-up is found. That is left out for a program that wakes its threads by a system call of its own.
"""

from __future__ import annotations

import pytest

from failing.trials import FIRST, MOST_SESSIONS, Trial
from failing.waiting import (
    FIRST_SYNC,
    GAP,
    SHORT_BOUND,
    bid_of,
    gap_of,
    halts_sleepers,
    held_behind_question,
    is_answered,
    line_of,
    refuses_sleepers,
    tells_at_once,
    wait_until_held,
    waits_for_checkpoint,
)
from harness.failing_calls import EVER, By, Call, Rule, Way
from outside.answering import same


def test_refusals_to_those_that_sleep(trial: Trial) -> None:
    refuses_sleepers(trial)


def test_a_halt_that_comes_to_those_that_sleep(trial: Trial) -> None:
    sessions = halts_sleepers(trial, Way.MADE)
    trial.end_all(sessions, f"CLOSED {len(FIRST)}\n", is_of_disk=True)


def test_a_disk_that_hangs(trial: Trial) -> None:
    """No command is answered meanwhile. Questions are, from the durable commands. Once the sync returns, all are answered."""
    trial.serve(MOST_SESSIONS)
    trial.faults.set(FIRST_SYNC)
    first, second, third = sessions = trial.connect(3)
    first.send(bid_of(0))
    wait_until_held(trial, "the bid isn't held")
    second.send(gap_of(1))
    trial.sleeps()
    shown = [third.ask("SHOW").split(" ")[-1], third.ask("NODE l0").split(" ")[:2]]
    same(shown, [str(len(FIRST)), ["NODE", "l0"]], "what is shown meanwhile")
    assert [is_answered(session) for session in (first, second)] == [False] * 2
    trial.faults.release()
    same([line_of(first), line_of(second)], [f"OK {len(FIRST) + 1}", GAP], "once it returns")
    trial.end_all(sessions, f"CLOSED {len(FIRST) + 1}\n")


@pytest.mark.parametrize("fails", [False, True], ids=["goes-on", "fails"])
def test_a_journal_that_is_full_while_a_checkpoint_waits(trial: Trial, fails: bool) -> None:
    """After its third call of the device it looks at the name of the file, and holds no lock then. Its fourth may fail."""
    trial.serve(MOST_SESSIONS)
    fourth = Rule(Call.WRITE | Call.SYNC, Way.NOTHING if fails else Way.MADE, 4, thread=By.CHECKPOINTER)
    trial.faults.set(Rule(Call.NAME, Way.HELD, thread=By.CHECKPOINTER), fourth)
    waits_for_checkpoint(trial, fails)


def test_an_answer_before_a_bid_that_is_held(trial: Trial) -> None:
    held_behind_question(trial, Call.WRITE, By.COMMITTER)


def test_a_failure_that_is_told_at_once(trial: Trial) -> None:
    tells_at_once(trial)


# Lies: each of these is found.


def test_an_answer_that_waits_is_found(paged: Trial) -> None:
    paged.bound = SHORT_BOUND
    with pytest.raises(AssertionError, match="the question"):
        held_behind_question(paged, Call.SEND, By.ANYBODY)


@pytest.fixture
def sleepless(paged: Trial) -> Trial:
    """A trial of few seconds. It is left out if the library doesn't see that a session wakes the thread that commits its bid."""
    paged.begin(is_harmless=True).serve(1)
    paged.sleeps()
    paged.faults.set(Rule(Call.WAKE, Way.MADE, last=EVER))
    paged.bid([0], 1).holds()
    if paged.faults.begun() == 0:
        pytest.skip("the program wakes its threads without the C library")
    paged.bound = SHORT_BOUND
    return paged.begin()


@pytest.mark.by_libc
def test_refusals_that_wake_nobody_are_found(sleepless: Trial) -> None:
    """From some moment on, no thread is woken by another one."""
    with pytest.raises(AssertionError, match="refusals"):
        refuses_sleepers(sleepless, Rule(Call.WAKE, Way.LEFT_OUT, 5, EVER))


@pytest.mark.by_libc
def test_a_halt_that_wakes_nobody_is_found(sleepless: Trial) -> None:
    with pytest.raises(AssertionError, match="a write that fails"):
        halts_sleepers(sleepless, Way.LEFT_OUT)


@pytest.mark.by_libc
def test_a_failure_that_wakes_nobody_is_found(sleepless: Trial) -> None:
    with pytest.raises(AssertionError, match="a call of the disk of"):
        tells_at_once(sleepless, Way.LEFT_OUT)
