"""Sessions that wait: for a bid that is held to be made durable, for a checkpoint, or for a disk that hangs."""

from __future__ import annotations

import select
from collections.abc import Sequence

from failing.bidders import FAILED
from failing.trials import DISK_FAILS, FIRST, MOST_SESSIONS, Trial
from harness.auctions import text_of
from harness.failing_calls import EVER, By, Call, Rule, Way
from harness.serving import Client, wait_until
from outside.answering import same

# In trials that have to miss an answer or an end: how many seconds to wait for it.
SHORT_BOUND = 1
LOOK = 0.05
# How many sessions wait for a refusal.
SLEEPERS = 6
GAP = "ERR 15 gap"
EACH_SYNC_BEHIND_A_BODY = Rule(Call.SYNC, Way.HELD, last=EVER, step=2, thread=By.COMMITTER)
FIRST_SYNC = Rule(Call.SYNC, Way.HELD, thread=By.COMMITTER)


def bid_of(place: int, ticket: int = 1) -> bytes:
    """A bid that is accepted, whatever others bid."""
    return f"BID b{place} {ticket} l{ticket - 1} 100\n".encode()


def gap_of(place: int) -> bytes:
    """A bid that is refused because earlier bids are missing."""
    return f"BID b{place} 9 l0 100\n".encode()


def line_of(session: Client) -> str:
    """The next line, or why there isn't one."""
    try:
        return session.line()
    except OSError as error:
        return repr(error)


def is_answered(session: Client) -> bool:
    """Whether the session has anything to be read."""
    return bool(select.select([session.socket], [], [], LOOK)[0])


def wait_until_held(trial: Trial, what: str, count: int = 1) -> None:
    """Returns once so many calls were held."""
    wait_until(lambda: trial.faults.met() == count, trial.bound, what)


def refuses_sleepers(trial: Trial, *others: Rule) -> None:
    """While a bid is held, other sessions send commands that will be refused, and sleep. They have to be woken, one alone or all at once,
    though nothing is written for them.
    """
    trial.serve(MOST_SESSIONS)
    trial.faults.set(EACH_SYNC_BEHIND_A_BODY, *(others or [Rule(Call.WRITE, Way.MADE, last=EVER, thread=By.COMMITTER)]))
    first, *sleepers = trial.connect(SLEEPERS + 1)
    groups = [*([session] for session in sleepers), sleepers]
    for number, group in enumerate(groups, 1):
        first.send(bid_of(0, number))
        wait_until_held(trial, f"the bid of {len(group)} refusals isn't held", number)
        for place, session in enumerate(group, 1):
            session.send(gap_of(place))
        trial.sleeps()
        trial.faults.release()
        same(line_of(first), f"OK {len(FIRST) + number}", f"the bid of {len(group)} refusals")
        same([line_of(session) for session in group], [GAP] * len(group), f"{len(group)} refusals")
    same(trial.faults.begun(1), 2 * len(groups), "writes of batches")
    trial.end_all([first, *sleepers], f"CLOSED {len(FIRST) + len(groups)}\n")


def halts_sleepers(trial: Trial, wakes: Way) -> Sequence[Client]:
    """One session's command is in a batch that waits and then fails, and the commands of the others are behind it. `wakes` says what
    becomes of wake-ups.
    """
    trial.serve(MOST_SESSIONS)
    trial.faults.set(FIRST_SYNC)
    sessions = trial.connect(SLEEPERS)
    for place, session in enumerate(sessions):
        session.send(bid_of(place))
        wait_until_held(trial, "the first bid isn't held")
    trial.sleeps()
    trial.faults.set(Rule(Call.WRITE, Way.NOTHING), Rule(Call.WAKE, wakes, last=EVER))
    trial.faults.release()
    same([line_of(session) for session in sessions], [FAILED] * SLEEPERS, "a write that fails")
    return sessions


def waits_for_checkpoint(trial: Trial, fails: bool) -> None:
    """A checkpoint waits until the journal is full, and then goes on or fails. Every session that waits for it is answered."""
    first, *others = sessions = trial.connect(5)
    journal = trial.layout.least_journal
    count = len(FIRST) + journal
    found = [first.ask(bid_of(0, ticket).decode().rstrip()) for ticket in range(1, journal + 1)]
    same(found, [f"OK {number}" for number in range(len(FIRST) + 1, count + 1)], "while there are frames")
    # The batch that waits is held before any other letter comes.
    first.send(bid_of(0, journal + 1))
    trial.sleeps()
    for session, line in zip(others, [gap_of(1), gap_of(2), bid_of(3), bid_of(4)]):
        session.send(line)
    trial.sleeps()
    trial.faults.release()
    found = [line_of(session) for session in sessions]
    if fails:
        same(found, [FAILED] * 5, "behind the checkpoint")
        same([session.ask("SHOW").split(" ")[-1] for session in sessions], [str(count)] * 5, "what is shown then")
    else:
        accepted = [f"OK {count + place}" for place in (1, 2, 3)]
        same((found[1:3], sorted([found[0], *found[3:]])), ([GAP] * 2, accepted), "behind the checkpoint")
        count += 3
    trial.end_all(sessions, f"CLOSED {count}\n", fails)
    assert trial.program.count(trial.file) == count


def held_behind_question(trial: Trial, kinds: Call, thread: By) -> None:
    """A session sends a question and a bid together. It gets the answer to the question while the bid is held."""
    trial.serve(MOST_SESSIONS)
    [session] = trial.connect(1)
    trial.faults.set(Rule(kinds, Way.HELD, thread=thread))
    session.send(text_of(["SHOW"]) + bid_of(0))
    same(line_of(session), f"ROUND 1 STAGE 1 OPEN REVENUE 0 COUNT {len(FIRST)}", "the question")
    wait_until_held(trial, "the bid isn't held")
    trial.faults.release()
    same(line_of(session), f"OK {len(FIRST) + 1}", "the bid")
    trial.end_all([session], f"CLOSED {len(FIRST) + 1}\n")


def tells_at_once(trial: Trial, wakes: Way = Way.MADE) -> None:
    """A commit fails while nothing else goes on. The failure is reported before the session that sent the bid ends. `wakes` says what
    becomes of wake-ups from the failure on.
    """
    trial.serve(1)
    [session] = trial.connect(1)
    trial.sleeps()
    trial.faults.set(FIRST_SYNC)
    session.send(bid_of(0))
    wait_until_held(trial, "the bid isn't held")
    trial.faults.set(Rule(Call.WRITE, Way.NOTHING), Rule(Call.WAKE, wakes, last=EVER))
    trial.faults.release()
    trial.server.wait_until_said(DISK_FAILS, trial.bound)
    same((line_of(session), session.finish()), (FAILED, []), "the bid")
    written, status, said = trial.ended()
    same((written, status, said.count(DISK_FAILS)), (f"CLOSED {len(FIRST)}\n", 1, 1), f"the end: {said}")
