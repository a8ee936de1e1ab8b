"""Memory, a thread or a connection is refused while a file is served.

All that was answered by OK is in the file. Sessions that have a thread are served to their end, and nobody else is accepted.
"""

from __future__ import annotations

import errno
import os
import resource
import time

import pytest

from failing.bidders import wrong_of
from failing.trials import FIRST, MOST_SESSIONS, Trial
from failing.waiting import LOOK, SHORT_BOUND
from harness.bidding import LICENCES
from harness.conditions import NORMAL, Conditions
from harness.failing_calls import EVER, By, Call, Rule, Way
from harness.users import User
from outside.answering import same

MEMORY = (
    "ERR 90 memory\n",
    "hpb: 90 memory: memory, or a thread, was refused: free some memory, let the process have more threads (ulimit -u), or give "
    "fewer to --sessions. All that was answered by OK is kept\n",
)
# The program says this as soon as a thread is refused.
NO_THREAD = "hpb: a thread was refused (ulimit -u tells how many there may be): sessions that have one are served to their end, and nobody else is taken\n"
# The thread that reports what happens, and the two workers.
THREADS_BEFORE = 3
ACCEPT_ERRORS = (errno.EMFILE, errno.ENFILE, errno.ENOBUFS, errno.ECONNABORTED, errno.EPERM)


def without_memory(trial: Trial, kinds: Call, bids: int = LICENCES) -> None:
    """Once all sessions are there, each request for memory is refused. All are answered."""
    trial.begin(is_harmless=True).serve(MOST_SESSIONS)
    bidders = trial.join(range(MOST_SESSIONS), bids)
    trial.sleeps()
    trial.faults.set(Rule(kinds, Way.NOTHING, last=EVER))
    trial.attend(bidders)
    trial.holds(tells_ends=not kinds & Call.REQUEST)
    assert trial.faults.met() > 0, "no memory was refused"


def takes_none(trial: Trial, thread: By, bids: int = LICENCES) -> None:
    """Such a thread never asks for memory. Requests are only counted, and none is refused, so that nothing else changes."""
    trial.begin(is_harmless=True).serve(MOST_SESSIONS)
    trial.faults.set(Rule(Call.REQUEST, Way.MADE, last=EVER, thread=thread), Rule(Call.WRITE, Way.MADE, last=EVER, thread=By.COMMITTER))
    trial.bid(range(MOST_SESSIONS), bids).holds()
    assert trial.faults.begun(1) > bids, "it wrote no batches"
    same(trial.faults.begun(), 0, "its requests")


def test_all_memory_is_refused_once_the_sessions_are_there(trial: Trial) -> None:
    without_memory(trial, Call.REQUEST)


def test_the_committer_takes_no_memory(trial: Trial) -> None:
    """From its first write on."""
    takes_none(trial, By.COMMITTER)


def refuses_thread(trial: Trial, number: int, conditions: Conditions | None = None, sessions: int = 3) -> None:
    """The sessions before the one whose thread is refused are served. The refusal is reported before any of them connects."""
    served = number - THREADS_BEFORE - 1
    if served <= 0:
        port, found = trial.served(sessions, conditions)
        same(found.told(), (f"LISTENING {port}\n{MEMORY[0]}", NO_THREAD + MEMORY[1], 1), "the end")
        assert trial.file.read_bytes() == trial.before
        return
    trial.start(sessions, conditions)
    same(trial.server.wait_until_said(NO_THREAD, trial.bound), NO_THREAD, "what is told before any is taken")
    bidders = trial.join(range(served), 10)
    assert not is_taken(trial), "more are taken"
    trial.attend(bidders)
    same(wrong_of(bidders), [], "answers")
    same(trial.ended(), (MEMORY[0], 1, NO_THREAD + MEMORY[1]), "the end")
    assert trial.program.count(trial.file) == len(FIRST) + 10 * served


def is_taken(trial: Trial) -> bool:
    """Whether one more connection is served after those before it."""
    time.sleep(LOOK)
    try:
        return bool(trial.server.connect().ask("SHOW"))
    except TimeoutError:
        # It was accepted, and nobody answers it.
        return True
    except OSError:
        return False


@pytest.mark.parametrize("number", range(2, THREADS_BEFORE + 4))
def test_a_thread_is_refused(trial: Trial, number: int) -> None:
    """Of both workers, and of sessions."""
    refuses_thread(trial.refuse(Rule(Call.THREAD, Way.NOTHING, number, error=errno.EAGAIN)), number)


@pytest.mark.as_root
@pytest.mark.parametrize("number", range(1, THREADS_BEFORE + 3))
def test_a_thread_is_more_than_the_user_may_have(trial: Trial, number: int) -> None:
    """The user runs nothing else, and may have so many threads, the program's first one included."""
    own = 40_000 + os.getpid() % 20_000
    user = User(own, own)
    user.own(trial.file)
    user.own(trial.folder)
    refuses_thread(trial, number, NORMAL.as_user(user).with_limit(resource.RLIMIT_NPROC, number))


def missed(code: int) -> str:
    """The message about a connection that can't be accepted."""
    return f"hpb: a connection could not be accepted, and its session has ended: {os.strerror(code)} (os error {code})\n"


def misses(trial: Trial, number: int, code: int, way: Way = Way.NOTHING) -> None:
    """One of three connections isn't accepted. It is reported, and counts as a session."""
    trial.refuse(Rule(Call.ACCEPT, way, number, error=code)).start(3).bid(range(2), 3)
    same(wrong_of(trial.bidders), [], "answers")
    same(trial.ended(), (f"CLOSED {len(FIRST) + 6}\n", 0, missed(code)), "the end")


@pytest.mark.parametrize(("number", "code"), enumerate(ACCEPT_ERRORS), ids=[errno.errorcode[code] for code in ACCEPT_ERRORS])
def test_a_connection_that_cannot_be_accepted(trial: Trial, number: int, code: int) -> None:
    misses(trial, number % 3 + 1, code)


def test_no_connection_can_be_accepted(trial: Trial) -> None:
    port, found = trial.refuse(Rule(Call.ACCEPT, Way.NOTHING, last=EVER, error=errno.EMFILE)).served(3)
    same(found.told(), (f"LISTENING {port}\nCLOSED {len(FIRST)}\n", missed(errno.EMFILE) * 3, 0))


def test_a_connection_whose_accept_is_interrupted(trial: Trial) -> None:
    """It isn't reported, and doesn't count."""
    trial.begin(is_harmless=True).refuse(Rule(Call.ACCEPT, Way.NOTHING, last=EVER, step=2, error=errno.EINTR))
    trial.start(3).bid(range(3), 3).holds()


# Lies: each of these is found.


def test_memory_that_is_asked_for_is_found(paged: Trial) -> None:
    with pytest.raises(AssertionError, match="its requests"):
        takes_none(paged, By.ANYBODY, 1)


def test_memory_that_is_not_refused_is_found(paged: Trial) -> None:
    with pytest.raises(AssertionError, match="no memory was refused"):
        without_memory(paged, Call(0), 1)


@pytest.mark.parametrize("number", [1, THREADS_BEFORE + 1])
def test_a_thread_that_is_not_refused_is_found(paged: Trial, number: int) -> None:
    paged.bound = SHORT_BOUND
    with pytest.raises(AssertionError, match="^hpb .* LISTENING|^after 1 seconds: 'hpb: a thread was refused"):
        refuses_thread(paged, number)


def test_a_connection_that_is_accepted_is_found(paged: Trial) -> None:
    paged.bound = SHORT_BOUND
    with pytest.raises(AssertionError, match="the end|serve didn't end"):
        misses(paged, 1, errno.EMFILE, Way.MADE)
