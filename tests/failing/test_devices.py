"""Writes and syncs fail while up to 32 clients are served, each call of the device in turn.

Each client has to be answered. People have to be informed at once, and at the end in the system's own words. The server ends by itself.
The file keeps each command that was answered by OK, and of the others at most one batch. Nothing is asked of the device after a fault.
"""

from __future__ import annotations

import errno
import itertools

import pytest

from failing.bidders import wrong_of
from failing.trials import CHECKPOINT, COMMIT, DISK, DISK_FAILS, MOST_SESSIONS, Trial
from harness.auctions import text_of
from harness.bidding import LICENCES
from harness.conditions import Conditions
from harness.failing_calls import EVER, By, Call, Rule, Way
from harness.full_disks import no_signal
from harness.programs import Program
from harness.serving import Client
from outside.answering import same

DEVICE = Call.WRITE | Call.SYNC
# How a call fails. For a sync, HALF means the same as NOTHING.
WAYS, ERRORS = (Way.NOTHING, Way.HALF, Way.ALL), (errno.EIO, errno.ENOSPC)
# How many bids each of two bidders makes. A commit has at most one bid of each, so this gives a least number of calls of the device,
# however the bids meet. Into how many tests these calls are dealt.
FEW_BIDS, PARTS = 8, 4
LEAST_CALLS = len(COMMIT) * FEW_BIDS
# How many calls of a checkpoint are syncs: behind closing the slot, its pages, opening the slot, and the frames.
CHECKPOINT_SYNCS = sum(stage.startswith("sync") for stage in CHECKPOINT)


def fault_of(number: int, turn: int) -> tuple[Way, int]:
    """How the call of this number fails in this turn, and by which error."""
    return WAYS[(number + turn) % len(WAYS)], ERRORS[(number + turn) // len(WAYS) % len(ERRORS)]


def crowd(trial: Trial, rule: Rule, lie: str = "", bids: int = LICENCES) -> Trial:
    """All but two sessions bid at once, and a call fails. After that, a session that was silent bids, and so does one that connects only
    then. AssertionError unless all holds.
    """
    trial.serve(MOST_SESSIONS, lie)
    trial.faults.set(rule)
    *bidding, silent = trial.join(range(MOST_SESSIONS - 1), bids)
    trial.attend(bidding)
    trial.attend([silent, *trial.join([MOST_SESSIONS - 1], bids)])
    trial.holds()
    return trial


@pytest.mark.timeout(300)
@pytest.mark.parametrize("part", range(1, PARTS + 1))
def test_each_call(trial: Trial, turn: int, part: int) -> None:
    """With two clients."""
    for number in itertools.count(part, PARTS):
        way, error = fault_of(number, turn)
        trial.begin(is_traced=(number // PARTS + turn) % 2 == 0).serve(2)
        trial.faults.set(Rule(DEVICE, way, number, error=error))
        trial.bid(range(2), FEW_BIDS).holds()
        if not trial.is_met:
            break
    assert number > LEAST_CALLS


@pytest.mark.parametrize(("number", "name"), enumerate(COMMIT, 2 * len(COMMIT) + 1), ids=COMMIT)
def test_each_call_of_the_third_commit(trial: Trial, turn: int, number: int, name: str) -> None:
    way, error = fault_of(number, turn)
    assert crowd(trial.begin(is_traced=True), Rule(DEVICE, way, number, thread=By.COMMITTER, error=error)).stage == name


def test_each_call_of_a_checkpoint(trial: Trial, turn: int) -> None:
    """The calls up to the first frame that it closes are found by their numbers among all calls. How many frames it closes isn't known
    beforehand, so the sync after them is found by its number among the syncs.
    """
    found = []
    for number, kinds in (*((number, DEVICE) for number in range(1, len(CHECKPOINT))), (CHECKPOINT_SYNCS, Call.SYNC)):
        way, error = fault_of(number, turn)
        found.append(crowd(trial.begin(is_traced=True), Rule(kinds, way, number, thread=By.CHECKPOINTER, error=error)).stage)
    assert sorted(map(str, found)) == sorted(CHECKPOINT)


def test_a_later_checkpoint(trial: Trial, turn: int) -> None:
    number = 20 + turn % 20
    way, error = fault_of(number, turn)
    crowd(trial, Rule(DEVICE, way, number, thread=By.CHECKPOINTER, error=error))


@pytest.mark.parametrize("thread", [By.COMMITTER, By.CHECKPOINTER], ids=["committer", "checkpointer"])
def test_clients_that_vanish(trial: Trial, turn: int, thread: By) -> None:
    """Half of the clients break off their connections before they are answered. The others are answered, and the server ends."""
    trial.serve(MOST_SESSIONS)
    trial.faults.set(Rule(DEVICE, Way.NOTHING, 5 + turn % 9, thread=thread))
    half = MOST_SESSIONS // 2
    trial.attend(trial.join(range(half)), MOST_SESSIONS, lambda: vanish(trial, half))
    same(wrong_of(trial.bidders), [], "answers")
    written, status, said = trial.ended()
    same((written[:7], status, said.startswith(DISK_FAILS), DISK in said), ("CLOSED ", 1, True, True), f"the end: {written}{said}")
    greatest = max([0, *(number for bidder in trial.bidders for number in bidder.numbers.values())])
    assert greatest <= int(written[7:]) <= trial.program.count(trial.file)


def vanish(trial: Trial, first: int) -> None:
    """The clients from this place on bid once and are gone."""
    for place in range(first, MOST_SESSIONS):
        client = Client(trial.server.port)
        client.send(text_of([f"BID b{place} 1 l0 100"]))
        client.reset()


def test_a_full_disk(trial: Trial, turn: int) -> None:
    """From some write on, for the rest of a part of a batch or for any of it."""
    way = (Way.NOTHING, Way.HALF)[(trial.layout.value + turn) % 2]
    trial.serve(MOST_SESSIONS)
    trial.faults.set(Rule(Call.WRITE, way, 20 + turn % 30, EVER, error=errno.ENOSPC))
    trial.bid(range(MOST_SESSIONS)).holds()
    assert trial.is_met


def test_halves_and_interruptions_are_no_faults(trial: Trial, turn: int) -> None:
    trial.begin(is_traced=True, is_harmless=True).serve(8)
    trial.faults.set(
        Rule(Call.WRITE | Call.READ, Way.SHORT, last=EVER), Rule(DEVICE | Call.READ, Way.NOTHING, last=EVER, step=3, error=errno.EINTR)
    )
    trial.bid(range(8), 20).holds()
    assert trial.faults.met(1) > 20


def test_a_file_that_reaches_a_limit_of_its_length(trial: Trial) -> None:
    """It needs no library."""
    trial.start(MOST_SESSIONS, Conditions(last=no_signal))
    trial.attend(trial.join(range(MOST_SESSIONS - 1)), 200, trial.limit)
    trial.bid([MOST_SESSIONS - 1]).holds()


# Lies: each of these is found.


def failing_commit(trial: Trial, way: Way = Way.NOTHING, number: int = 10, lie: str = "") -> None:
    """By default the sync of the third batch fails."""
    rule = Rule(DEVICE, way, number, thread=By.COMMITTER, error=fault_of(number, 0)[1])
    crowd(trial.begin(is_traced=True), rule, lie, FEW_BIDS)


@pytest.mark.parametrize(
    ("way", "number", "lie", "words"),
    [
        (Way.LEFT_OUT, 10, "", "the end"),
        (Way.NOTHING, 10, "gate", "promises"),
        (Way.NOTHING, 12, "body", "promises"),
    ],
    ids=["a-sync-that-is-not-made", "gates-that-are-not-synced", "batches-that-are-not-synced"],
)
def test_syncs_that_are_left_out_are_found(paged: Trial, way: Way, number: int, lie: str, words: str) -> None:
    with pytest.raises(AssertionError, match=words):
        failing_commit(paged, way, number, lie)


def wrapped(trial: Trial, words: str) -> Program:
    """The program inside a script that runs these words after the program has ended serving."""
    script = trial.folder / "wrapped"
    script.write_text(f'#!/bin/sh\n"{trial.program.path}" "$@" || status=$?\n[ "$1" = serve ] && {words}\nexit $status\n')
    script.chmod(0o755)
    return Program(script)


@pytest.mark.parametrize(("does", "words"), [("exit 0", "the end"), ("exec sleep 60", "serve didn't end")], ids=["well", "endless"])
def test_another_end_is_found(paged: Trial, does: str, words: str) -> None:
    paged.program = wrapped(paged, does)
    paged.bound = 3
    with pytest.raises(AssertionError, match=words):
        failing_commit(paged)


def test_a_file_that_loses_what_was_accepted_is_found(paged: Trial) -> None:
    paged.serve(2).bid(range(2), 3).is_answered()
    paged.server.kill()
    paged.file.write_bytes(paged.before)
    with pytest.raises(AssertionError, match="keeps"):
        paged.goes_on(paged.file)


def test_a_batch_that_is_not_written_is_found(paged: Trial) -> None:
    """The checkpoint that would cover it waits."""
    paged.serve(1)
    paged.faults.set(Rule(Call.WRITE, Way.LEFT_OUT, 5, thread=By.COMMITTER), Rule(Call.NAME, Way.HELD, thread=By.CHECKPOINTER))
    paged.bid([0], 3).is_answered()
    paged.server.kill()
    with pytest.raises(AssertionError, match="keeps"):
        paged.goes_on(paged.file)
