"""Bugs planted in the core of a front. Each is caught by the promise that it breaks, so the days of `test_front_core` can fail."""
from __future__ import annotations

from collections.abc import Callable
from dataclasses import replace

import pytest

from front_days import Day
from front_promises import Broken, Promise
from hpb.front.core import clients, ending, finding, freezing, matching, serving, sessions
from hpb.front.core.effects import Wake
from hpb.front.core.ledger import Held, Ledger
from hpb.front.core.state import Connection, For, Freeze, Item, Phase, Stage
from hpb.front.core.stepping import Step
from hpb.front.rights import Role, refused

SEEDS = 40
Plant = Callable[[pytest.MonkeyPatch], None]
leave, tell, take_beside, queue, sweep_all = sessions.leave, sessions.tell, sessions.take_beside, clients.queue, clients.sweep
begin, look = finding.begin, finding.look


def answer_before_sync(patch: pytest.MonkeyPatch) -> None:
    """An answer leaves as soon as its entry is written."""

    def early(step: Step, place: int) -> None:
        synced = step.front.ledger.synced
        step.set_ledger(synced=step.front.ledger.written)
        leave(step, place)
        step.set_ledger(synced=synced)

    patch.setattr(sessions, "leave", early)


def entry_lost_at_kill(patch: pytest.MonkeyPatch) -> None:
    """Commands beside the record aren't looked for after a kill."""
    patch.setattr(finding, "begin", lambda step, event: begin(step, replace(event, left=())))


def told_before_it_is_beside(patch: pytest.MonkeyPatch) -> None:
    """A command goes to the server before it can be found after a kill."""
    begin_line = sessions.begin

    def early(step: Step, place: int, name: str, item: Item) -> None:
        begin_line(step, place, name, item)
        session = step.front.sessions[place]
        if session.stage is Stage.BESIDE and session.beside is not None:
            take_beside(step, (session.beside,))

    patch.setattr(sessions, "begin", early)


def command_told_twice(patch: pytest.MonkeyPatch) -> None:
    """A line waits twice."""

    def twice(step: Step, item: Item) -> None:
        queue(step, item)
        if not item.refusal:
            queue(step, item)

    patch.setattr(clients, "queue", twice)


def left_line_told_anew(patch: pytest.MonkeyPatch) -> None:
    """After a kill the server gets each line that has no answer, as after a crash of the server alone."""
    patch.setattr(finding, "sender_and_ticket", lambda line: (None, 0))

    def tell(step: Step) -> None:
        if step.front.finding.left:
            sessions.tell(step, finding.FIRST, step.front.finding.left[0].line, For.START)
        else:
            look(step)

    patch.setattr(finding, "look", tell)


def revoked_token_answered(patch: pytest.MonkeyPatch) -> None:
    """New tokens only count for connections that come after the reload."""
    patch.setattr(clients, "reload", lambda step, event: step.set(limits=event.limits, tokens=event.tokens))


def revoked_line_told(patch: pytest.MonkeyPatch) -> None:
    """Lines that wait go to the server, though their connection's token went."""
    patch.setattr(sessions, "is_dropped", lambda step, item: False)


def stop_waits_for_ever(patch: pytest.MonkeyPatch) -> None:
    """The end has no limit of time."""
    for limit in ("LINES_SECONDS", "RECORD_SECONDS", "LAST_SECONDS"):
        patch.setattr(ending, limit, 1e9)


def rights_not_looked_at(patch: pytest.MonkeyPatch) -> None:
    """Every name may send every valid line."""
    refusal = Role.refusal
    patch.setattr(Role, "refusal", lambda self, line: (found := refusal(self, line)) and (found if found != "rights" else None))


def last_connection_first(patch: pytest.MonkeyPatch) -> None:
    """Among the connections of a name, the last one that sends something has the first turn."""

    def backwards(step: Step, item: Item) -> None:
        queue(step, item)
        *others, last = step.front.names[item.token.name].items
        if all(other.connection != item.connection for other in others):
            step.set_name(item.token.name, items=(last, *others))

    patch.setattr(clients, "queue", backwards)


def number_out_of_turn(patch: pytest.MonkeyPatch) -> None:
    """An entry is written as soon as its answer comes."""

    def any_number(ledger: Ledger) -> Held | None:
        return ledger.held[min(ledger.held)] if ledger.held else None

    patch.setattr(Ledger, "next", any_number)


def failed_disk_handed_on(patch: pytest.MonkeyPatch) -> None:
    """A 93 goes to the client."""
    patch.setattr(serving, "FAILED", b"")


def not_told_again(patch: pytest.MonkeyPatch) -> None:
    """A server that comes again doesn't get the lines that have no answer."""
    patch.setattr(sessions, "tell_again", lambda step, place: step.do(Wake(0.0)))


def more_lines_than_may_wait(patch: pytest.MonkeyPatch) -> None:
    """Lines are taken however many wait."""
    let_send = clients.let_send

    def always(step: Step, number: int) -> None:
        waiting = step.front.connections[number].waiting
        step.set_connection(number, waiting=0)
        let_send(step, number)
        step.set_connection(number, waiting=waiting)

    patch.setattr(clients, "let_send", always)


def more_lines_a_second(patch: pytest.MonkeyPatch) -> None:
    """Nobody has to wait."""
    patch.setattr(clients, "wait_seconds", lambda step, name: 0.0)


def more_connections(patch: pytest.MonkeyPatch) -> None:
    """A name may have as many connections as come."""
    patch.setattr(clients, "has_room", lambda step, name: True)


def let_in_before_it_is_found(patch: pytest.MonkeyPatch) -> None:
    """Clients are let in while the record lacks what the last front left."""
    patch.setattr(finding, "note", lambda step: finding.admit(step))


def told_twice_at_once(patch: pytest.MonkeyPatch) -> None:
    """The server gets a line again before it has answered."""

    def twice(step: Step, place: int, line: bytes, purpose: For) -> None:
        tell(step, place, line, purpose)
        tell(step, place, line, purpose)

    patch.setattr(sessions, "tell", twice)


def refusal_before_its_turn(patch: pytest.MonkeyPatch) -> None:
    """A line that the front refuses is answered when it comes, and lines before it wait."""

    def at_once(step: Step, item: Item) -> None:
        if item.refusal:
            waiting = step.front.connections[item.connection].waiting
            step.set_connection(item.connection, waiting=waiting + 1)
            clients.answer(step, item.connection, refused(item.refusal))
        else:
            queue(step, item)

    patch.setattr(clients, "queue", at_once)


def answered_behind_its_end(patch: pytest.MonkeyPatch) -> None:
    """A connection that doesn't read its answers is ended, and answered all the same."""
    set_connection = Step.set_connection

    def stay(step: Step, number: int, **fields: object) -> Connection:
        return set_connection(step, number, **{name: value for name, value in fields.items() if name != "going"})

    def sweep(step: Step) -> None:
        patch.setattr(Step, "set_connection", stay)
        sweep_all(step)
        patch.setattr(Step, "set_connection", set_connection)

    patch.setattr(clients, "sweep", sweep)


def other_file_gone_on_with(patch: pytest.MonkeyPatch) -> None:
    """After a restart the front compares the COUNT alone."""
    patch.setattr(matching, "compare", lambda step, answers: "")


def told_before_it_is_known(patch: pytest.MonkeyPatch) -> None:
    """A restarted server gets lines at once."""
    patch.setattr(matching, "begin", lambda step: serving.tell_again(step))


def told_after_its_token_went(patch: pytest.MonkeyPatch) -> None:
    """A line that waited for a restarted server is sent, even if its token was removed meanwhile."""
    tell_again = sessions.tell_again

    def blind(step: Step, place: int) -> None:
        step.set_session(place, is_sent=True)
        tell_again(step, place)

    patch.setattr(sessions, "tell_again", blind)


def lost_line_waited_for(patch: pytest.MonkeyPatch) -> None:
    """A front whose line LISTENING was lost goes on, and is waited for without end."""
    patch.setattr(ending, "LISTENS", ("STOPPED ",))


def ended_by_any_lost_line(patch: pytest.MonkeyPatch) -> None:
    """The front ends when any line of its output is lost, as the result of a close."""
    patch.setattr(ending, "LISTENS", "")


def frozen_too_early(patch: pytest.MonkeyPatch) -> None:
    """A freeze stands before commands on their way are in the record."""
    patch.setattr(freezing, "is_still", lambda front: front.phase is Phase.OPEN)


def begun_in_a_freeze(patch: pytest.MonkeyPatch) -> None:
    """Commands begin while others are frozen."""
    may_begin = sessions.may_begin

    def early(step: Step, item: Item, gate: int | None) -> bool:
        freeze = step.front.freeze
        step.set(freeze=Freeze.NONE)
        may = may_begin(step, item, gate)
        step.set(freeze=freeze)
        return may

    patch.setattr(sessions, "may_begin", early)


def frozen_for_ever(patch: pytest.MonkeyPatch) -> None:
    """Nothing goes on behind a freeze."""
    patch.setattr(freezing, "end", lambda step: None)


PLANTS: list[tuple[Plant, Promise, str]] = [
    (answer_before_sync, Promise.OK_IS_KEPT, ""),
    (entry_lost_at_kill, Promise.NOTHING_LOST, "kills"),
    (told_before_it_is_beside, Promise.BESIDE_FIRST, ""),
    (command_told_twice, Promise.TOLD_IN_ORDER, ""),
    (left_line_told_anew, Promise.NOT_TOLD_NOW, "kills"),
    (revoked_token_answered, Promise.REVOKED, "reloads"),
    (revoked_line_told, Promise.REVOKED, "reloads"),
    (stop_waits_for_ever, Promise.ENDS, "hangs"),
    (told_twice_at_once, Promise.ONE_OUTSTANDING, ""),
    (refusal_before_its_turn, Promise.ANSWERED_IN_ORDER, ""),
    (answered_behind_its_end, Promise.ENDED, "jumps"),
    (rights_not_looked_at, Promise.RIGHTS, ""),
    (last_connection_first, Promise.TOLD_IN_ORDER, ""),
    (number_out_of_turn, Promise.NEXT_NUMBER, ""),
    (failed_disk_handed_on, Promise.NO_93, "disks"),
    (not_told_again, Promise.GOES_ON, "losses"),
    (more_lines_than_may_wait, Promise.WAITING, ""),
    (more_lines_a_second, Promise.RATE, "slow"),
    (more_connections, Promise.CONNECTIONS, ""),
    (let_in_before_it_is_found, Promise.AGREES, "kills"),
    (other_file_gone_on_with, Promise.SAME_AUCTION, "mislaid"),
    (told_before_it_is_known, Promise.SAME_AUCTION, "losses"),
    (told_after_its_token_went, Promise.REVOKED, "losses reloads slow"),
    (lost_line_waited_for, Promise.LISTENS, "streams"),
    (ended_by_any_lost_line, Promise.LISTENS, "streams"),
    (frozen_too_early, Promise.FROZEN, "freezes"),
    (begun_in_a_freeze, Promise.FROZEN, "freezes"),
    (frozen_for_ever, Promise.GOES_ON, "freezes"),
]


@pytest.mark.parametrize(("plant", "promise", "faults"), PLANTS, ids=[plant.__name__ for plant, _, _ in PLANTS])
def test_a_planted_bug_is_caught(plant: Plant, promise: Promise, faults: str, monkeypatch: pytest.MonkeyPatch) -> None:
    plant(monkeypatch)
    with pytest.raises(Broken) as caught:
        for seed in range(SEEDS):
            Day(seed, frozenset(faults.split())).run()
    assert caught.value.promise == promise, caught.value
