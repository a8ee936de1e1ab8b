"""The step from one state of a front to the next."""
from collections.abc import Callable, Iterable
from typing import Any

from hpb.front.core import clients, ending, finding, freezing, rounds, sealing, serving, sessions
from hpb.front.core.effects import Effect
from hpb.front.core.events import (
    Answered, AskFreeze, BesideEmptied, BoardAsks, BoardUp, Came, ClockRead, Event, Failed, Gone, Line, LinesEnded, LookedUp, Opened,
    RecordOpened, Reloaded, ServerEnded, ServerFailed, ServerGone, ServerUp, SessionOpened, Stamped, StandsBeside, Stop, Stuffed, Synced, Thaw,
    Tick, TooLong, Unpublished, Waited,
)
from hpb.front.core.state import Front, Phase, Stage
from hpb.front.core.stepping import Step

# Looked at after each event.
OPEN, ENDED, ANSWERED = Phase.OPEN, Phase.ENDED, Stage.ANSWERED


def step(front: Front, event: Event, clock: float) -> tuple[Front, list[Effect]]:
    """Takes an event when the clock shows `clock` seconds. Gives the front after the event, and the effects in the order in which to carry
    them out. If the clock goes back, the front's time stands still."""
    return steps(front, (event,), clock)


def steps(front: Front, events: Iterable[Event], clock: float) -> tuple[Front, list[Effect]]:
    """Takes events that came together. Front and effects are those of one step after the other, and cost less."""
    if front.phase is ENDED:
        return front, []
    taken = Step(front)
    taken.set(time=front.time + max(0.0, clock - front.clock), clock=clock)
    for event in events:
        taken.touched = set()
        TAKE[type(event)](taken, event)
        go_on(taken, event)
        if taken.front.phase is ENDED:
            break
    return taken.done()


def go_on(step: Step, event: Event) -> None:
    """Looks what may go on after an event."""
    if sessions.is_quiet(step):
        # An entry that reaches the disk may let any answer leave that waits. After other events, only changed sessions can go on.
        if type(event) is Synced:
            step.touched.update(place for place, session in enumerate(step.front.sessions) if session.stage is ANSWERED)
        if step.touched:
            sessions.go_on_quietly(step, sorted(step.touched))
    else:
        go_on_held(step, event)
        freezing.go_on(step)
    if step.front.phase < OPEN:
        finding.go_on(step)
    elif step.front.phase > OPEN:
        ending.go_on(step)


def go_on_held(step: Step, event: Event) -> None:
    """The same, while a CLOSE or a freeze may hold lines of all sessions."""
    was_held, is_held = step.front.is_held, sessions.holds(step)
    is_for_all = is_held or was_held or type(event) is Synced
    sessions.go_on(step, range(len(step.front.sessions)) if is_for_all else sorted(step.touched))
    if is_held and not sessions.holds(step):
        # A CLOSE was refused, so those behind it don't wait any more.
        is_held = False
        sessions.go_on(step, range(len(step.front.sessions)))
    if is_held is not was_held:
        step.set(is_held=is_held)


def take_tick(step: Step) -> None:
    """Time has passed: ends silent connections, starts a server again that didn't come up, and ends the front some time after the
    auction."""
    clients.sweep(step)
    serving.look_at_time(step)
    since = step.front.over_since
    if since is not None and step.front.time >= since + step.front.limits.after_end_seconds:
        ending.stop(step)


def take_opened(step: Step, event: RecordOpened) -> None:
    """The record is open: the server is started, to be asked what it has."""
    finding.begin(step, event)
    serving.start(step)


def take_synced(step: Step, event: Synced) -> None:
    """Entries are on the disk."""
    ledger = step.ledger()
    ledger.synced, ledger.place = ledger.synced + event.entries, event.place
    for seal in event.seals:
        sealing.take_sealed(step, seal)


# For each kind of event, the call that takes it itself; `go_on` then looks what may go on after it.
TAKE: dict[type[Event], Callable[[Step, Any], None]] = {
    Came: lambda step, event: clients.take(step, event),
    Opened: lambda step, event: clients.take(step, event),
    Line: lambda step, event: clients.take_line(step, event.connection, event.line),
    TooLong: lambda step, event: clients.take(step, event),
    LinesEnded: lambda step, event: clients.take(step, event),
    Stuffed: lambda step, event: clients.take(step, event),
    Waited: lambda step, event: clients.take(step, event),
    Gone: lambda step, event: clients.take(step, event),
    SessionOpened: lambda step, event: serving.look_at_count(step, event.shown),
    ServerUp: lambda step, event: serving.begin(step),
    ServerFailed: lambda step, event: serving.try_again(step, event.why, event.is_final),
    ServerGone: lambda step, event: serving.go_on_without(step, event.how),
    Answered: lambda step, event: serving.hear(step, event.session, event.answer),
    ServerEnded: lambda step, event: ending.look_at_end(step, event.words, event.status),
    RecordOpened: take_opened,
    Synced: take_synced,
    StandsBeside: lambda step, event: sessions.take_beside(step, event.places),
    BesideEmptied: lambda step, event: finding.take_emptied(step),
    AskFreeze: lambda step, event: freezing.begin(step),
    Thaw: lambda step, event: freezing.end(step),
    LookedUp: lambda step, event: sealing.take_found(step, event),
    Stamped: lambda step, event: sealing.take_stamp(step, event),
    Reloaded: lambda step, event: clients.reload(step, event),
    BoardUp: lambda step, event: finding.admit(step, event.line),
    BoardAsks: lambda step, event: sessions.ask_for_board(step, (event.number, event.line)),
    Unpublished: lambda step, event: ending.take_unpublished(step, event.line),
    Tick: lambda step, event: take_tick(step),
    ClockRead: lambda step, event: rounds.take_reading(step, event),
    Stop: lambda step, event: ending.stop(step),
    Failed: lambda step, event: step.finish(event.why),
}
