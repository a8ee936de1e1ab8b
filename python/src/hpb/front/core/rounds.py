"""Rounds that keep time (docs/ROUNDS.md): the clock opens a round, takes commands until its end, and closes it.

**State** (`clock.Rounds`). The clock is off until the configuration has `[rounds]`, or the auctioneer sends `OPEN`. Then it is one of

- `WAITS`: no round is open; the next one opens at `opens`, if that is known;
- `OPEN` until `until`: commands are taken;
- `CLOSING`: the time is over. Nothing more is taken, and the CLOSE waits until all that was taken is answered;
- `OVER`: the auction has ended.

While it is paused, nothing is taken, and nothing opens or ends. Each waiting line has the round in which it was taken, or 0 if none was open.

**Events.** `ClockRead` has two readings at one moment: UTC, and the monotonic clock. The first ties UTC to the front's time; from then on UTC
is the tie and the time that passed. Later readings show only whether UTC was set, or isn't synchronised: then the clock pauses. All that time
does is done at a `ClockRead`. A line of the auctioneer (`desk`) and the answer to a CLOSE change the state, too.

**Effects.** Each change is an entry `clock` of the record, which has the whole state. Its news, and the answer to the line that asked for it,
leave once it is on the disk. `Wake` asks for a reading in time. The CLOSE goes the way of each command: beside the record, to the server, into
the record. It bears the auctioneer's next ticket.

**After a kill** the record has the last state, and SHOW the auction's round. If that is the next one, the CLOSE had been accepted. If the round
was closing, it is closed. If it is still open, the clock goes on, unless the front was away too long or at the end of the round. Then it is
paused since the record last heard of it, with the time that was left.
"""
from typing import Any

from hpb.front.core.clock import AWAY_SECONDS, BEAT_SECONDS, JUMP_SECONDS, LATE_SECONDS, At, Plan, Rounds, Why, exact, restored, whole
from hpb.front.core.effects import Wake
from hpb.front.core.events import ClockRead
from hpb.front.core.news import add_news
from hpb.front.core.state import Front, Phase
from hpb.front.core.stepping import Step
from hpb.front.core.values import changed
from hpb.front.rights import is_close
from hpb.front.times import read_exact_time
from hpb.lines import Shown
from hpb.record.entries import text_of
from hpb.record.news import CLOCK
from hpb.rules.told import NotTold, read_standing


def change(step: Step, **fields: Any) -> Rounds:
    step.set(rounds=changed(step.front.rounds, **fields))
    return step.front.rounds


def plan_of(step: Step) -> Plan:
    return step.front.setting.plan or Plan()


def time_of(front: Front) -> float:
    """UTC, by the time that passed since it was first read. If the last reading says less, that counts: no round ends early."""
    return min(front.rounds.tie or 0.0, front.rounds.offset) + front.time


def wall_of(front: Front) -> float:
    """UTC by the last reading. Times that somebody types are compared with this."""
    return front.rounds.offset + front.time


def mark(front: Front) -> int:
    """The round in which a command that comes now is taken, or 0 if none is open. Without a clock, and after the end, it is the auction's."""
    rounds = front.rounds
    if not rounds.is_on or rounds.at is At.OVER:
        return rounds.round
    is_open = rounds.has_begun and rounds.at is At.OPEN and not rounds.paused and rounds.until is not None
    return rounds.round if is_open and time_of(front) < (rounds.until or 0.0) else 0


def write(step: Step, what: str, is_news: bool = True, **more: Any) -> None:
    """Writes the state into the record. Its news leave once that is on the disk."""
    front = step.front
    change(step, beat=time_of(front))
    fields = {"what": what, **front.rounds.fields(time_of(front)), **more}
    step.write(CLOCK, **(add_news(step, CLOCK, fields) if is_news else fields))
    change(step, entry=step.front.ledger.written)


# Time.


def take_reading(step: Step, event: ClockRead) -> None:
    """Takes a reading of the clocks, and looks at the time."""
    # The front's time never goes back, and the monotonic clock of a test may.
    offset = event.utc - event.monotonic + step.front.clock - step.front.time
    rounds = change(step, offset=offset, is_synchronised=event.is_synchronised)
    if rounds.tie is None:
        change(step, tie=offset)
    if rounds.is_on and step.front.phase == Phase.OPEN:
        look(step)


def look(step: Step) -> None:
    """Opens and ends a round, warns or pauses, if it is time for that."""
    if not step.front.rounds.has_begun:
        begin(step)
    rounds, now = step.front.rounds, time_of(step.front)
    if rounds.at in (At.WAITS, At.OPEN) and not rounds.paused:
        if fault := fault_of_clock(step):
            pause(step, fault)
        elif rounds.at is At.OPEN:
            look_at_open(step, rounds.until or 0.0, now)
        elif rounds.opens is not None and now >= rounds.opens:
            look_at_opening(step, rounds.opens, now)
    change(step, seen=now)


def fault_of_clock(step: Step) -> Why | None:
    """Why UTC can't be relied on, if it can't."""
    rounds = step.front.rounds
    if abs(rounds.offset - (rounds.tie or 0.0)) > JUMP_SECONDS:
        return Why.JUMP
    return None if rounds.is_synchronised or plan_of(step).may_be_unsynchronised else Why.UNSYNCHRONISED


def look_at_open(step: Step, until: float, now: float) -> None:
    """A round is open: ends it, or warns. If the front was away for too long, or when the round was to end, the clock pauses instead."""
    rounds = step.front.rounds
    away = now - rounds.seen
    if away > AWAY_SECONDS or (now >= until and away > LATE_SECONDS):
        pause(step, Why.AWAY)
    elif now >= until:
        change(step, at=At.CLOSING)
        write(step, "ended")
    elif due := [seconds for seconds in rounds.to_warn if until - now <= seconds]:
        change(step, to_warn=tuple(seconds for seconds in rounds.to_warn if seconds not in due))
        write(step, "warned", seconds=min(due))
    elif now - rounds.beat >= BEAT_SECONDS:
        write(step, "runs", is_news=False)


def look_at_opening(step: Step, opens: float, now: float) -> None:
    """It is time for the next round. If it is too late for its window, the round waits for the next window."""
    if now - opens > LATE_SECONDS and plan_of(step).windows:
        schedule(step, now)
        write(step, "missed", missed=exact(opens))
    else:
        until = step.front.rounds.until or opens
        open_round(step, until if now - opens <= LATE_SECONDS else whole(now + until - opens), opens, plan_of(step).may_end)


# Changes.


def open_round(step: Step, until: float, slot: float | None, may_end: bool) -> None:
    """Takes commands from now on. The round goes by the last reading of UTC."""
    now = time_of(change_of_tie(step))
    change(step, at=At.OPEN, opens=None, until=until, slot=slot, ends=may_end, seen=now)
    warn_of(step, until)
    write(step, "opened")


def change_of_tie(step: Step) -> Front:
    """Ties UTC to the front's time anew, so that what the clocks differ by doesn't add up over the rounds."""
    change(step, tie=step.front.rounds.offset)
    return step.front


def warn_of(step: Step, until: float) -> None:
    """The round ends then: warnings are due before."""
    left, warnings = until - time_of(step.front), plan_of(step).warnings
    change(step, until=until, to_warn=tuple(seconds for seconds in warnings if seconds < left))
    wake_in(step, left, *(left - seconds for seconds in warnings))


def wake_in(step: Step, *seconds: float) -> None:
    step.do(*(Wake(one) for one in seconds if one > 0))


def schedule(step: Step, now: float) -> None:
    """The next round waits for the time that the plan has for it."""
    found = plan_of(step).next(now, step.front.rounds.slot)
    opens, until = found or (None, None)
    change(step, at=At.WAITS, opens=opens, until=until)
    if opens is not None:
        wake_in(step, opens - now)


def schedule_again(step: Step, now: float) -> None:
    """After a pause or a start the next round waits for its time. A window that has begun isn't used any more."""
    opens, plan = step.front.rounds.opens, plan_of(step)
    if opens is None or plan.first is None:
        schedule(step, now)
        return
    opens = max(opens, whole(now))
    change(step, at=At.WAITS, opens=opens, until=opens + plan.length)
    wake_in(step, opens - now)


def pause(step: Step, why: Why) -> None:
    """Nothing is taken until the auctioneer resumes. An open round has no end until then, but the time that it had left when the clock was last
    looked at: since then it may have been set."""
    rounds = step.front.rounds
    if rounds.at is At.OPEN:
        change(step, left=max(0.0, (rounds.until or 0.0) - rounds.seen), until=None)
    change(step, paused=str(why))
    step.say(f"the round clock is paused: {why}. The auctioneer goes on with RESUME (docs/ROUNDS.md)")
    write(step, "paused")


def resume(step: Step) -> None:
    """The open round gets the time that was left, or more if the auctioneer extended it. UTC is that of the last reading from now on."""
    rounds = change(step, paused="", tie=step.front.rounds.offset)
    now = time_of(step.front)
    change(step, seen=now)
    if rounds.at is At.OPEN:
        warn_of(step, max(whole(now + rounds.left), rounds.until or 0.0))
        change(step, left=0.0)
    else:
        schedule_again(step, now)
    write(step, "resumed")


# A close.


def took(step: Step, line: bytes) -> None:
    """A command goes into the record."""
    step.set(books=step.front.books.took(line))
    if is_close(line):
        change(step, round=step.front.rounds.round + 1, agreed=0, entry=step.front.ledger.written)


def hold(step: Step) -> None:
    """The time is over, and the close would end the auction, which the plan doesn't say: the auctioneer decides."""
    change(step, at=At.OPEN, until=None)
    pause(step, Why.END)


def was_refused(step: Step, answer: bytes) -> None:
    """The server refused the clock's CLOSE."""
    step.say(f"the CLOSE by the clock is answered {text_of(answer)!r}")
    change(step, at=At.OPEN, until=None)
    pause(step, Why.REFUSED)


def take_shown(step: Step, answer: bytes) -> None:
    """Takes SHOW's answer at the start, or after a close."""
    if step.front.phase > Phase.ANSWERING:
        return
    try:
        shown = read_standing(text_of(answer))
    except NotTold:
        return
    if not isinstance(shown, Shown):
        return
    rounds = change(step, round=shown.round, is_over=shown.is_over)
    if rounds.is_on and rounds.has_begun and closed_by(rounds) > rounds.closed:
        was_closed(step)


def closed_by(rounds: Rounds) -> int:
    """How many rounds are closed, by SHOW."""
    return rounds.round - (not rounds.is_over)


def was_closed(step: Step) -> None:
    """A round was closed: the next one waits, or the auction is over."""
    now = time_of(step.front)
    change(step, closed=closed_by(step.front.rounds), left=0.0, ends=False, to_warn=())
    schedule(step, now)
    if step.front.rounds.is_over:
        change(step, at=At.OVER, opens=None, until=None, paused="")
    write(step, "closed")


# The start.


def begin(step: Step) -> None:
    """Clients are let in, and the clock is read: goes on from the record's state, or begins with the plan."""
    rounds, saved, now = step.front.rounds, step.front.rounds.saved, time_of(step.front)
    if not saved:
        change(step, has_begun=True, seen=now, closed=closed_by(rounds), at=At.OVER if rounds.is_over else At.WAITS)
        if not rounds.is_over:
            schedule(step, now)
        write(step, "planned")
        return
    heard = read_exact_time(saved["time"])
    rounds = change(step, has_begun=True, seen=heard, beat=heard, **restored(saved))
    if rounds.at is At.OVER:
        return
    if closed_by(rounds) > rounds.closed:
        was_closed(step)
    elif closed_by(rounds) < rounds.closed:
        pause(step, Why.RECORD)
    elif rounds.paused:
        return
    elif now < heard - JUMP_SECONDS:
        pause(step, Why.JUMP)
    elif rounds.at is At.WAITS:
        begin_waiting(step, now)
    else:
        write(step, "back", seconds=int(now - heard))
        if rounds.at is At.OPEN and rounds.until is not None and now < rounds.until:
            warn_of(step, rounds.until)


def begin_waiting(step: Step, now: float) -> None:
    """No round was open: the plan may be another one by now, and a window may have begun."""
    missed = step.front.rounds.opens
    schedule_again(step, now)
    if missed is not None and missed < now - LATE_SECONDS:
        write(step, "missed", missed=exact(missed))
    elif missed != step.front.rounds.opens:
        write(step, "planned")
