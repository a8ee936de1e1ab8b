"""How a front ends: it answers the lines that it has, writes the record's last entry, and ends the server, each within its time."""
from hpb.front.core import clients, sealing
from hpb.front.core.effects import EndServer, MustEnd, Shut, Wake
from hpb.front.core.state import For, Freeze, Phase, Stage
from hpb.front.core.stepping import Step

# Seconds from the signal to the last answers, to the record's last sync, and to the server's end. Everything after that takes less time
# than remains until the limit of hpb.front.watch.
LINES_SECONDS, RECORD_SECONDS, SERVER_SECONDS = 5.0, 6.0, 7.0
# After so many seconds the front waits for nothing any more.
LAST_SECONDS = 8.0
# How the lines on standard output begin that name the addresses of the front and of its page.
LISTENS = ("LISTENING ", "BOARD ")


def stop(step: Step) -> None:
    """Begins the end of the front. A front that hasn't let clients in yet ends at once."""
    if step.front.phase > Phase.OPEN:
        return
    step.do(MustEnd())
    if step.front.phase < Phase.OPEN:
        step.say("it was stopped before clients were let in")
        step.finish()
        return
    # Lines that a freeze held are answered, too.
    step.set(phase=Phase.ANSWERING, stopped_at=step.front.time, freeze=Freeze.NONE)
    step.do(Shut(), *(Wake(seconds) for seconds in (LINES_SECONDS, RECORD_SECONDS, LAST_SECONDS)))
    clients.close(step)


def take_unpublished(step: Step, line: str) -> None:
    """Standard output lost a line. Anyone who starts a front waits for the lines that name its addresses. Without one of them it stops, so
    that nobody waits for it without end. Without any other line it goes on, since bidders need none."""
    if line.startswith(LISTENS):
        step.say(f"it stops, because anyone who waits for its line {line.split()[0]} would wait without end")
        stop(step)


def go_on(step: Step) -> None:
    """Begins the next part of the end, if it may begin. This is tried after each event."""
    passed = step.front.time - step.front.stopped_at
    if step.front.phase == Phase.ANSWERING and (passed >= LINES_SECONDS or not is_answering(step)):
        close(step)
    elif step.front.phase == Phase.CLOSING and step.front.ledger.synced == step.front.ledger.written:
        step.set(phase=Phase.ENDING)
        step.do(EndServer(SERVER_SECONDS - passed))
    elif step.front.phase == Phase.CLOSING and passed >= RECORD_SECONDS:
        step.finish("the record can't be written: its disk doesn't answer")
    elif step.front.phase == Phase.ENDING and passed >= LAST_SECONDS:
        look_at_end(step, "", None)


def is_answering(step: Step) -> bool:
    """Whether a line waits for its answer, or a close for its result."""
    return step.front.waiting > 0 or busy(step) > 0


def busy(step: Step) -> int:
    """How many sessions work on something other than a question of the page. Their lines count even if the client's connection has
    ended."""
    return sum(one.stage is not Stage.FREE and one.purpose is not For.BOARD for one in step.front.sessions)


def close(step: Step) -> None:
    """Writes the record's last entry. From here on no client's line goes to the server."""
    left = max(step.front.waiting, busy(step))
    if left:
        step.say(f"{left} lines that were taken have no answer, as when a disk hangs: their clients send them again")
    step.set(phase=Phase.CLOSING, left=left)
    step.write("stopped", count=step.front.ledger.count)
    sealing.seal_end(step)


def look_at_end(step: Step, words: str, status: int | None) -> None:
    """Checks that the server ended in order, with as many commands as the record has; then the front ends."""
    if step.front.phase != Phase.ENDING:
        return
    count = step.front.ledger.count
    if step.front.setting.starts_server and not (status == 0 and words == f"CLOSED {count}"):
        how = "" if status is None else f" and {told_of(status)}"
        said = f"the server ended by {words!r}{how}, and the record has {count} commands"
        # A line without an answer may be in the file, so the count may differ.
        if status or (status == 0 and not step.front.left):
            step.finish(f"{said}: see what it said before this, and docs/OPERATIONS.md")
            return
        step.say(said)
    number, digest = step.front.ledger.place
    step.note("stopped", count=count)
    step.publish(f"STOPPED {count} RECORD {number} {digest}")
    step.finish()


def told_of(status: int) -> str:
    """An exit status in words."""
    return f"status {status}" if status >= 0 else f"signal {-status}"
