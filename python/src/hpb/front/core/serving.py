"""Keeps a server running: starts it again when it ends, checks its file against the record, and sends lines without an answer again."""
import re

from hpb.front.core import finding, matching, sessions
from hpb.front.core.effects import DropServer, StartServer, Wake
from hpb.front.core.state import FIRST_PAUSE, For, Phase, Stage
from hpb.front.core.stepping import Step

# So often the front starts a server that doesn't come up, or that ends before it has answered anything.
MOST_STARTS = 8
MOST_PAUSE = 2.0
# A server that has run for so many seconds has come up.
STEADY = 10
GIVEN_UP, FAILED = b"ERR 95 order", b"ERR 93 failed"
COUNT = re.compile(rb"ROUND .* COUNT ([0-9]+)")


def start(step: Step) -> None:
    """Starts a server."""
    step.set_server(starts=step.front.server.starts + 1, retry_at=None)
    step.do(StartServer())


def begin(step: Step) -> None:
    """The server has come up. Once the last front's commands are found, the server is first asked whether it has the same auction."""
    step.set_server(since=step.front.time, pause=FIRST_PAUSE)
    step.note("restart", what="server", outcome="started")
    if step.front.phase >= Phase.NOTING:
        matching.begin(step)
    else:
        tell_again(step)


def tell_again(step: Step) -> None:
    """The server is up: it gets each line again that has no answer."""
    step.set_server(is_up=True)
    for place, session in enumerate(step.front.sessions):
        if session.stage == Stage.TOLD:
            sessions.tell_again(step, place)


def try_again(step: Step, why: str, is_final: bool) -> None:
    """The server didn't come up: it is started again after a pause, unless it has failed too often or for good."""
    server = step.front.server
    if is_final:
        step.finish(why)
        return
    step.note("restart", what="server", outcome="failed", why=why)
    if step.front.setting.starts_server and server.starts >= MOST_STARTS:
        step.finish(why)
        return
    if server.starts == 1:
        step.say(f"{why}; it is tried again")
    step.set_server(retry_at=step.front.time + server.pause, pause=min(2 * server.pause, MOST_PAUSE))
    step.do(Wake(server.pause))


def go_on_without(step: Step, how: str) -> None:
    """The server has ended, and is started again at once."""
    server = step.front.server
    starts = 0 if step.front.time - server.since > STEADY else server.starts
    step.set_server(is_up=False, starts=starts, questions=())
    if step.front.phase != Phase.ENDING:
        step.say(f"the server is gone{how}; it is started again")
        step.note("restart", what="server", outcome="gone", why=how.strip(" ()"))
        start(step)


def look_at_time(step: Step) -> None:
    """Starts the server again, if its pause is over."""
    retry_at = step.front.server.retry_at
    if retry_at is not None and step.front.time >= retry_at:
        start(step)


def look_at_count(step: Step, shown: bytes) -> None:
    """Ends the front if the file has lost accepted commands, or has more commands than the record explains."""
    found, (least, most) = COUNT.fullmatch(shown), step.front.ledger.explained()
    if not found or int(found[1]) < least:
        step.finish(f"the file has lost commands: {least} were accepted, and it shows {shown.decode('latin-1')!r}")
    elif int(found[1]) > most and step.front.phase >= Phase.STARTED:
        step.finish(f"the file has {int(found[1])} commands, and the record explains {most} at most: it got commands by "
                    "another way. Keep copies of both, and see docs/FRONT.md, when something fails")


def hear(step: Step, place: int, answer: bytes) -> None:
    """Takes the answer to a session's line. Answers 93 and 95 never reach a client."""
    server = step.front.server
    asks = bool(server.questions)
    if not asks and (step.front.sessions[place].stage is not Stage.TOLD or not server.is_up):
        return
    if answer == FAILED:
        step.finish("the disk of the file failed: see docs/OPERATIONS.md, after a 91 or 93. Lines without an answer are looked "
                    "for in the file when the front is started again")
    elif answer == GIVEN_UP:
        step.set_server(is_up=False, questions=())
        step.do(DropServer())
    elif asks:
        if matching.hear(step, answer):
            tell_again(step)
    else:
        if server.starts:
            step.set_server(starts=0)
        if step.front.sessions[place].purpose is For.START:
            finding.take_answer(step, answer)
        else:
            sessions.take_answer(step, place, answer)
