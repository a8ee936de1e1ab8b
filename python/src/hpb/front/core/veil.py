"""The veil over an auction: keeps what the rules on information need, limits answers by them, and lifts them (docs/FRONT.md)."""
from dataclasses import replace
from typing import TypeAlias

from hpb.front.core import news, rounds
from hpb.front.core.events import RecordOpened
from hpb.front.core.information import NotYet, Veil, closes_in, seen_by
from hpb.front.core.state import Front, Session, Stage
from hpb.front.core.stepping import Step
from hpb.front.core.values import changed
from hpb.front.rights import NOT_KNOWN, RIGHTS, is_close, refused
from hpb.front.times import exact_text_of_time
from hpb.lines import NoAnswer, NodeShown, Shown, WhoShown, format_answer, parse_answer
from hpb.record.entries import text_of
from hpb.record.news import MET, UNVEILED
from hpb.rounds import InformationShown
from hpb.rules.told import Told

# The answers of the server that rules may limit, and how their lines begin.
Standing: TypeAlias = Shown | NodeShown | WhoShown
STANDINGS = (b"ROUND ", b"NODE ", b"WHO ")


# What the rules need.


def begin(step: Step, event: RecordOpened) -> None:
    """Takes what the record has. The number of closes isn't known yet."""
    count = event.count - len(event.lines or ())
    step.set(veil=Veil(event.is_unveiled, 0, (count,), event.order))


def look(step: Step, told: Told, found_closes: int) -> None:
    """The server has shown the auction. Of its closes the record has all but `found_closes`, which are about to go into it."""
    veil = changed(step.front.veil, first=closes_in(told.shown) - found_closes)
    step.set(veil=veil)
    meet(step, veil.met(node.bidder for node in told.nodes.values()))


def meet(step: Step, veil: Veil) -> None:
    """The order of first high bids stands in the record: pseudonyms follow from it."""
    if veil.order != step.front.veil.order and step.front.setting.information:
        step.write(MET, order=list(veil.order))
    step.set(veil=veil)


def took(step: Step, line: bytes) -> None:
    """A command has gone into the record."""
    if not is_close(line):
        return
    front = step.front
    veil = front.veil.closed(front.veil.closes + 1, front.ledger.count)
    after = front.books.base
    meet(step, veil.met(after.high[node].bidder for node in front.setting.tree.nodes if node in after.high) if after else veil)


# Answers.


def answer_to(step: Step, session: Session) -> bytes | None:
    """The answer to a session's line as its name may know it. None says that it has to wait for a close that is on its way into the record."""
    if step.front.setting.information is None or not session.answer.startswith(STANDINGS):
        return session.answer
    viewer = step.front.viewer(session.name)
    if viewer.is_trusted:
        return session.answer
    if (fact := fact_in(session.answer)) is None:
        return refused(NOT_KNOWN)
    try:
        seen = seen_by(viewer, fact)
    except NotYet:
        if is_closing(step.front):
            return None
        seen = seen_without_close(step, session, fact)
    return format_answer(seen).encode() if seen else refused(RIGHTS)


def seen_without_close(step: Step, session: Session, fact: Standing) -> Standing | None:
    """The fact of a close that came by another way than the front: the bidder has no name, and the count is that of now."""
    if isinstance(fact, NodeShown):
        return replace(fact, bidder=None)
    hear(step, session.answer)
    return seen_by(step.front.viewer(session.name), fact) if isinstance(fact, Shown) else None


def fact_in(answer: bytes) -> Standing | None:
    """The server's answer to SHOW, NODE or WHO, if it is one."""
    try:
        fact = parse_answer(text_of(answer))
    except NoAnswer:
        return None
    return fact if isinstance(fact, Shown | NodeShown | WhoShown) else None


def hear(step: Step, answer: bytes) -> None:
    """The server has answered a question. If SHOW tells of a close that came by another way than the front, its count is taken for that of now."""
    if step.front.setting.information is None or not answer.startswith(STANDINGS[0]) or is_closing(step.front):
        return
    if isinstance(shown := fact_in(answer), Shown):
        step.set(veil=step.front.veil.closed(closes_in(shown), shown.count))


def is_closing(front: Front) -> bool:
    """Whether a CLOSE is on its way: to the server, or into the record."""
    session = front.sessions[front.names[front.setting.desk].session]
    return session.stage is not Stage.FREE and is_close(session.line)


# Lines.


def information_line(front: Front, name: str) -> bytes:
    """The rule that is in force for a name."""
    rule = front.viewer(name).rule
    return format_answer(InformationShown(phase_of(front), rule.identities, rule.is_count_exact, rule.has_revenue)).encode()


def phase_of(front: Front) -> str:
    return "unveiled" if front.is_unveiled else "running"


def facts_line(front: Front) -> bytes:
    """What the page needs to limit what it shows to each name."""
    veil = front.veil
    return f"INFORMATION {phase_of(front)} CLOSES {veil.first} COUNTS {','.join(map(str, veil.counts))} ORDER {','.join(veil.order) or '-'}".encode()


def unveil(step: Step, name: str) -> bytes:
    """Names may know more once this is on the disk. A second time changes nothing."""
    if not step.front.veil.is_lifted:
        time = exact_text_of_time(rounds.wall_of(step.front))
        fields = {"name": name, "round": step.front.rounds.round, "time": time}
        step.write(UNVEILED, **news.add_news(step, UNVEILED, fields))
        step.set(veil=changed(step.front.veil, is_lifted=True, entry=step.front.ledger.written))
    told = (news.line_of(number, one) for number, one in news.seen(step.front, name) if one.text.startswith("UNVEIL "))
    return next(told, news.NOTHING)
