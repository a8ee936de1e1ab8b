"""After a restart of the server, compares its file with the record before any line of a name goes on.

Two auctions may have the same `COUNT`. So the front compares the number of commands of each sender, and the definition's names and minima.
"""
from collections.abc import Mapping

from hpb.front.core.effects import Tell
from hpb.front.core.state import For, Session, Stage
from hpb.front.core.stepping import Step
from hpb.front.rights import sender_and_ticket
from hpb.record.entries import text_of
from hpb.rules.mock import MARK
from hpb.rules.told import NotTold, look_whose, read_told
from hpb.rules.tree import Tree

# The session for the questions.
FIRST = 0
Tickets = Mapping[str | None, int]


def questions_of_state(tree: Tree) -> tuple[bytes, ...]:
    """The questions whose answers show the whole state of an auction."""
    questions = ["SHOW", *(f"NODE {name}" for name in tree.nodes), *(f"WHO {bidder}" for bidder in tree.bidders)]
    return tuple(question.encode() for question in questions)


def questions_of(tree: Tree) -> tuple[bytes, ...]:
    """The questions whose answers are compared at a start. The last one is answered by a mock's server alone."""
    return tuple(dict.fromkeys([*questions_of_state(tree), f"WHO {MARK}".encode()]))


def tickets_in(tree: Tree, answers: tuple[str, ...]) -> Tickets:
    """The last ticket of each sender, from all answers; None is the auctioneer. Raises NotTold or LookupError if the answers are about another
    definition."""
    told = read_told(tree, answers)
    look_whose(tree, told)
    return {None: told.shown.next_ticket - 1, **{bidder: told.whos[bidder].ticket for bidder in tree.bidders}}


def begin(step: Step) -> None:
    """Asks the first question."""
    questions = questions_of(step.front.setting.tree)
    step.set_server(questions=questions, answers=())
    step.do(Tell(FIRST, questions[0]))


def hear(step: Step, answer: bytes) -> bool:
    """Takes the answer to a question, and asks the next one. Returns whether all are answered and the file is the right one. If it is another
    auction's, the front ends."""
    _, *questions = step.front.server.questions
    server = step.set_server(questions=tuple(questions), answers=(*step.front.server.answers, text_of(answer)))
    if questions:
        step.do(Tell(FIRST, questions[0]))
        return False
    step.set_server(answers=())
    why = compare(step, server.answers)
    if why:
        record = step.front.setting.record
        step.finish(f"the file is that of another auction than {record}: {why}. Keep copies of both, put the right file in its place, and "
                    "see docs/FRONT.md, when something fails")
    return not why


def compare(step: Step, answers: tuple[str, ...]) -> str:
    """Returns why the file is another auction's, or nothing if the record explains it. The definition may differ, or a sender's number."""
    try:
        found = tickets_in(step.front.setting.tree, answers)
    except (NotTold, LookupError) as fault:
        return str(fault)
    ledger = step.front.ledger
    least = dict(ledger.used)
    for held in ledger.held.values():
        raise_to(least, held.line)
    most = dict(least)
    for session in step.front.sessions:
        if may_be_there(session):
            raise_to(most, session.line)
    for sender, number in found.items():
        if number < least.get(sender, 0) or (number > most.get(sender, 0) and not ledger.has_strangers):
            return f"it has {number} commands of {sender or 'the auctioneer'}, and {step.front.setting.record} has {least.get(sender, 0)}"
    return ""


def may_be_there(session: Session) -> bool:
    """Whether the session has a command without an answer, which the file may have."""
    return session.stage is Stage.TOLD and session.purpose is For.LINE and session.beside is not None


def raise_to(tickets: dict[str | None, int], line: bytes) -> None:
    sender, ticket = sender_and_ticket(line)
    tickets[sender] = max(tickets.get(sender, 0), ticket)
