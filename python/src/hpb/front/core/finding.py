"""The start of a front. The last front may have sent commands whose answers it never recorded. Those that the server accepted go into the
record before anybody is let in."""
from typing import Any

from hpb.front.core import matching, news, rounds, sealing, sessions, veil
from hpb.front.core.books import books_of
from hpb.front.core.effects import Admit, EmptyBeside, StartBoard, Wake
from hpb.front.core.events import Left, RecordOpened
from hpb.front.core.ledger import WHERE_THE_AUDIT_ENDS, Foreign, Held
from hpb.front.core.state import Finding, For, Phase
from hpb.front.core.stepping import Step
from hpb.front.core.values import changed
from hpb.front.rights import is_close, sender_and_ticket
from hpb.record.entries import Entry, text_of
from hpb.rules.told import NotTold, read_told

# The session for questions to the server before anybody is let in.
FIRST = matching.FIRST


def begin(step: Step, event: RecordOpened) -> None:
    """The record is open: asks the server for the state of the auction."""
    asked = matching.questions_of(step.front.setting.tree)
    # A command beside the record may be in the record already: such a one isn't looked for.
    left = tuple(one for one in event.left if one.asked or is_open(one, event))
    step.set(phase=Phase.ASKING, finding=Finding(asked, (), event.used, event.foreign, left=left))
    step.set_ledger(count=event.count, place=event.place)
    step.set(books=books_of(event.lines), **news.restored(event.news, event.told, event.read))
    veil.begin(step, event)
    sealing.begin(step, event)
    rounds.change(step, is_on=step.front.setting.plan is not None or bool(event.clock), saved=event.clock)
    sessions.tell(step, FIRST, asked[0], For.START)


def is_open(left: Left, event: RecordOpened) -> bool:
    sender, ticket = sender_and_ticket(left.line)
    return not ticket or ticket > event.used.get(sender, 0)


def change(step: Step, **fields: Any) -> Finding:
    step.set(finding=changed(step.front.finding, **fields))
    return step.front.finding


def take_answer(step: Step, answer: bytes) -> None:
    """Takes the server's answer to the question of this phase."""
    sessions.free(step, FIRST)
    match step.front.phase:
        case Phase.ASKING:
            hear(step, answer)
        case Phase.LOOKING:
            hear_left(step, answer)
        case Phase.SHOWING:
            sessions.look_whether_over(step, answer)
            rounds.take_shown(step, answer)
            let_in(step)


def hear(step: Step, answer: bytes) -> None:
    """Takes an answer about the auction's state. All of them together say how many commands the server has of each sender."""
    _, *questions = step.front.finding.questions
    finding = change(step, questions=tuple(questions), answers=(*step.front.finding.answers, text_of(answer)))
    if questions:
        sessions.tell(step, FIRST, questions[0], For.START)
        return
    try:
        used = matching.tickets_in(step.front.setting.tree, finding.answers)
    except (NotTold, LookupError) as fault:
        step.finish(f"the server has another auction than the file: {fault}")
        return
    change(step, used=used)
    step.set(phase=Phase.LOOKING)
    look(step)


def look(step: Step) -> None:
    """Looks for the next command that the last front left. If its ticket is the sender's last one in the file, the server is asked for the
    answer: the file has this command, or another one under the same ticket. If not, the server never had the command or refused it, and it
    isn't sent now."""
    while left := step.front.finding.left:
        sender, ticket = sender_and_ticket(left[0].line)
        if ticket and step.front.finding.used.get(sender) == ticket:
            sessions.tell(step, FIRST, left[0].line, For.START)
            return
        change(step, left=left[1:], others=(*step.front.finding.others, ("lapsed", fields_of(left[0]))))
    compare(step)


def hear_left(step: Step, answer: bytes) -> None:
    """Takes the server's answer to a command that the last front left."""
    finding, number = step.front.finding, sessions.number_of(answer)
    first, *left = finding.left
    change(step, left=tuple(left))
    if number > step.front.ledger.count:
        change(step, found={**finding.found, number: first})
    elif first.asked:
        change(step, others=(*finding.others, ("answered", {**fields_of(first), "answer": text_of(answer)})))
    look(step)


def fields_of(left: Left) -> Entry:
    return {"name": left.name, "line": text_of(left.line), **({"asked": left.asked} if left.asked else {})}


def compare(step: Step) -> None:
    """Ends the front if file and record don't have the same number of commands of each sender. Nothing is written before this is known."""
    finding, count = step.front.finding, step.front.ledger.count
    recorded = dict(finding.recorded)
    for left in finding.found.values():
        sender, ticket = sender_and_ticket(left.line)
        recorded[sender] = max(recorded.get(sender, 0), ticket)
    compared = [(sender or "the auctioneer", has, recorded.get(sender, 0)) for sender, has in finding.used.items()]
    if finding.foreign:
        compared = [("all", sum(finding.used.values()), count + len(finding.found))]
    for who, has, wanted in compared:
        if has != wanted and (has < wanted or not step.front.setting.may_be_foreign):
            record = step.front.setting.record
            step.finish(f"the file has {has} commands of {who}, and {record} has {wanted}: {advice(has < wanted)}")
            return
    note(step)


def note(step: Step) -> None:
    """Writes the found commands into the record, in the order of their numbers."""
    finding, tree = step.front.finding, step.front.setting.tree
    for kind, fields in finding.others:
        step.write(kind, **fields)
    held = {number: Held(0, left.name, left.line, asked=left.asked) for number, left in finding.found.items()}
    step.set_ledger(held=held)
    told = read_told(tree, finding.answers)
    veil.look(step, told, sum(is_close(left.line) for left in finding.found.values()))
    sessions.release(step)
    if (count := sum(finding.used.values())) > step.front.ledger.count:
        sessions.note_foreign(step, Foreign(step.front.ledger.count + 1, count))
    # From here on the ledger knows the senders of all commands in the file.
    step.set_ledger(used=dict(finding.used), has_strangers=False)
    step.set(books=step.front.books.began(tree, told))
    step.set(phase=Phase.NOTING)
    go_on(step)


def go_on(step: Step) -> None:
    """Goes on with the start once all written entries are on the disk. This is tried after each event."""
    if step.front.ledger.synced < step.front.ledger.written:
        return
    if step.front.phase == Phase.NOTING:
        step.set(phase=Phase.EMPTYING)
        step.do(EmptyBeside())
    elif step.front.phase == Phase.STARTED:
        step.set(phase=Phase.SHOWING)
        sessions.tell(step, FIRST, b"SHOW", For.START)


def take_emptied(step: Step) -> None:
    """The places beside the record are empty: writes the entry that begins this front's part of the record."""
    if found := len(step.front.finding.found):
        step.say(f"{found} commands that the last front told the server, and that the file has, were put into the record")
    step.set(phase=Phase.STARTED, finding=Finding())
    step.write("started", names={name: role.shown() for name, role in step.front.setting.roles.items()}, count=step.front.ledger.count)


def let_in(step: Step) -> None:
    """Starts the page, if there is one; else lets clients in."""
    if step.front.setting.has_board:
        step.set(phase=Phase.BOARD)
        step.do(StartBoard())
    else:
        admit(step)


def admit(step: Step, board: str = "") -> None:
    """Lets clients in. `board` is the page's line for standard output."""
    step.set(phase=Phase.OPEN)
    step.do(Admit(), Wake(0.0))
    step.publish(f"LISTENING {step.front.setting.address}")
    step.note("started", count=step.front.ledger.count)
    if board:
        step.publish(board)


def advice(is_older_file: bool) -> str:
    """Advice for the operator if file and record don't belong together."""
    if is_older_file:
        return ("an older copy of the file was taken back, or the record is that of another file. Name the right file and the right record, "
                "or bring the file up to date by the record: docs/FRONT.md says how")
    return ("the record is an older one, or that of another file. Look for the right record, or else for its newest backup, and start "
            "again with that. Only if the file got commands by another way, as by `hpb run`, and no record has them, start with "
            f"--foreign: it notes their numbers and goes on, and {WHERE_THE_AUDIT_ENDS}")
