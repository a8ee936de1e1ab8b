"""Seals (docs/VERIFY.md): after each close the auction's state is asked for, and an entry of the record has it, signed. One more seals the end.

From the CLOSE until its seal is on the disk no other command goes to the server. So the state that is asked for is that right after the close,
and a front that was killed in between finds it unchanged at its next start. Questions are answered meanwhile.
"""
from hpb.front.core import matching
from hpb.front.core.effects import LookUp
from hpb.front.core.events import LookedUp, RecordOpened, SealOnDisk, Stamped
from hpb.front.core.information import Receipt, seen_by
from hpb.front.core.state import Front, Item, Phase, Sealing, Stage
from hpb.front.core.stepping import Step
from hpb.front.core.values import changed
from hpb.front.rights import NOT_KNOWN, UNSEALED, is_close, refused
from hpb.record.entries import text_of
from hpb.rules.told import NotTold, look_whose, read_told

SEAL, STAMP = "seal", "stamp"


def change(step: Step, **fields: object) -> Sealing:
    step.set(sealing=changed(step.front.sealing, **fields))
    return step.front.sealing


def begin(step: Step, event: RecordOpened) -> None:
    """Takes what the record has: its last CLOSE, and its last seal."""
    change(step, closed=event.closed, sealed=event.sealed, last=event.seal)


def took(step: Step, line: bytes) -> None:
    """A command goes into the record."""
    if is_close(line):
        change(step, closed=step.front.ledger.count, entry=None, answers=())


def is_due(front: Front) -> bool:
    """Whether the last command is a CLOSE whose seal isn't on the disk yet. Then commands wait. A CLOSE behind which others came by another way
    gets none."""
    sealing = front.sealing
    return front.setting.has_seals and sealing.closed > sealing.sealed and sealing.closed == front.ledger.count


def question(step: Step) -> bytes:
    """The next question about the state after the last close. Empty if none is to be asked now."""
    sealing = step.front.sealing
    if not is_due(step.front) or sealing.entry is not None:
        return b""
    return matching.questions_of_state(step.front.setting.tree)[len(sealing.answers)]


def hear(step: Step, answer: bytes) -> None:
    """Takes an answer. After the last one the seal goes into the record."""
    sealing = change(step, answers=(*step.front.sealing.answers, text_of(answer)))
    if len(sealing.answers) < len(matching.questions_of_state(step.front.setting.tree)):
        return
    tree = step.front.setting.tree
    try:
        told = read_told(tree, sealing.answers)
        look_whose(tree, told)
    except NotTold as fault:
        step.finish(f"the last close can't be sealed: {fault}")
        return
    shown = told.shown
    if shown.count != sealing.closed:
        step.finish(f"the last close can't be sealed: it was command {sealing.closed}, and the server shows {sealing.answers[0]!r}")
        return
    closed = shown.round if shown.is_over else shown.round - 1
    step.write(SEAL, round=closed, count=shown.count, answers=list(sealing.answers))
    change(step, entry=step.front.ledger.written, answers=())


def seal_end(step: Step) -> None:
    """Seals all entries up to the front's end. Such a seal has no round and no answers."""
    if step.front.setting.has_seals:
        step.write(SEAL, round=0, count=step.front.ledger.count, answers=[])


def take_sealed(step: Step, seal: SealOnDisk) -> None:
    """A seal is on the disk: commands go on."""
    change(step, last=seal, entry=None, sealed=seal.count if seal.round else step.front.sealing.sealed)
    step.note("seal", number=seal.number, count=seal.count)
    step.publish(seal.line)


def take_stamp(step: Step, stamp: Stamped) -> None:
    """A seal was stamped: the stamp goes into the record, unless that has ended."""
    if step.front.phase <= Phase.ANSWERING:
        step.write(STAMP, seal=stamp.number, time=stamp.time, token=stamp.token)
        last = step.front.sealing.last
        if last and last.number == stamp.number:
            change(step, last=changed(last, stamped_at=stamp.time))


# Lines about seals.


def look_up(step: Step, place: int, name: str, item: Item) -> None:
    """Looks a seal or a receipt up. Its session waits for that."""
    step.set_session(place, stage=Stage.LOOKED_UP, line=item.line, name=name, item=item)
    what, *number = text_of(item.line).split(" ")
    last = step.front.sealing.last
    step.do(LookUp(place, what, int(number[0]) if number else last.number if last else 0))


def take_found(step: Step, event: LookedUp) -> None:
    """A seal or a receipt was looked up. Nobody learns whether there is a command that isn't its own."""
    session = step.front.sessions[event.session]
    if session.stage is not Stage.LOOKED_UP:
        return
    answer = refused(NOT_KNOWN)
    if event.of_command:
        receipt = seen_by(step.front.viewer(session.name), Receipt(event.of_command, event.text))
        if receipt:
            answer = f"{text_of(session.line)} {receipt.text}".encode() if receipt.text else refused(UNSEALED)
    elif event.text:
        answer = event.text.encode()
    step.set_session(event.session, stage=Stage.ANSWERED, answer=answer, entry=0)
    step.note("answered", name=session.name, line=text_of(session.line), answer=text_of(answer[:32]))


def line_of_last(front: Front) -> bytes:
    """The last seal, as the page gets it."""
    last = front.sealing.last
    return f"{last.line} STAMPED {last.stamped_at or '-'}".encode() if last else refused(NOT_KNOWN)
