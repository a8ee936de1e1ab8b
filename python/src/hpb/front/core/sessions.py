"""The sessions with the server: which line each sends next, and when its answer may leave.

A command is first put beside the record, and then sent to the server. Once it is accepted, it is written into the record, and then its
answer leaves. Meanwhile the session takes no other line.

A CLOSE waits until all commands that were taken before it have their answers. Those that were taken behind it wait for its answer. A CLOSE by
the clock waits for all commands that were taken in its round; later ones are refused.
"""
from collections.abc import Callable, Iterable

from hpb.front.core import clients, desk, news, rounds, sealing, veil
from hpb.front.core.clock import At
from hpb.front.core.effects import AnswerBoard, FreeBeside, PutBeside, Tell, Wake
from hpb.front.core.ledger import WHERE_THE_AUDIT_ENDS, Foreign, Held
from hpb.front.core.state import FREE, For, Freeze, Item, Phase, Session, Stage
from hpb.front.core.stepping import Step
from hpb.front.core.values import changed
from hpb.front.rights import for_server, is_close, is_command, is_of_seals, is_own, refused
from hpb.front.tokens import LEAST_TOKEN
from hpb.record.entries import OK, text_of

OVER = b" CLOSED "
ACCEPTS = OK.encode()
# Looked at for each line.
STAGE_FREE, ANSWERED, CLOSING, UNFROZEN = Stage.FREE, Stage.ANSWERED, At.CLOSING, Freeze.NONE
# The phases in which clients' lines go to the server.
SERVES = (Phase.OPEN, Phase.ANSWERING)


def number_of(answer: bytes) -> int:
    """The number in an `OK`, or 0 for any other answer."""
    return int(answer[len(OK):]) if answer.startswith(ACCEPTS) else 0


def tell(step: Step, place: int, line: bytes, purpose: For) -> None:
    """Gives a session its line. The line is sent now, or once there is a server."""
    session, is_up = step.session(place), step.front.server.is_up
    session.stage, session.purpose, session.line, session.is_sent = Stage.TOLD, purpose, line, is_up
    if is_up:
        step.do(Tell(place, line))


def tell_again(step: Step, place: int) -> None:
    """Sends a line without an answer to a server that has come up. If no server had the line, and its token was removed, drops it."""
    session = step.front.sessions[place]
    if session.is_sent or session.item is None or not is_dropped(step, session.item):
        step.session(place).is_sent = True
        step.do(Tell(place, session.line))
        return
    if session.beside is not None:
        step.ledger().judge(session.beside)
        give_back(step, session.beside)
    clients.drop(step, session.item.connection)
    free(step, place)


def free(step: Step, place: int) -> None:
    """The session is done with its line."""
    step.put_session(place, changed(FREE, turns=step.front.sessions[place].turns))


def go_on(step: Step, places: Iterable[int]) -> None:
    """Sends the answers of these sessions that may leave, and begins their next lines. Names that share a session take turns, line by
    line."""
    for place in places:
        if step.front.sessions[place].stage is ANSWERED:
            leave(step, place)
        close_by_clock(step, place)
        ask_for_seal(step, place)
        while name := next_name(step, place):
            begin_next(step, place, name)


def go_on_quietly(step: Step, places: Iterable[int]) -> None:
    """The same, if no line has to wait for those of other sessions."""
    for place in places:
        if step.front.sessions[place].stage is ANSWERED:
            leave(step, place)
        while (session := step.front.sessions[place]).turns and session.stage is STAGE_FREE and step.front.phase in SERVES:
            begin_next(step, place, session.turns[0])


def next_name(step: Step, place: int) -> str:
    """The name whose line is next in a session, or none if all have to wait."""
    session, front = step.front.sessions[place], step.front
    if not session.turns or session.stage is not STAGE_FREE or front.phase not in SERVES:
        return ""
    gate = gate_of(step)
    return next((name for name in session.turns if may_begin(step, front.names[name].items[0], gate)), "")


def begin_next(step: Step, place: int, name: str) -> None:
    """Begins a name's next line. Then others have their turns."""
    known, session = step.name(name), step.session(place)
    item, *items = known.items
    known.items = tuple(items)
    others = tuple(other for other in session.turns if other != name) if len(session.turns) > 1 else ()
    session.turns = (*others, name) if items else others
    begin(step, place, name, item)


def begin(step: Step, place: int, name: str, item: Item) -> None:
    """Begins a line. If its connection has ended, or its token was removed, the line is dropped."""
    is_of_round = item.refusal is None and is_command(item.line)
    if is_dropped(step, item) or item.connection not in step.front.connections:
        clients.drop(step, item.connection)
    elif word := item.refusal or (desk.refusal(step, item) if is_of_round else None):
        answer = refused(word)
        note(step, name, item.line, answer)
        clients.answer(step, item.connection, answer)
    elif is_of_round:
        put_beside(step, place, name, for_server(item.line), item)
    elif is_of_seals(item.line):
        sealing.look_up(step, place, name, item)
    elif is_own(item.line):
        answer, entry = desk.answer(step, name, item.line)
        note(step, name, item.line, answer)
        step.set_session(place, stage=Stage.ANSWERED, purpose=For.LINE, line=item.line, name=name, item=item, answer=answer, entry=entry)
        leave(step, place)
    else:
        step.set_session(place, name=name, item=item)
        tell(step, place, item.line, For.LINE)


def put_beside(step: Step, place: int, name: str, line: bytes, item: Item | None) -> None:
    """Puts a command beside the record. It goes to the server once it stands there."""
    session, beside = step.session(place), step.ledger().take_place()
    session.stage, session.purpose, session.line, session.name = Stage.BESIDE, For.LINE, line, name
    session.item, session.beside = item, beside
    step.do(PutBeside(beside, name, line))


# Closes.


def desk_of(step: Step) -> tuple[int, Session]:
    """The session of the auctioneer, and its place."""
    place = step.front.names[step.front.setting.desk].session
    return place, step.front.sessions[place]


def gate_of(step: Step) -> int | None:
    """Commands that were taken behind this line have to wait: it is the auctioneer's CLOSE, or 0 if a CLOSE is on its way. None if there is no
    CLOSE."""
    front = step.front
    name = front.names[front.setting.desk]
    session = front.sessions[name.session]
    if session.line and is_close(session.line) and is_judged(session):
        return 0
    if not name.items:
        return None
    first = name.items[0]
    return first.number if first.refusal is None and is_close(first.line) else None


def is_judged(session: Session) -> bool:
    """Whether the session has a command without an answer."""
    return session.stage in (Stage.BESIDE, Stage.TOLD) and session.beside is not None


def is_quiet(step: Step) -> bool:
    """Whether no line waits for those of other sessions, nor will as long as the auctioneer sends none. Then none of its lines waits, no CLOSE is
    on its way, none has to be sealed, and there is no freeze."""
    front = step.front
    name = front.names[front.setting.desk]
    session = front.sessions[name.session]
    is_closing = session.line and is_close(session.line) and is_judged(session)
    is_frozen = front.freeze is not UNFROZEN
    return not (name.items or front.is_held or front.rounds.at is CLOSING or is_closing or is_frozen or sealing.is_due(front))


def holds(step: Step) -> bool:
    """Whether lines of several sessions wait for one another."""
    front = step.front
    return front.rounds.at is CLOSING or gate_of(step) is not None or front.freeze is not UNFROZEN or sealing.is_due(front)


def may_begin(step: Step, item: Item, gate: int | None) -> bool:
    """Whether a line may begin. A CLOSE waits for all commands before it, and those behind it wait for it. Commands wait for the seal of the last
    close, and so do lines about seals. In a freeze each command waits."""
    if item.refusal is not None or not (is_command(item.line) or is_of_seals(item.line)):
        return True
    if step.front.freeze is not UNFROZEN and is_command(item.line):
        return False
    if sealing.is_due(step.front):
        return False
    if gate is None or is_of_seals(item.line):
        return True
    return not is_waited_for(step, lambda other: other.number < item.number) if is_close(item.line) else item.number < gate


def is_waited_for(step: Step, counts: Callable[[Item], bool]) -> bool:
    """Whether a command has no answer yet: the server has it or is about to get it, or it waits, and counts."""
    if any(is_judged(session) for session in step.front.sessions):
        return True
    items = (item for name in step.front.names.values() for item in name.items)
    return any(item.refusal is None and is_command(item.line) and counts(item) for item in items)


def close_by_clock(step: Step, place: int) -> None:
    """If a round's time is over, and all its commands are answered, closes it. If that would end the auction, the auctioneer has to do it,
    unless the plan says so."""
    front, (mine, session) = step.front, desk_of(step)
    if front.rounds.at is not At.CLOSING or place != mine or session.stage is not Stage.FREE or front.phase not in SERVES:
        return
    if sealing.is_due(front) or front.freeze is not UNFROZEN:
        return
    if is_waited_for(step, lambda item: item.round == front.rounds.round):
        return
    # The round may have been opened before a second name was wanted.
    if front.books.would_end() and (not front.rounds.ends or front.setting.closing.needs_second):
        rounds.hold(step)
        return
    put_beside(step, place, front.setting.desk, b"CLOSE %d" % (front.ledger.used.get(None, 0) + 1), None)


def ask_for_seal(step: Step, place: int) -> None:
    """If the last close has no seal yet, asks the next question for it."""
    mine, session = desk_of(step)
    if place == mine and session.stage is Stage.FREE and step.front.phase in SERVES and (question := sealing.question(step)):
        tell(step, place, question, For.SEAL)


def is_dropped(step: Step, item: Item) -> bool:
    """Whether the line's token was removed."""
    connection = step.front.connections.get(item.connection)
    return connection.is_barred if connection else item.token not in step.front.tokens.known


def take_beside(step: Step, places: tuple[int, ...]) -> None:
    """These commands are on the disk, so the next start would find them after a crash: they may go to the server."""
    stand = frozenset(places)
    for place, session in enumerate(step.front.sessions if step.front.phase in SERVES else ()):
        if session.stage is Stage.BESIDE and session.beside in stand and session.beside is not None:
            if session.item and is_dropped(step, session.item):
                give_back(step, session.beside)
                clients.drop(step, session.item.connection)
                free(step, place)
            else:
                step.ledger().tell(session.beside)
                tell(step, place, session.line, For.LINE)


def take_answer(step: Step, place: int, answer: bytes) -> None:
    """Takes the server's answer to a question of the page, to the SHOW after a close, or to a line of a name."""
    session = step.front.sessions[place]
    if session.purpose is For.BOARD:
        (number, _), *others = step.front.questions
        step.set(questions=tuple(others))
        veil.hear(step, answer)
        step.do(AnswerBoard(number, answer))
        free(step, place)
        ask_for_board(step)
    elif session.purpose is For.CLOSE:
        free(step, place)
        tell_close(step, answer)
    elif session.purpose is For.SEAL:
        free(step, place)
        sealing.hear(step, answer)
    elif step.front.phase in SERVES:
        judge(step, place, answer)


def judge(step: Step, place: int, answer: bytes) -> None:
    """Takes the answer to a line of a name. A command that is newly accepted goes into the record, all else into the log."""
    session, ledger = step.session(place), step.ledger()
    number = number_of(answer) if session.beside is not None else 0
    if session.beside is not None:
        ledger.judge(session.beside)
    session.stage, session.answer = Stage.ANSWERED, answer
    if number > ledger.count:
        session.entry = None
        ledger.held[number] = Held(ledger.sent, session.name, session.line, place)
    else:
        note(step, session.name, session.line, answer)
        if session.beside is not None:
            give_back(step, session.beside)
        # A repeat: its entry may not be on the disk yet.
        session.entry, session.beside = ledger.written if number else 0, None
    release(step)


def release(step: Step) -> None:
    """Writes accepted commands, unless a smaller number may still come."""
    while found := step.front.ledger.next():
        if isinstance(found, Foreign):
            note_foreign(step, found)
            continue
        ledger = step.ledger()
        ledger.accept(found.line)
        step.do(found.entry(ledger.count))
        rounds.took(step, found.line)
        veil.took(step, found.line)
        sealing.took(step, found.line)
        if found.session is not None:
            step.session(found.session).entry = ledger.written


def note_foreign(step: Step, foreign: Foreign) -> None:
    """Writes an entry about numbers whose commands didn't come through this front."""
    numbers = f"commands {foreign.first} to {foreign.last} of the auction"
    step.say(f"{numbers} stand in no record: this front didn't tell them, and {WHERE_THE_AUDIT_ENDS}")
    step.write("foreign", **{"from": foreign.first, "to": foreign.last})
    step.set_ledger(count=foreign.last, has_strangers=True)
    step.set(books=step.front.books.took_unknown())


def leave(step: Step, place: int) -> None:
    """Sends a session's answer, if its entry and all entries before that are on the disk."""
    session = step.front.sessions[place]
    if session.entry is None or session.entry > step.front.ledger.synced:
        return
    answer = veil.answer_to(step, session) if session.item else b""
    if answer is None:
        return
    if session.beside is not None:
        step.ledger().give_place(session.beside)
    if session.item:
        clients.answer(step, session.item.connection, answer)
    free(step, place)
    if is_close(session.line) and number_of(session.answer):
        tell(step, place, b"SHOW", For.CLOSE)
    elif session.item is None:
        rounds.was_refused(step, session.answer)


def give_back(step: Step, beside: int) -> None:
    """Empties a place beside the record, since its command needn't be found any more."""
    step.do(FreeBeside(beside))
    step.ledger().give_place(beside)


def note(step: Step, name: str, line: bytes, answer: bytes) -> None:
    """Logs a line that changed nothing, without tokens: a client may have sent one in the wrong place. The log itself leaves out what may be
    one, but for names and numbers."""
    words = [b".." if len(word) >= LEAST_TOKEN and step.front.tokens.find(word) else word for word in line.split(b" ")]
    step.note("answered", name=name, line=text_of(b" ".join(words)), answer=text_of(answer))


def tell_close(step: Step, shown: bytes) -> None:
    """Publishes the result of a close, with the record's last entry on the disk."""
    number, digest = step.front.ledger.place
    step.publish(f"{text_of(shown)} RECORD {number} {digest}")
    look_whether_over(step, shown)
    rounds.take_shown(step, shown)


def look_whether_over(step: Step, shown: bytes) -> None:
    """If the auction is over, the front ends some time later, by the limits in force then."""
    if OVER in shown:
        seconds = step.front.limits.after_end_seconds
        step.say(f"the auction is over; the front stops in {seconds} seconds")
        step.set(over_since=step.front.time)
        step.do(Wake(seconds))


def ask_for_board(step: Step, *questions: tuple[int, bytes]) -> None:
    """Takes questions of the page, which have the last session for themselves. Some the front answers by itself."""
    for number, line in questions:
        if own := own_answer(step, line):
            step.do(AnswerBoard(number, own))
    step.set(questions=(*step.front.questions, *(one for one in questions if not is_own(one[1]))))
    place = len(step.front.sessions) - 1
    if step.front.questions and step.front.sessions[place].stage == Stage.FREE:
        tell(step, place, step.front.questions[0][1], For.BOARD)


def own_answer(step: Step, line: bytes) -> bytes:
    """The front's own answer to a question of the page: the state of the clock, or the news behind a number that a name may know. Empty if the
    server answers it."""
    match text_of(line).split(" "):
        case ["SCHEDULE"]:
            return desk.schedule_line(step.front)
        case ["EVENT", number, name] if number.isdigit() and name in step.front.setting.roles:
            return news.next_line(step.front, name, int(number), step.front.ledger.synced)
        case ["READ", name]:
            return b"READ %d" % step.front.read.get(name, 0)
        case ["INFORMATION"] if step.front.setting.information:
            return veil.facts_line(step.front)
        case ["SEAL"] if step.front.setting.has_seals:
            return sealing.line_of_last(step.front)
    return refused("line") if is_own(line) else b""
