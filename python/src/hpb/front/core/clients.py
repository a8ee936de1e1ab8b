"""Connections of clients: how they begin, which lines they may send, and when they end."""
import collections

from hpb.front.core import rounds
from hpb.front.core.effects import Abort, Answer, End, Field, Take, Wait
from hpb.front.core.events import Came, Gone, LinesEnded, OfClient, Opened, Reloaded, Stuffed, TooLong, Waited
from hpb.front.core.state import Connection, Going, Item, item_of
from hpb.front.core.stepping import Step
from hpb.front.core.values import changed
from hpb.front.limits import BURST_SECONDS
from hpb.front.rights import FORM, IDLE, LONG, MANY, TOKEN, UNKNOWN, refused, welcome

STAYS = Going.STAYS
# The first line has a token of 128 characters at most.
MOST_FIRST_LINE = 160


def take(step: Step, event: OfClient) -> None:
    """Handles an event of a connection. Events of a connection that has ended are ignored."""
    if isinstance(event, Came):
        come(step, event)
    elif event.connection in step.front.connections:
        take_known(step, event)


def take_known(step: Step, event: OfClient) -> None:
    """Handles an event of a connection that came and hasn't gone."""
    match event:
        case Opened(number):
            open_up(step, number)
        case TooLong(number, beginning):
            take_long(step, number, beginning)
        case LinesEnded(number, rest):
            take_end(step, number, rest)
        case Stuffed(number, is_full):
            step.set_connection(number, is_full=is_full)
        case Waited(number):
            wait_over(step, number)
        case Gone(number, why):
            go(step, number, why)


# Coming and going.


def come(step: Step, event: Came) -> None:
    """A new connection, which is unknown until its first line."""
    make_room(step)
    step.own_connections()[event.connection] = Connection(event.peer, event.network, step.front.time)
    step.set(unknown=(*step.front.unknown, event.connection))


def make_room(step: Step) -> None:
    """If there are too many unknown connections, the oldest one of the busiest address ends, until there is room for one more."""
    while len(unknown := step.front.unknown) >= step.front.limits.unknown_connections:
        connections = step.front.connections
        crowds = collections.Counter(connections[one].network for one in unknown)
        crowd = max(crowds, key=lambda network: crowds[network])
        first = next(one for one in unknown if connections[one].network == crowd)
        forget(step, first)
        dismiss(step, first, MANY)
        step.do(Abort(first))


def open_up(step: Step, number: int) -> None:
    """The connection can be written to. If it was to end before that, it ends now."""
    connection = step.set_connection(number, is_open=True)
    if connection.going is Going.STAYS:
        let_send(step, number)
    else:
        step.do(Abort(number))


def go(step: Step, number: int, why: str) -> None:
    """The connection has ended. Its waiting lines are dropped, but for a line that the server has already."""
    forget(step, number)
    connection = step.front.connections[number]
    step.note("ended", **told_of(connection), lines=connection.taken, why=connection.why or why)
    del step.own_connections()[number]


def forget(step: Step, number: int) -> None:
    """From now on the connection counts neither as one of its name's nor as an unknown one."""
    token = step.front.connections[number].token
    if token:
        step.set_name(token.name, connections=without(step.front.names[token.name].connections, number))
    step.set(unknown=without(step.front.unknown, number))


def without(numbers: tuple[int, ...], number: int) -> tuple[int, ...]:
    return tuple(other for other in numbers if other != number)


def dismiss(step: Step, number: int, word: str = "") -> None:
    """Ends the connection. If there is a word for the reason, a last line says it; nothing is written after that."""
    connection = step.front.connections[number]
    if connection.going is Going.CLOSED:
        return
    step.set_connection(number, going=Going.CLOSED, why=connection.why or word)
    if not connection.is_open:
        step.do(Abort(number))
        return
    if word:
        step.do(Answer(number, refused(word)))
    step.do(End(number))


def told_of(connection: Connection) -> dict[str, Field]:
    """A connection's fields in a line of the log: its address, its name and the id of its token."""
    token = connection.token
    return {"peer": connection.peer, "name": token.name if token else None, "token": token.id if token else None}


# Tokens.


def know(step: Step, number: int, line: bytes) -> None:
    """Takes the first line of a connection: if it has a known token, the connection is welcomed, else it ends."""
    connection = step.front.connections[number]
    token = step.front.tokens.find(line[len(TOKEN):]) if line.startswith(TOKEN) else None
    if token is None:
        step.note("token", peer=connection.peer, outcome="unknown" if line.startswith(TOKEN) else "none")
        dismiss(step, number, UNKNOWN)
        return
    is_many = not has_room(step, token.name)
    connection = step.set_connection(number, token=token)
    step.note("token", **told_of(connection), outcome=MANY if is_many else "welcome")
    if is_many:
        dismiss(step, number, MANY)
        return
    step.set(unknown=without(step.front.unknown, number))
    step.set_name(token.name, connections=(*step.front.names[token.name].connections, number))
    step.do(Answer(number, welcome(token.name, step.front.setting.is_mock)))


def has_room(step: Step, name: str) -> bool:
    """Whether the name may have one more connection. While it is at its limit, its longest silent connection that waits for nothing ends."""
    while len(numbers := step.front.names[name].connections) >= step.front.limits.connections:
        idle = [number for number in numbers if is_idle(step.front.connections[number])]
        if not idle:
            return False
        silent = min(idle, key=lambda number: step.front.connections[number].seen)
        forget(step, silent)
        dismiss(step, silent, MANY)
    return True


def is_idle(connection: Connection) -> bool:
    """Whether it stays, and no line of it waits: neither for its answer nor until its name may send one more."""
    return connection.going is Going.STAYS and not connection.waiting and not connection.held


def reload(step: Step, event: Reloaded) -> None:
    """Takes new limits and tokens. Connections whose token was removed end, and their waiting lines don't go to the server any more."""
    step.set(limits=event.limits, tokens=event.tokens)
    known = set(event.tokens.known)
    for number, connection in step.front.connections.items():
        if connection.token and connection.token not in known:
            forget(step, number)
            step.set_connection(number, is_barred=True)
            dismiss(step, number, UNKNOWN)
        elif connection.may_send and connection.going is Going.STAYS:
            allow(step, number)
        else:
            let_send(step, number)


# Lines.


def let_send(step: Step, number: int) -> None:
    """Lets a connection send a line, if there is room for it."""
    connection = step.front.connections[number]
    if connection.may_send or connection.held or connection.waiting >= step.front.limits.lines_waiting:
        return
    if connection.is_open and connection.going is STAYS and not connection.has_ended:
        step.connection(number).may_send = True
        allow(step, number)


def allow(step: Step, number: int) -> None:
    """A line that a connection may send, or the one that it was let send before, has so many bytes at most. What it was let send isn't taken
    back: the line may have come."""
    step.do(Take(number, step.front.limits.line_bytes if step.front.connections[number].token else MOST_FIRST_LINE))


def may_take(step: Step, number: int) -> bool:
    """Whether an event's line is used: only if the connection was allowed to send one. The connection then has to wait until it may send
    the next."""
    if not step.front.connections[number].may_send:
        return False
    connection = step.connection(number)
    connection.may_send = False
    if connection.going is not STAYS:
        return False
    connection.seen = step.front.time
    return True


def take_line(step: Step, number: int, line: bytes) -> None:
    """Takes a whole line. From an unknown connection it is the token, from any other one a line for the server."""
    if number not in step.front.connections or not may_take(step, number):
        return
    if token := step.front.connections[number].token:
        take_in_turn(step, item_of(number, token, line, step.front.names[token.name].role.refusal(line)))
    else:
        know(step, number, line)
    let_send(step, number)


def take_long(step: Step, number: int, beginning: bytes) -> None:
    """Refuses a line that is too long. The connection ends, because the rest of such a line is never read."""
    if not may_take(step, number):
        return
    if token := step.front.connections[number].token:
        take_in_turn(step, item_of(number, token, beginning, LONG))
    else:
        dismiss(step, number, UNKNOWN)


def take_end(step: Step, number: int, rest: bytes) -> None:
    """The client sends no more lines. If it left half a line, that is refused. Once all lines are answered, the connection ends."""
    if not may_take(step, number):
        return
    token = step.set_connection(number, has_ended=True, going=Going.LEAVES).token
    if rest and token:
        queue(step, item_of(number, token, rest, FORM))
    go_when_answered(step, number)


def take_in_turn(step: Step, item: Item) -> None:
    """Takes a line at once if its name's rate allows it. Else the line waits until the rate does."""
    number = item.connection
    if seconds := wait_seconds(step, item.token.name):
        step.connection(number).held = item
        step.do(Wait(number, seconds))
        return
    if step.front.connections[number].held:
        step.connection(number).held = None
    if item.refusal == LONG:
        step.set_connection(number, going=Going.LEAVES, why=LONG)
    queue(step, item)


def wait_over(step: Step, number: int) -> None:
    """The wait of a line is over: it is taken, unless its name has to wait again."""
    connection = step.front.connections[number]
    if connection.held and connection.going is Going.STAYS:
        take_in_turn(step, changed(connection.held))
        let_send(step, number)


def wait_seconds(step: Step, name: str) -> float:
    """Counts one line against the name's rate, and returns 0. If the rate doesn't allow it yet, returns the seconds to wait."""
    known, now, rate = step.name(name), step.front.time, step.front.limits.lines_per_second
    credit = min(known.credit + (now - known.seen) * rate, BURST_SECONDS * rate)
    has_leave = credit >= 1
    known.credit, known.seen = credit - has_leave, now
    return 0 if has_leave else (1 - credit) / rate


def queue(step: Step, item: Item) -> None:
    """Puts a line that nobody else has at the end of its name's lines, to be answered in turn."""
    front, name = step.front, item.token.name
    item.number, item.round = front.taken + 1, rounds.mark(front)
    step.set(taken=item.number)
    connection, known = step.connection(item.connection), step.name(name)
    connection.waiting += 1
    connection.taken += 1
    if not known.items:
        step.session(known.session).turns += (name,)
    known.items += (item,)


def answer(step: Step, number: int, line: bytes) -> None:
    """Sends the answer to a line, unless the connection has ended or is ending."""
    if number not in step.front.connections:
        return
    connection = step.connection(number)
    connection.waiting -= 1
    connection.seen = step.front.time
    if connection.going is not Going.CLOSED:
        step.do(Answer(number, line))
        if connection.going is not STAYS:
            go_when_answered(step, number)
        elif not connection.may_send:
            let_send(step, number)


def drop(step: Step, number: int) -> None:
    """Drops a line of the connection: it never goes to the server, and gets no answer."""
    if number in step.front.connections:
        step.connection(number).waiting -= 1


def go_when_answered(step: Step, number: int) -> None:
    """Ends a connection that is to leave, if all its lines are answered."""
    connection = step.front.connections[number]
    if connection.going is Going.LEAVES and not connection.waiting:
        dismiss(step, number)


# Silence, and the end.


def sweep(step: Step) -> None:
    """Ends connections that send no token in time, that are silent for too long, or that don't read their answers."""
    limits = step.front.limits
    for number, connection in step.front.connections.items():
        silent = step.front.time - connection.seen
        if connection.going is Going.CLOSED or silent <= (limits.idle_seconds if connection.token else limits.token_seconds):
            continue
        if connection.is_full and connection.token:
            step.set_connection(number, going=Going.CLOSED)
            step.do(Abort(number))
        elif is_idle(connection):
            dismiss(step, number, IDLE)


def close(step: Step) -> None:
    """No more lines are taken. Each connection ends once all its lines are answered."""
    for number, connection in step.front.connections.items():
        if connection.waiting and connection.going is Going.STAYS:
            step.set_connection(number, going=Going.LEAVES, held=None)
        elif not connection.waiting:
            dismiss(step, number)
