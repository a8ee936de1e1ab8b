"""The promises of docs/FRONT.md, each by its sentence, and a watch that checks each effect of a front against them."""
from __future__ import annotations

import enum
from collections import deque

from front_world import LIMITS, ROLES, TREE, Server, Watch, Wire, World, token
from hpb.front.core import Front, Phase, effects, events
from hpb.front.core.effects import Effect
from hpb.front.core.events import Event, Left

# For each kind of line, how many words it has and who may send it. Written by hand, from the tables of docs/FRONT.md.
WORDS = {"BID": 5, "WAIVE": 3, "CLOSE": 2, "STAGE": 2, "SHOW": 1, "NODE": 2, "WHO": 2}
BIDDERS = {"ann": "x", "bob": "yz", "carl": "w", "desk": "xyzw", "public": ""}
MAY = {"desk": "CLOSE STAGE SHOW NODE WHO", "public": "SHOW NODE"}
BIDDER_MAY = "BID WAIVE SHOW NODE WHO"
COMMANDS = ("BID", "WAIVE", "CLOSE", "STAGE")
GOODBYES = (b"ERR front token", b"ERR front many", b"ERR front idle")
HANDED_TO_NOBODY = (b"ERR 93", b"ERR 95")
# The last one tells a mock's server, whose definition has that bidder, from another one.
QUESTIONS = [
    b"SHOW", *(b"NODE " + name.encode() for name in TREE.nodes), *(b"WHO " + name.encode() for name in TREE.bidders), b"WHO mock_auction",
]
LONG, HALF = b"(a line that is too long)", b"(half a line)"
END_SECONDS = 10.0


class Promise(enum.Enum):
    """The promises of a front."""

    OK_IS_KEPT = "Every OK that a client read is in the file and in the record, once, in the order of its number. It left after both were synced."
    NEXT_NUMBER = "An entry accepted is written for the next number alone, and one that is repeated has its entry already."
    RIGHTS = "No line reaches the server that its name may not send, and none before its connection said who it is."
    NOTHING_LOST = "No kill of server or front loses or doubles a command."
    BESIDE_FIRST = "A command is put beside the record, and synced, before the server gets it."
    NOT_TOLD_NOW = "A line that the file hasn't is not told to it by a front that starts again."
    ONE_OUTSTANDING = "A session has one line outstanding."
    ANSWERED_IN_ORDER = "Each connection's lines are answered in their order, each once."
    TOLD_IN_ORDER = "The server gets the lines of all connections of a name in the order in which they came."
    REVOKED = "A connection whose token went is answered ERR front token, and ends."
    ENDED = "Behind the word by which a connection ends it is answered nothing."
    NO_93 = "No connection is answered 93 or 95."
    WAITING = "More lines of one connection aren't read than may wait."
    RATE = "A name may send so many lines a second over all its connections, and twice as many at once. More isn't read until it may."
    CONNECTIONS = "A name has no more connections than it may, and no more are unknown than may be."
    ENDS = "The front ends within ten seconds of its signal, whatever hangs, and says how."
    GOES_ON = "Lines are answered, by the next front if this one ended; nothing hangs."
    SAME_AUCTION = "After a restart the server gets no line of a name before it has shown the auction that the front goes on with. Else the front ends, and says so."
    LISTENS = "Without its line LISTENING or BOARD on standard output the front ends; without any other it goes on."
    AGREES = "When anybody is let in the record has what the file has."
    FROZEN = "While commands are frozen, record and file have the same ones, and none goes to the server."
    SEALED = "Each close has one seal, of the state right behind it. No command is told to the server, or put into the record, before that is on the disk."
    STAMPED = "Stamps come in the order of the seals, each once, behind its seal. All seals are stamped once there is a network."
    RECEIPTS = "Each name gets receipts for its own commands alone, of which each leads to the last seal. Each seal comes with the proof that it goes on from the one before."
    VERIFIES = "The checker finds the record right, whatever happened."


class Broken(AssertionError):
    """A promise is broken."""

    def __init__(self, promise: Promise, how: object) -> None:
        super().__init__(f"{promise.name}: {promise.value} {how}")
        self.promise = promise


def require(is_kept: bool, promise: Promise, how: object = "") -> None:
    if not is_kept:
        raise Broken(promise, how)


def refusal(name: str, line: bytes) -> bytes | None:
    """The front's own refusal of a line of a name, or None if the server gets the line."""
    if line == LONG:
        return b"ERR front long"
    words = line.decode("latin-1").split(" ")
    if line == HALF or len(words) != WORDS.get(words[0]) or "" in words:
        return b"ERR front line"
    if words[0] not in MAY.get(name, BIDDER_MAY).split():
        return b"ERR front rights"
    is_others = words[0] in ("BID", "WAIVE", "WHO") and name != "desk" and words[1] not in tuple(BIDDERS[name])
    return b"ERR front rights" if is_others else None


def told_form(line: bytes) -> bytes:
    """A line as the server gets it: without the number of its round, and without the word that a close may end the auction."""
    return line.split(b" ", 2)[-1] if line.startswith(b"IN ") else line.removesuffix(b" ENDING")


def is_command(line: bytes) -> bool:
    return line.decode("latin-1").split(" ")[0] in COMMANDS


def is_new(server: Server, line: bytes) -> bool:
    """Whether a server has no command with this one's ticket."""
    words = line.decode("latin-1").split(" ")
    sender, ticket = (words[1], words[2]) if words[0] in ("BID", "WAIVE") else (None, words[1])
    return int(ticket) > server.ticket(sender)


class Promises(Watch):
    """Raises a Broken at the first effect that breaks a promise."""

    def __init__(self) -> None:
        self.names = list(ROLES)
        self.given: dict[bytes, set[bytes]] = {}
        self.forget()

    def forget(self) -> None:
        self.told: dict[int, bytes] = {}
        self.outstanding: set[int] = set()
        # The questions that the server still has to get since it came up again.
        self.to_ask: deque[bytes] = deque()
        # All connections of this front; the lines of vanished connections, which may have been sent to the server or dropped.
        self.wires: list[Wire] = []
        self.uncertain: set[bytes] = set()
        self.came: dict[str, deque[tuple[Wire, bytes]]] = {name: deque() for name in ROLES}
        self.answered = dict.fromkeys(ROLES, 0)
        self.has_admitted = False
        # While commands are frozen: those of the file.
        self.frozen: list[tuple[str, str]] | None = None
        self.stopped_at: float | None = None

    def started(self, world: World) -> None:
        self.forget()

    # Events.

    def event(self, world: World, event: Event) -> None:
        match event:
            case events.Line(number, line):
                self.take(world, world.wires[number], line)
            case events.TooLong(number):
                self.take(world, world.wires[number], LONG)
            case events.ServerUp() if world.front and world.front.phase >= Phase.NOTING:
                self.to_ask = deque(QUESTIONS)
            case events.Answered(session, answer) if self.to_ask:
                self.outstanding.discard(session)
                self.to_ask.popleft()
            case events.Answered(session, answer):
                self.outstanding.discard(session)
                # An answer 93 or 95 goes to no client.
                if answer[:6] not in HANDED_TO_NOBODY:
                    self.given.setdefault(self.told.pop(session), set()).add(answer)
            case events.Opened(number):
                self.wires.append(world.wires[number])
            case events.Reloaded():
                for wire in self.wires:
                    wire.is_barred = wire.is_barred or bool(wire.name) and wire.token != token(wire.name, world.tokens[wire.name])
            case events.ServerGone() | events.ServerFailed():
                self.outstanding.clear()
                self.to_ask.clear()
            case events.Thaw():
                require(self.frozen in (None, kept(world)), Promise.FROZEN, (self.frozen, kept(world)))
                self.frozen = None
            case events.Stop():
                self.stopped_at, self.frozen = self.stopped_at or world.passed, None
        self.look_at_time(world)
        unknown = [wire for wire in world.wires.values() if not wire.name and not wire.is_closed]
        most = world.limits.unknown_connections + isinstance(event, events.Came)
        require(len(unknown) <= most, Promise.CONNECTIONS, f"{len(unknown)} are unknown")

    def look_at_time(self, world: World) -> None:
        if self.stopped_at is not None:
            require(world.passed - self.stopped_at <= END_SECONDS, Promise.ENDS, f"{world.passed - self.stopped_at:.1f} s")

    def take(self, world: World, wire: Wire, line: bytes) -> None:
        wire.taken.append(line)
        if wire.name:
            waiting = len(wire.taken) - 1 - len(answers_of(wire))
            require(waiting <= world.limits.lines_waiting, Promise.WAITING, f"{waiting} wait")
            if not refusal(wire.name, told_form(line)):
                self.came[wire.name].append((wire, told_form(line)))

    def stepped(self, before: Front, event: Event, clock: float, outcome: tuple[Front, list[Effect]]) -> None:
        if isinstance(event, events.Unpublished) and before.phase == Phase.OPEN:
            ends = any(isinstance(effect, effects.MustEnd) for effect in outcome[1])
            require(ends == event.line.startswith(("LISTENING ", "BOARD ")), Promise.LISTENS, event.line)

    # Effects.

    def effect(self, world: World, effect: Effect) -> None:
        match effect:
            case effects.Answer(number, line) if number in world.wires:
                self.look_at_answer(world, world.wires[number], line)
            case effects.Tell(session, line):
                self.look_at_line(world, session, line)
            case effects.StartServer():
                self.outstanding.clear()
            case effects.Write("accepted", fields):
                self.look_at_entry(world, fields["line"], fields["answer"])
            case effects.Frozen(count, place):
                self.frozen = kept(world)
                require(self.frozen == world.disk.accepted(), Promise.FROZEN, (self.frozen, world.disk.accepted()))
                require((count, place) == (len(self.frozen), world.disk.place) and not world.disk.writes, Promise.FROZEN, (count, place))
            case effects.Admit():
                self.has_admitted = True
                require(world.disk.accepted() == kept(world), Promise.AGREES, (world.disk.accepted(), kept(world)))
            case effects.Finish(why):
                self.look_at_time(world)
                require(bool(why or world.published or world.said), Promise.ENDS, "it ended in silence")
                require(not why.startswith(("the file has", "the server ended by")), Promise.NOTHING_LOST, why)
                is_other = why.startswith("the file is that of another auction than the record: it has ")
                require(is_other == (world.mislaid is not None), Promise.SAME_AUCTION, why)

    def look_at_answer(self, world: World, wire: Wire, line: bytes) -> None:
        require(line[:6] not in HANDED_TO_NOBODY, Promise.NO_93, line)
        require(not wire.is_closed, Promise.ENDED, line)
        require(not wire.is_barred or line == GOODBYES[0], Promise.REVOKED, line)
        if line.startswith(b"WELCOME "):
            name = line.split()[1].decode()
            said = token(name, world.tokens[name])
            require(wire.taken == [b"TOKEN " + said], Promise.RIGHTS, wire.taken)
            wire.name, wire.token = name, said
            others = [one for one in world.wires.values() if one.name == name and not one.is_closed]
            require(len(others) <= world.limits.connections, Promise.CONNECTIONS, f"{len(others)} of {name}")
        elif line not in GOODBYES:
            self.look_at_pair(world, wire, line)

    def look_at_pair(self, world: World, wire: Wire, line: bytes) -> None:
        """The answer to the next line of a connection."""
        place = 1 + len(answers_of(wire))
        require(bool(wire.name) and place < len(wire.taken), Promise.ANSWERED_IN_ORDER, f"{line!r} answers nothing")
        asked = wire.taken[place]
        assert world.front
        rate, self.answered[wire.name] = world.limits.lines_per_second, self.answered[wire.name] + 1
        require(self.answered[wire.name] <= rate * (2 + world.front.time), Promise.RATE, f"{self.answered[wire.name]} lines")
        self.look_at_wanted(world, wire, asked, line)
        if line.startswith(b"OK "):
            number, pair = int(line[3:]), (told_form(asked).decode(), line.decode())
            are = [some[number - 1 : number] for some in (kept(world), world.disk.accepted())]
            require(are == [[pair], [pair]], Promise.OK_IS_KEPT, (pair, are))

    def look_at_wanted(self, world: World, wire: Wire, asked: bytes, line: bytes) -> None:
        """Checks that this is an answer to that line: the front's refusal, or one that the server gave."""
        refused = refusal(wire.name, told_form(asked))
        wanted = {refused} if refused else self.given.get(told_form(asked), set())
        require(line in wanted, Promise.ANSWERED_IN_ORDER, f"{asked!r} is answered {line!r}, not one of {wanted}")

    def look_at_line(self, world: World, session: int, line: bytes) -> None:
        """A line to the server."""
        require(self.frozen is None or not is_command(line), Promise.FROZEN, line)
        require(session not in self.outstanding, Promise.ONE_OUTSTANDING, line)
        self.outstanding.add(session)
        if self.to_ask:
            require(line == self.to_ask[0], Promise.SAME_AUCTION, line)
            return
        require(world.mislaid is None or world.server.state != "up" or line in QUESTIONS, Promise.SAME_AUCTION, line)
        is_again = self.told.get(session) == line
        self.told[session] = line
        if not self.has_admitted:
            require(not is_command(line) or not is_new(world.server, line), Promise.NOT_TOLD_NOW, line)
        elif not is_again and session < len(self.names) and line != b"SHOW":
            self.look_at_sender(world, self.names[session], line)

    def look_at_sender(self, world: World, name: str, line: bytes) -> None:
        require(not refusal(name, line), Promise.RIGHTS, (name, line))
        senders = [wire for wire in self.wires if wire.name == name and line in map(told_form, wire.taken)]
        require(bool(senders), Promise.RIGHTS, f"nobody has sent {line!r}")
        require(not all(wire.is_barred for wire in senders), Promise.REVOKED, line)
        if is_command(line):
            require(Left(name, line) in world.disk.beside.values(), Promise.BESIDE_FIRST, line)
        # A line that waits for its name's rate has its turn some time later.
        if world.limits.lines_per_second == LIMITS.lines_per_second:
            self.look_at_turn(world, self.came[name], line)

    def look_at_turn(self, world: World, came: deque[tuple[Wire, bytes]], line: bytes) -> None:
        """Checks that no earlier line of the name was passed over. Lines of connections that ended, or whose token was removed, don't
        count."""
        while came:
            wire, other = came.popleft()
            is_gone = world.wires.get(wire.number) is not wire
            if wire.is_barred or (other != line and (is_gone or other == b"SHOW" or other in self.uncertain)):
                continue
            require(other == line, Promise.TOLD_IN_ORDER, f"{line!r} before {other!r}")
            self.uncertain |= {line} if is_gone else set()
            return
        require(line in self.uncertain, Promise.TOLD_IN_ORDER, f"{line!r} is told once more")

    def look_at_entry(self, world: World, line: str, answer: str) -> None:
        pair = (line, answer)
        before = len(world.disk.accepted()) + sum(write.kind == "accepted" for write in world.disk.writes)
        require(answer == f"OK {before + 1}" and kept(world)[before : before + 1] == [pair], Promise.NEXT_NUMBER, (pair, before))

    def at_the_end(self, world: World) -> None:
        """Checks the record at the end of a day that ended well."""
        require(world.disk.accepted() == kept(world), Promise.NOTHING_LOST, (world.disk.accepted(), kept(world)))


def answers_of(wire: Wire) -> list[bytes]:
    """The answers that a connection got to its lines after the token."""
    return [line for line in wire.heard if line not in GOODBYES and not line.startswith(b"WELCOME ")]


def kept(world: World) -> list[tuple[str, str]]:
    """The commands of the file, as the record should have them."""
    return [(line, f"OK {number}") for number, line in enumerate((world.mislaid or world.server).file, 1)]
