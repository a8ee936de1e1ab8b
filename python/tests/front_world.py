"""A world round the core of a front, moved on by a seed: a disk, a server that judges by the package's rules, a network, and callers.

The front may be killed between any two effects. Then its core is thrown away. The disk keeps all synced entries and some of the others, and
a new core starts. Plain lists hold everything that the promises are about, and `front_promises` checks them.
"""
from __future__ import annotations

import random
from collections import deque
from collections.abc import Iterator
from dataclasses import dataclass, field, replace
from typing import Protocol

from hpb.front.core import Front, Phase, Setting, effects, events, new_front, step
from hpb.front.core.clock import Closing, Plan
from hpb.front.core.effects import Effect
from hpb.front.core.events import Event, Left
from hpb.front.core.information import Information
from hpb.front.information import with_rules
from hpb.front.limits import DEFAULTS, Limits
from hpb.front.rights import Role
from hpb.front.tokens import Tokens
from hpb.lines import format_answer
from hpb.record import Entry, Place, State
from hpb.rules import Auction, answer, begin, read_definition
from hpb.rules.tree import Tree, tree_of
from serving import DEFINITION

ROLES = {
    "desk": Role("auctioneer"), "ann": Role("bidder", ("x",)), "bob": Role("bidder", ("y", "z")), "carl": Role("bidder", ("w",)),
    "public": Role("observer"),
}
LIMITS = replace(DEFAULTS, connections=3, unknown_connections=4, lines_waiting=3, lines_per_second=1_000_000)
TREE = tree_of(read_definition(DEFINITION))
DAY_SECONDS = 86_400
# UTC when a world begins: 2026-12-02T09:00:00Z.
BEGIN = 1_796_202_000.0


def tokens_of(names: dict[str, int]) -> Tokens:
    """The tokens of the names. Each number is a generation of the name's token; 0 is for no token."""
    return Tokens("".join(f"{name} {token(name, number).decode() if number else '-'}\n" for name, number in names.items()), ROLES)


def token(name: str, number: int) -> bytes:
    return b"token-of-%s-number-%d" % (name.encode(), number)


@dataclass
class Disk:
    """The record and the file beside it: parts that are synced, and parts that are written and may be lost. `front_sealed` has one with seals."""

    has_seals = False
    entries: list[Entry] = field(default_factory=list)
    writes: list[effects.Write] = field(default_factory=list)
    beside: dict[int, Left] = field(default_factory=dict)
    puts: list[effects.PutBeside | effects.FreeBeside | effects.EmptyBeside] = field(default_factory=list)

    def sync(self, count: int) -> None:
        for write in self.writes[:count]:
            self.entries.append({"entry": len(self.entries) + 1, "kind": write.kind, **write.fields})
        del self.writes[:count]

    def synced(self, count: int) -> events.Synced:
        """Syncs so many entries, and returns the event that says so."""
        self.sync(count)
        return events.Synced(count, self.place)

    def sync_beside(self) -> Event | None:
        """Syncs everything written beside the record, and returns the event that says so."""
        puts, self.puts = self.puts, []
        for put in puts:
            self.put(put)
        if any(isinstance(put, effects.EmptyBeside) for put in puts):
            return events.BesideEmptied()
        places = tuple(put.place for put in puts if isinstance(put, effects.PutBeside))
        return events.StandsBeside(places) if places else None

    def put(self, put: effects.PutBeside | effects.FreeBeside | effects.EmptyBeside) -> None:
        if isinstance(put, effects.PutBeside):
            self.beside[put.place] = Left(put.name, put.line)
        elif isinstance(put, effects.FreeBeside):
            self.beside.pop(put.place, None)
        else:
            self.beside.clear()

    def crash(self, source: random.Random) -> None:
        """Each write before its sync may be there or not. Of the entries, the first ones are; the places are independent."""
        self.sync(source.randint(0, len(self.writes)))
        self.writes = []
        for put in self.puts:
            if source.random() < 0.5:
                self.put(put)
        self.puts = []

    def opened(self) -> events.RecordOpened:
        state = State()
        for entry in self.entries:
            state.take(entry)
        left = [Left(name, line, number) for number, (name, line) in sorted(state.open.items())]
        lines = None if state.lines is None else tuple(state.lines)
        return events.RecordOpened(
            state.count, state.used, state.foreign, (*left, *self.beside.values()), self.place, lines, state.clock, tuple(state.news), state.told,
            state.read, tuple(state.order), state.is_unveiled,
        )

    @property
    def place(self) -> Place:
        return Place(len(self.entries), f"hash-{len(self.entries)}")

    def accepted(self) -> list[tuple[str, str]]:
        return [(entry["line"], entry["answer"]) for entry in self.entries if entry["kind"] == "accepted"]


@dataclass
class Server:
    """A server. `file` has the durable commands, in their order. A line is judged some time after it comes, and answered some time after
    that."""

    auction: Auction = field(default_factory=lambda: begin(read_definition(DEFINITION)))
    file: list[str] = field(default_factory=list)
    state: str = "down"
    asked: dict[int, bytes] = field(default_factory=dict)
    answers: dict[int, bytes] = field(default_factory=dict)

    def judge(self, line: bytes) -> bytes:
        before = self.auction.count
        self.auction, told = answer(self.auction, line.decode("latin-1"))
        if self.auction.count > before:
            self.file.append(line.decode("latin-1"))
        return format_answer(told).encode()

    def judge_one(self, session: int) -> None:
        self.answers[session] = self.judge(self.asked.pop(session))

    def die(self, source: random.Random) -> None:
        """Ends the server. It may have judged any line that it had, but answers none."""
        for session in source.sample(sorted(self.asked), len(self.asked)):
            if source.random() < 0.5:
                self.judge_one(session)
        self.asked, self.answers = {}, {}

    def ticket(self, sender: str | None) -> int:
        """The last ticket of a bidder, or of the auctioneer for None."""
        if sender is None:
            return sum(line.startswith(("CLOSE ", "STAGE ")) for line in self.file)
        return sum(line.split(" ")[1] == sender for line in self.file if line.startswith(("BID ", "WAIVE ")))


class Listener(Protocol):
    """Gets the answers to a connection."""

    def hear(self, wire: Wire, line: bytes) -> None: ...


@dataclass
class Wire:
    """A connection in the network: the lines that the client has sent, those that the front has taken, and the answers."""

    number: int
    caller: Listener
    inbox: deque[bytes | None] = field(default_factory=deque)
    most: int = 0
    is_open: bool = False
    token: bytes = b""
    name: str = ""
    # Whether the client has ended it; whether the front has; and whether its token was removed.
    has_ended: bool = False
    is_closed: bool = False
    is_barred: bool = False
    taken: list[bytes] = field(default_factory=list)
    heard: list[bytes] = field(default_factory=list)


@dataclass
class World:
    """The whole world. `watch` checks each event, and each effect before it is done."""

    source: random.Random
    watch: Watch
    limits: Limits = LIMITS
    kill_chance: float = 0.0
    clock: float = 1000.0
    front: Front | None = None
    disk: Disk = field(default_factory=Disk)
    server: Server = field(default_factory=Server)
    # The server with the right file, while `server` has another one.
    mislaid: Server | None = None
    wires: dict[int, Wire] = field(default_factory=dict)
    leaving: list[tuple[int, str]] = field(default_factory=list)
    timers: list[tuple[float, int]] = field(default_factory=list)
    tokens: dict[str, int] = field(default_factory=lambda: dict.fromkeys(ROLES, 1))
    numbers: Iterator[int] = field(default_factory=lambda: iter(range(1, 1_000_000)))
    # Seals and receipts that are looked up; the page's questions without an answer, and whether the page is being started.
    lookups: list[effects.LookUp] = field(default_factory=list)
    asked: list[int] = field(default_factory=list)
    is_board_begun: bool = False
    # The seconds that have passed, even if the clock was set.
    passed: float = 0.0
    said: list[str] = field(default_factory=list)
    published: list[str] = field(default_factory=list)
    # The lines on standard output of this front, of which one may be lost.
    written: list[str] = field(default_factory=list)
    ends: list[str] = field(default_factory=list)
    is_admitting: bool = False
    # The plan of the rounds, if they keep time; and the rule for a close that ends the auction.
    plan: Plan | None = None
    closing: Closing = Closing(is_plain=True)
    # How many sessions the names share.
    sessions: int = len(ROLES)
    # By how much the machine's UTC is wrong, whether it is synchronised, and by how much the monotonic clock is too fast.
    utc_error: float = 0.0
    is_synchronised: bool = True
    drift: float = 0.0
    # The definition, and the rules on information.
    tree: Tree = TREE
    information: Information | None = None

    # The front's process.

    def start(self) -> None:
        rules, has_seals = self.information, self.disk.has_seals
        roles = {name: role._replace(has_seals=has_seals) for name, role in (with_rules(rules, ROLES) if rules else ROLES).items()}
        setting = Setting(
            self.tree, roles, self.sessions, has_board=True, plan=self.plan, closing=self.closing, information=rules, has_seals=has_seals,
        )
        self.front = new_front(setting, self.limits, tokens_of(self.tokens), self.clock)
        self.server.state, self.is_admitting, self.written = "down", False, []
        self.watch.started(self)
        self.post(self.disk.opened())

    def kill(self) -> None:
        """The server and all connections end with it."""
        self.front = None
        self.server, self.mislaid = self.mislaid or self.server, None
        self.disk.crash(self.source)
        self.server.die(self.source)
        self.wires, self.leaving, self.timers, self.asked, self.lookups = {}, [], [], [], []
        self.is_admitting = self.is_board_begun = False

    def post(self, event: Event) -> None:
        if self.front is None:
            return
        self.watch.event(self, event)
        before = self.front
        self.front, done = step(before, event, self.clock)
        self.watch.stepped(before, event, self.clock, (self.front, done))
        for effect in done:
            if self.source.random() < self.kill_chance:
                self.kill()
                return
            self.watch.effect(self, effect)
            self.perform(effect)
        if self.front.phase == Phase.ENDED:
            self.kill()

    def perform(self, effect: Effect) -> None:
        match effect:
            case effects.Admit():
                self.is_admitting = True
            case effects.Shut():
                self.is_admitting = False
            case effects.Say(text):
                self.said.append(text)
            case effects.Publish(text):
                self.published.append(text)
                self.written.append(text)
            case effects.Finish(why):
                self.ends.append(why)
            case effects.Write():
                self.disk.writes.append(effect)
            case effects.PutBeside() | effects.FreeBeside() | effects.EmptyBeside():
                self.disk.puts.append(effect)
            case effects.AnswerBoard(number):
                self.asked.remove(number)
            case effects.StartBoard():
                self.is_board_begun = True
            case effects.LookUp():
                self.lookups.append(effect)
            case effects.Take() | effects.Wait() | effects.Answer() | effects.End() | effects.Abort():
                self.perform_on_wire(effect)
            case effects.StartServer() | effects.DropServer() | effects.EndServer() | effects.Tell():
                self.perform_on_server(effect)

    def perform_on_wire(self, effect: Effect) -> None:
        assert isinstance(effect, effects.Take | effects.Wait | effects.Answer | effects.End | effects.Abort)
        if (wire := self.wires.get(effect.connection)) is None:
            return
        match effect:
            case effects.Take(_, most):
                wire.most = most
            case effects.Wait(number, seconds):
                self.timers.append((self.clock + seconds, number))
            case effects.Answer(_, line):
                wire.heard.append(line)
                wire.caller.hear(wire, line)
            case effects.End() | effects.Abort():
                if not wire.is_closed:
                    self.leaving.append((wire.number, "ended"))
                wire.has_ended = wire.is_closed = True

    def perform_on_server(self, effect: Effect) -> None:
        match effect:
            case effects.StartServer():
                self.server.state = "starting"
            case effects.DropServer():
                self.lose_server()
            case effects.EndServer():
                self.server.state = "ending"
            case effects.Tell(session, line) if self.server.state == "up":
                self.server.asked[session] = line

    def lose_server(self) -> None:
        if self.server.state == "up":
            self.server.die(self.source)
            self.server.state = "lost"

    def mislay_file(self) -> None:
        """Replaces the file of a lost server. The other file has as many commands, all from one bidder and the auctioneer."""
        self.mislaid, self.server = self.server, Server(state="lost")
        for count in range(len(self.mislaid.file)):
            ticket = count // 2 + 1
            self.server.judge(b"CLOSE %d" % ticket if count % 2 else b"BID w %d c %d" % (ticket, 1000 * ticket))
        assert len(self.server.file) == len(self.mislaid.file)

    # Moves of the world.

    def connect(self, caller: Listener, network: str) -> Wire | None:
        if not self.is_admitting or self.front is None:
            return None
        number = next(self.numbers)
        self.wires[number] = wire = Wire(number, caller)
        self.post(events.Came(number, f"peer {number}", network))
        return self.wires.get(number) and wire

    def hang_up(self, wire: Wire) -> None:
        if self.wires.get(wire.number) is wire:
            wire.inbox.clear()
            wire.has_ended = True
            self.leaving.append((wire.number, "lost"))

    def move_wires(self) -> None:
        """A connection opens, hands in a line, or ends."""
        if self.leaving and self.source.random() < 0.5:
            number, why = self.leaving.pop(self.source.randrange(len(self.leaving)))
            if self.wires.pop(number, None):
                self.post(events.Gone(number, why))
            return
        ready = [wire for wire in self.wires.values() if not wire.has_ended and (not wire.is_open or (wire.most and wire.inbox))]
        if ready:
            self.move_wire(self.source.choice(ready))

    def move_wire(self, wire: Wire) -> None:
        if not wire.is_open:
            wire.is_open = True
            self.post(events.Opened(wire.number))
            return
        line, most, wire.most = wire.inbox.popleft(), wire.most, 0
        if line is None:
            self.post(events.LinesEnded(wire.number, b""))
        elif len(line) > most:
            self.post(events.TooLong(wire.number, line[:most]))
        else:
            self.post(events.Line(wire.number, line))

    def move_server(self) -> None:
        """The server comes up, judges a line, answers one, or is gone."""
        server = self.server
        if server.state == "starting":
            self.come_up()
        elif server.state == "lost":
            server.state = "down"
            self.post(events.ServerGone(" (signal 9)"))
        elif server.asked and (not server.answers or self.source.random() < 0.5):
            server.judge_one(self.source.choice(sorted(server.asked)))
        elif server.answers:
            session = self.source.choice(sorted(server.answers))
            self.post(events.Answered(session, server.answers.pop(session)))
        elif server.state == "ending":
            server.state = "down"
            self.post(events.ServerEnded(f"CLOSED {len(server.file)}", 0))

    def come_up(self) -> None:
        shown = self.server.judge(b"SHOW")
        for _ in range(self.sessions + 1):
            self.post(events.SessionOpened(shown))
        if self.front:
            self.server.state = "up"
            self.post(events.ServerUp())

    def move_disk(self) -> None:
        """Syncs some entries, or everything beside the record."""
        if self.disk.writes and (not self.disk.puts or self.source.random() < 0.5):
            self.post(self.disk.synced(self.source.randint(1, len(self.disk.writes))))
        elif self.disk.puts and (event := self.disk.sync_beside()):
            self.post(event)

    def move_board(self) -> None:
        """The page comes up, or asks a question."""
        if self.is_board_begun:
            self.is_board_begun = False
            self.post(events.BoardUp("BOARD http://127.0.0.1/"))
        elif self.is_admitting and len(self.asked) < 3:
            self.asked.append(number := next(self.numbers))
            self.post(events.BoardAsks(number, b"NODE a"))

    def read_clocks(self) -> None:
        self.post(events.ClockRead(self.clock, BEGIN + self.passed + self.utc_error, self.is_synchronised))

    def lose_line(self) -> None:
        """Standard output loses a line; nothing is said of any later one."""
        if self.front and self.written:
            line, self.written = self.source.choice(self.written), []
            self.post(events.Unpublished(line))

    def pass_time(self, seconds: float) -> None:
        self.clock += seconds * (1 + self.drift)
        self.passed += seconds
        due = [number for at, number in self.timers if at <= self.clock]
        self.timers = [(at, number) for at, number in self.timers if at > self.clock]
        for number in due:
            self.post(events.Waited(number))
        self.read_clocks()
        self.post(events.Tick())

    def reload(self, name: str, number: int) -> None:
        """Gives a name another token, or none, and reloads."""
        self.tokens = {**self.tokens, name: number}
        self.post(events.Reloaded(self.limits, tokens_of(self.tokens)))


class Watch:
    """Watches a world."""

    def started(self, world: World) -> None:
        """Called when a front starts."""

    def event(self, world: World, event: Event) -> None:
        """Called before an event is taken."""

    def stepped(self, before: Front, event: Event, clock: float, outcome: tuple[Front, list[Effect]]) -> None:
        """Called after an event's step, before any of its effects."""

    def effect(self, world: World, effect: Effect) -> None:
        """Called before an effect is done."""
