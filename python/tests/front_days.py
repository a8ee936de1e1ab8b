"""Days of a front: callers who bid, close, flood and vanish, and what goes wrong meanwhile, all by a seed."""
from __future__ import annotations

import random
from collections.abc import Callable
from dataclasses import dataclass, field, replace

from front_promises import Broken, Promise, Promises, require, told_form
from front_world import DAY_SECONDS, LIMITS, ROLES, Wire, World, token
from hpb.front.core import events
from hpb.front.limits import Limits

NODES = ["a", "b", "c", "d", "east", "all"]
RUDE = [
    b"SHOW", b"NODE a", b"BID y 1 b 150", b"CLOSE 1", b"STAGE 1", b"x" * 300, b"", b"TOKEN token-of-bob-number-1", b"WHO y", b"BID  w 1 c 100",
    b"BID w 1 c 100", b"BID w 2 d 200", b"WHO w", b"HELP",
]
# A day has so many moves, and at most so many more until all lines are answered.
MOVES, MOST_MOVES = 600, 20_000


@dataclass
class Caller:
    """A client that follows docs/FRONT.md: it sends the next line after the last one's answer, and sends a line again on a new
    connection."""

    world: World
    name: str
    left: int = 12
    wire: Wire | None = None
    line: bytes | None = None
    is_sent: bool = False
    oks: list[tuple[int, bytes]] = field(default_factory=list)

    @property
    def is_done(self) -> bool:
        return not self.left and self.line is None

    def hear(self, wire: Wire, line: bytes) -> None:
        if wire is not self.wire or line.startswith((b"WELCOME ", b"ERR front")):
            return
        if line.startswith(b"OK ") and self.line:
            self.oks.append((int(line[3:]), self.line))
        self.line = None

    def move(self) -> None:
        """Connects, or sends its next line, if it has one."""
        if self.wire is None or self.world.wires.get(self.wire.number) is not self.wire or self.wire.has_ended:
            self.wire = self.world.connect(self, self.name)
            self.is_sent = False
            if self.wire:
                self.wire.inbox.append(b"TOKEN " + token(self.name, self.world.tokens[self.name]))
        elif self.line is None and self.left:
            self.line, self.left, self.is_sent = self.next(), self.left - 1, True
            self.wire.inbox.append(self.line)
        elif self.line and not self.is_sent:
            self.is_sent = True
            self.wire.inbox.append(self.line)

    def next(self) -> bytes:
        source, server = self.world.source, self.world.server
        if source.random() < 0.2 or not ROLES[self.name].bidders and self.name != "desk":
            return source.choice([b"SHOW", b"NODE a"])
        if self.name == "desk":
            return b"%s %d" % (source.choice([b"CLOSE", b"CLOSE", b"STAGE"]), server.ticket(None) + 1)
        bidder = source.choice(ROLES[self.name].bidders)
        words = bidder, server.ticket(bidder) + 1, source.choice(NODES), 10 * source.randint(10, 90)
        return b"BID %s %d %s %d" % (words[0].encode(), words[1], words[2].encode(), words[3])


@dataclass
class Rude:
    """A client that follows no rules: it floods, sends forbidden lines, half lines and wrong tokens, reads nothing, and vanishes."""

    world: World
    wires: list[Wire] = field(default_factory=list)

    def hear(self, wire: Wire, line: bytes) -> None:
        pass

    def move(self) -> None:
        source = self.world.source
        self.wires = [wire for wire in self.wires if self.world.wires.get(wire.number) is wire and not wire.has_ended]
        if len(self.wires) < 6 and source.random() < 0.5:
            if wire := self.world.connect(self, source.choice(["1", "2"])):
                name = source.choice(["carl", "ann", "public"])
                wire.inbox.append(source.choice([b"TOKEN " + token(name, self.world.tokens[name]), b"TOKEN nobody-has-this-token", b"SHOW"]))
                self.wires.append(wire)
        elif self.wires:
            wire = source.choice(self.wires)
            if source.random() < 0.1:
                self.world.hang_up(wire)
            elif source.random() < 0.1:
                self.world.post(events.Stuffed(wire.number, source.random() < 0.5))
            else:
                wire.inbox.extend(source.choice(RUDE) for _ in range(source.randint(1, 6)))
                wire.inbox.extend([None] if source.random() < 0.1 else [])


class Day:
    """A world with its callers. `faults` are words of `wild`, and two more. On "slow" days lines have to wait for their name's rate. On
    days with "hangs" the disk and the server stop working once the front has to stop."""

    def __init__(self, seed: int, faults: frozenset[str] = frozenset(), limits: Limits = LIMITS) -> None:
        source = random.Random(seed)
        self.promises = Promises()
        if "slow" in faults:
            limits = replace(limits, lines_per_second=5)
        self.world = World(source, self.promises, limits, 0.0005 if "kills" in faults else 0.0)
        self.callers = [Caller(self.world, name) for name in ("desk", "ann", "bob", "bob", "carl", "public")]
        self.rude = Rude(self.world)
        self.faults = faults
        self.generation = 1

    # Moves.

    def benign(self) -> list[tuple[Callable[[], None], int]]:
        world, source = self.world, self.world.source
        return [
            (lambda: source.choice(self.callers).move(), 30), (world.move_wires, 40), (world.move_server, 40), (world.move_disk, 40),
            (world.move_board, 5), (lambda: world.pass_time(source.choice([0.001, 0.02, 0.3])), 10),
        ]

    def wild(self) -> list[tuple[Callable[[], None], int]]:
        world, source = self.world, self.world.source
        faults: dict[str, list[tuple[Callable[[], None], int]]] = {
            "kills": [(world.kill, 1)],
            "losses": [(world.lose_server, 2), (self.fail_start, 2), (self.give_up, 1)],
            "disks": [(self.fail_disk, 1), (self.fail_sync, 1)],
            "reloads": [(self.reload, 3)],
            "jumps": [(lambda: self.jump(source.choice([-DAY_SECONDS, DAY_SECONDS, 3.0])), 1)],
            "stops": [(lambda: world.post(events.Stop()), 1)],
            "vanishing": [(self.vanish, 4)],
            "streams": [(world.lose_line, 1)],
            "mislaid": [(self.mislay, 1)],
            "freezes": [(lambda: world.post(events.AskFreeze()), 3), (lambda: world.post(events.Thaw()), 3)],
        }
        return self.benign() + [(self.rude.move, 20)] + [move for kind in sorted(self.faults) for move in faults.get(kind, [])]

    def fail_start(self) -> None:
        if self.world.server.state == "starting":
            self.world.server.state = "down"
            self.world.post(events.ServerFailed("the server doesn't come up: ERR 91 device", False))

    def mislay(self) -> None:
        """Replaces the file, if the other one lacks accepted commands."""
        others = [line for line, _ in self.world.disk.accepted() if line.split(" ")[1] in ("x", "y", "z")]
        if others and self.world.server.state == "up" and self.world.is_admitting and not self.world.mislaid:
            self.world.lose_server()
            self.world.mislay_file()

    def give_up(self) -> None:
        self.answer_by(b"ERR 95 order")

    def fail_disk(self) -> None:
        self.answer_by(b"ERR 93 failed")

    def answer_by(self, answer: bytes) -> None:
        """Replaces the answer of a session. Its command may be in the file all the same."""
        server = self.world.server
        if server.asked:
            session = self.world.source.choice(sorted(server.asked))
            if self.world.source.random() < 0.5:
                server.judge_one(session)
            server.asked.pop(session, None)
            server.answers[session] = answer

    def fail_sync(self) -> None:
        if self.world.disk.writes:
            self.world.post(events.Failed("the record can't be written: No space left on device"))

    def reload(self) -> None:
        self.generation += 1
        self.world.reload(self.world.source.choice(["ann", "bob", "carl"]), self.generation * (self.world.source.random() < 0.8))

    def jump(self, seconds: float) -> None:
        self.world.clock += seconds

    def vanish(self) -> None:
        if self.world.wires:
            self.world.hang_up(self.world.source.choice(sorted(self.world.wires.values(), key=lambda wire: wire.number)))

    # The day.

    def move(self, moves: list[tuple[Callable[[], None], int]]) -> None:
        if self.world.front is None:
            self.world.start()
            return
        self.world.source.choices([move for move, _ in moves], [weight for _, weight in moves])[0]()

    def run(self, moves: int = MOVES) -> None:
        """Runs the whole day: first with faults, then without them until all lines are answered, and then to the end."""
        for _ in range(moves):
            self.move(self.wild())
        if "hangs" in self.faults:
            self.hang()
            return
        self.calm_down()
        for _ in range(MOST_MOVES):
            if all(caller.is_done for caller in self.callers):
                break
            self.move(self.benign())
        else:
            raise Broken(Promise.GOES_ON, [(caller.name, caller.line) for caller in self.callers if not caller.is_done])
        self.end()

    def calm_down(self) -> None:
        """From here on nothing goes wrong, and everybody has a token. A freeze comes to stand, and ends."""
        self.world.kill_chance = 0.0
        if "freezes" in self.faults:
            self.freeze()
        for wire in self.rude.wires:
            self.world.hang_up(wire)
        for name, number in self.world.tokens.items():
            if not number:
                self.generation += 1
                self.world.reload(name, self.generation)

    def freeze(self) -> None:
        """Freezes commands while callers go on."""
        for _ in range(MOST_MOVES):
            if self.promises.frozen is not None:
                break
            self.world.post(events.AskFreeze())
            self.move(self.benign())
        else:
            raise Broken(Promise.GOES_ON, "commands don't come to stand still")
        for _ in range(MOVES // 10):
            self.move(self.benign())
        self.world.post(events.Thaw())

    def hang(self) -> None:
        """Stops the front. From then on only time passes, and callers come and go."""
        self.world.kill_chance = 0.0
        while not self.world.is_admitting:
            self.move(self.benign())
        count = len(self.world.ends)
        self.world.post(events.Stop())
        while len(self.world.ends) == count:
            self.world.move_wires()
            self.world.pass_time(self.world.source.choice([0.01, 0.3]))

    def end(self) -> None:
        """Stops the front once it lets clients in, and checks that it ends in order."""
        while not self.world.is_admitting:
            self.move(self.benign())
        count = len(self.world.ends)
        self.world.post(events.Stop())
        for _ in range(MOST_MOVES):
            if len(self.world.ends) > count:
                break
            self.move(self.benign())
        require(self.world.ends[count:] == [""], Promise.ENDS, self.world.ends[count:])
        require(self.world.published[-1].startswith(f"STOPPED {len(self.world.server.file)} "), Promise.ENDS, self.world.published[-1])
        self.promises.at_the_end(self.world)
        for caller in self.callers:
            for number, line in caller.oks:
                require(self.world.server.file[number - 1] == told_form(line).decode(), Promise.OK_IS_KEPT, (number, line))
