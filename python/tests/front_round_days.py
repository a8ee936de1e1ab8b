"""Days of a front whose rounds keep time: callers bid round the closing moments, the front is killed, sleeps, and its clocks are wrong, all by
a seed. `front_rounds` has the promises."""
from __future__ import annotations

import random
from collections.abc import Callable
from dataclasses import dataclass, field

from front_days import Caller, Day
from front_rounds import Kept, RoundPromises, require_kept
from front_world import BEGIN, DAY_SECONDS, Wire, World
from hpb.front.core import Phase
from hpb.front.core.clock import Closing, Plan, Rounds
from hpb.front.times import text_of_time

# A day has so many moves, and a move to the clock's next moment passes so many seconds at most.
MOVES, MOST_LEFT = 1000, 1000.0
MOST_WAIT = 20_000
PLANS = {
    "lengths": Plan(first=BEGIN + 20, length=90, gap=15, warnings=(60, 30, 10)),
    "ending": Plan(first=BEGIN + 20, length=90, gap=15, may_end=True, warnings=(60, 30, 10)),
    "windows": Plan(windows=tuple((BEGIN + 20 + 120 * place, BEGIN + 100 + 120 * place) for place in range(400)), warnings=(60, 30, 10)),
    "hands": Plan(),
}


@dataclass
class RoundCaller(Caller):
    """A client of a front whose rounds keep time."""

    left: int = 40

    def hear(self, wire: Wire, line: bytes) -> None:
        if line in (b"ERR front token", b"ERR front many", b"ERR front idle"):
            return
        if wire is self.wire and not line.startswith(b"WELCOME ") and line.startswith(b"ERR front"):
            self.line = None
            return
        super().hear(wire, line)

    def next(self) -> bytes:
        source, number = self.world.source, self.world.server.auction.round
        if source.random() < 0.1:
            last = self.world.front.news[-1].number if self.world.front and self.world.front.news else 1
            return source.choice([b"SCHEDULE", b"EVENT 0", b"EVENT", b"READ 3", b"EVENT %d" % max(1, last - 1)])
        if self.name == "desk":
            return self.next_of_desk(number)
        line = super().next()
        if line.startswith(b"BID ") and source.random() < 0.7:
            return b"IN %d %s" % (max(1, number + source.choice([0, 0, 0, 0, -1, 1])), line)
        return line

    def next_of_desk(self, number: int) -> bytes:
        source, world = self.world.source, self.world
        assert world.front
        known, ticket = world.front.rounds, world.server.ticket(None) + 1
        now = BEGIN + world.passed + world.utc_error
        later = text_of_time(max(now, known.until or now) + source.choice([5, 30, 120])).encode()
        lines = [b"EXTEND %d %s" % (number, later), b"PAUSE", b"PREVIEW", b"PREVIEW x", b"SAY all wait for round %d" % number, b"STAGE %d" % ticket]
        if known.paused:
            lines = [b"RESUME", b"RESUME", b"RESUME", b"EXTEND %d %s" % (number, later), b"CLOSE %d" % ticket, b"SAY ann back soon"]
        elif not known.is_on or known.at == "waits":
            lines += [b"OPEN %d UNTIL %s" % (number, later)] * 4 + [b"CLOSE %d" % ticket]
        else:
            lines += [b"CLOSE %d" % ticket, b"SAY bob hurry"]
        return source.choice(lines)


@dataclass
class Later:
    """A moment of the clock that time is moved to."""

    world: World
    moves: list[float] = field(default_factory=lambda: [-0.6, -0.01, 0.0, 0.01, 0.4, 2.0])

    def move(self) -> None:
        world = self.world
        # A front that has to stop has ten seconds for that.
        if world.front is None or world.front.phase > Phase.OPEN:
            return
        known = world.front.rounds
        goal = known.until if known.at == "open" else known.opens
        left = 0.0 if goal is None else goal - BEGIN - world.passed - world.utc_error + world.source.choice(self.moves)
        if not 0 < left < MOST_LEFT:
            world.pass_time(1.0)
            return
        # The clock is looked at each half second; a loaded machine may be late.
        while world.front and left > 0:
            piece = min(left, world.source.choice([0.5, 0.5, 2.0, 4.0]))
            world.pass_time(piece)
            left -= piece
            if world.source.random() < 0.02:
                return


class RoundDay(Day):
    """A day of rounds. `faults` are words of `Day`, and `sleeps`, `set` (UTC is set), `sync` (it isn't synchronised for a while), and `drift`."""

    def __init__(self, seed: int, plan: str = "lengths", faults: frozenset[str] = frozenset()) -> None:
        super().__init__(seed, faults)
        self.world.watch = self.promises = RoundPromises()
        self.world.plan, self.world.closing = (None if plan == "free" else PLANS[plan]), Closing()
        source = random.Random(seed)
        self.world.drift = source.choice([-1e-4, 1e-4, 5e-5]) if "drift" in faults else 0.0
        self.callers = [RoundCaller(self.world, name) for name in ("desk", "ann", "bob", "bob", "carl", "public")]
        self.later = Later(self.world)

    def benign(self) -> list[tuple[Callable[[], None], int]]:
        return [*super().benign(), (self.later.move, 1)]

    def run(self, moves: int = MOVES) -> None:
        super().run(moves)

    def wild(self) -> list[tuple[Callable[[], None], int]]:
        source = self.world.source
        more: dict[str, list[tuple[Callable[[], None], int]]] = {
            "sleeps": [(lambda: self.sleep(source.choice([7.0, 40.0, 130.0, 4000.0])), 1)],
            "set": [(lambda: self.set_clock(source.choice([-DAY_SECONDS, DAY_SECONDS, 3.0, -3.0])), 1)],
            "sync": [(self.turn_sync, 1)],
            "boundary": [(self.kill_at_boundary, 1)],
        }
        return super().wild() + [move for kind in sorted(self.faults) for move in more.get(kind, [])]

    def set_clock(self, seconds: float) -> None:
        self.world.utc_error += seconds

    def sleep(self, seconds: float) -> None:
        """The front gets no turn for so long. One that has to stop is left awake, since it has ten seconds for that."""
        if self.world.front is None or self.world.front.phase <= Phase.OPEN:
            self.world.pass_time(seconds)

    def turn_sync(self) -> None:
        self.world.is_synchronised = not self.world.is_synchronised

    def kill_at_boundary(self) -> None:
        """Kills the front between a warning and the close."""
        self.later.move()
        for _ in range(self.world.source.randint(0, 8)):
            self.move(self.benign())
        self.world.kill()
        self.world.clock += (seconds := self.world.source.choice([0.0, 0.2, 3.0, 20.0, 300.0]))
        self.world.passed += seconds

    def calm_down(self) -> None:
        super().calm_down()
        self.world.is_synchronised = True

    def end(self) -> None:
        """Before the front stops, the open round has to come to its close, or to a pause, unless its end is far away."""
        for _ in range(MOST_WAIT):
            if self.world.front and self.is_at_rest(self.world.front.rounds):
                super().end()
                return
            self.move(self.benign())
        require_kept(False, Kept.READY, self.world.front and self.world.front.rounds)

    def is_at_rest(self, known: Rounds) -> bool:
        if not known.is_on or known.has_begun and (known.paused or known.at in ("waits", "over")):
            return True
        return known.at == "open" and (known.until or 0.0) - BEGIN - self.world.passed - self.world.utc_error > MOST_LEFT
