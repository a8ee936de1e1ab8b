"""The promises of docs/ROUNDS.md, each by its sentence, and a watch that checks each effect of a front against them, by the time that truly
passed."""
from __future__ import annotations

import enum
from collections import defaultdict
from dataclasses import dataclass
from typing import Any

from front_promises import Promises, is_command, is_new, told_form
from front_world import Wire, World
from hpb.front.core import Front, effects, events
from hpb.front.core.effects import Effect
from hpb.front.core.events import Event
from hpb.front.times import read_exact_time

OWN = ("OPEN", "EXTEND", "PAUSE", "RESUME", "SCHEDULE", "EVENT", "READ", "SAY", "PREVIEW", "AGREE")
OWN_MAY = {"desk": OWN, "": ("SCHEDULE", "EVENT", "READ")}
# What the front says of a command because of its round.
OF_ROUNDS = (b"ERR front closed", b"ERR front round", b"ERR front clock", b"ERR front end", b"ERR front second")
# By so many seconds a round may end earlier than the time that truly passed says: UTC and the monotonic clock may differ by that.
SLACK = 1.1
LATE = 5.0


class Kept(enum.Enum):
    """The promises of rounds that keep time."""

    CLOSED_ONCE = "Each round is closed exactly once."
    NEVER_EARLY = "No round ends before the time that was announced last."
    OF_ITS_ROUND = "No command is judged in another round than the one it was taken in."
    BOUND = "A command with IN r is judged in round r alone."
    TAKEN_IN_TIME = "A line that was taken before the time is judged, and one that comes after it is refused."
    ABSENCE_TOLD = "If the front was away when a round was to end, the round is paused, and doesn't end without the auctioneer."
    TIME_GIVEN_BACK = "A round gets all the time back that a pause took from it."
    NO_SLIP = "No close ends the auction unless it says so, or the plan does."
    NEWS_IN_ORDER = "News have the numbers 1, 2, 3 and so on in the record, and nobody gets one that isn't there."
    NEVER_DENIED = "A command that the file has isn't refused because of its round."
    READY = "A round whose time is over is closed, or paused with a reason."


@dataclass
class Said:
    """What an entry about the clock said: its number, and by the time that truly passed when the round was to end, or how much was left."""

    number: int
    round: int
    is_open: bool
    due: float | None = None
    left: float | None = None


@dataclass
class Taken:
    """A command when it was taken: the round, if it was open for sure or perhaps."""

    line: bytes
    round: int
    is_open: bool
    may_be_open: bool
    # Without a clock a command that comes behind a CLOSE waits for it, and is of the next round.
    is_free: bool = False


class RoundPromises(Promises):
    """Checks all promises of a front, and those of its rounds."""

    def __init__(self) -> None:
        self.said: list[Said] = []
        self.taken: dict[bytes, list[Taken]] = defaultdict(list)
        self.of_wire: dict[int, list[Taken]] = defaultdict(list)
        self.killed_at: float | None = None
        self.read_at = self.before_reading = 0.0
        self.read_passed = 0.0
        # By how much UTC was wrong when the clock last said something.
        self.error_at = 0.0
        self.clocks = (0.0, 0.0)
        # Whether this front has told something of the clock yet.
        self.is_back = False
        super().__init__()

    # What goes on.

    def started(self, world: World) -> None:
        """Nobody heard of entries that a kill lost."""
        super().started(world)
        self.of_wire.clear()
        self.said = [said for said in self.said if said.number <= len(world.disk.entries)]
        self.killed_at = self.read_at
        self.is_back = False

    @property
    def now(self) -> Said | None:
        return self.said[-1] if self.said else None

    def take(self, world: World, wire: Wire, line: bytes) -> None:
        super().take(world, wire, line)
        if wire.name:
            taken = self.taken_now(world, line)
            self.taken[told_form(line)].append(taken)
            self.of_wire[wire.number].append(taken)

    def taken_now(self, world: World, line: bytes) -> Taken:
        if world.plan is None and self.now is None:
            return Taken(line, world.server.auction.round, True, True, is_free=True)
        said = self.now
        is_open = said is not None and said.is_open and said.due is not None
        due = said.due if said and said.due is not None else 0.0
        may_be, is_sure = is_open and world.passed <= due + SLACK, is_open and self.is_right_now(world) and world.passed < due - SLACK
        return Taken(line, world.server.auction.round, is_sure, may_be)

    def is_right_now(self, world: World) -> bool:
        """Whether the front has told something of its clock, and its monotonic clock hasn't jumped since the last reading."""
        front, (time, passed) = world.front, self.clocks
        assert front
        now = front.time + max(0.0, world.clock - front.clock)
        return self.is_back and abs(now - time - world.passed + passed) < SLACK

    def stepped(self, before: Front, event: Event, clock: float, outcome: tuple[Front, list[Effect]]) -> None:
        if isinstance(event, events.ClockRead):
            self.clocks = outcome[0].time, self.read_passed

    def event(self, world: World, event: Event) -> None:
        if isinstance(event, events.Waited) and self.of_wire[event.connection]:
            # A line that its name's rate held back is taken when the rate lets it in.
            held = self.taken_now(world, self.of_wire[event.connection][-1].line)
            self.of_wire[event.connection][-1] = held
            self.taken[told_form(held.line)].append(held)
        if isinstance(event, events.ClockRead):
            self.read_passed = world.passed
            if self.is_back:
                self.killed_at = None
            # While nobody is let in, the clock doesn't go by its readings yet.
            if world.is_admitting:
                self.before_reading, self.read_at = self.read_at, world.passed
        super().event(world, event)

    # Entries.

    def effect(self, world: World, effect: Effect) -> None:
        match effect:
            case effects.Write("clock", fields):
                self.look_at_change(world, fields)
            case effects.Write(kind, fields) if kind in ("said", "read"):
                pass
        if isinstance(effect, effects.Write) and effect.fields.get("news"):
            self.look_at_news(world, effect.fields["news"])
        super().effect(world, effect)

    def look_at_news(self, world: World, number: int) -> None:
        known = [entry["news"] for entry in world.disk.entries if entry.get("news")]
        known += [write.fields["news"] for write in world.disk.writes if write.fields.get("news")]
        require_kept(number == (known[-1] if known else 0) + 1, Kept.NEWS_IN_ORDER, (number, known[-3:]))

    def look_at_change(self, world: World, fields: dict[str, Any]) -> None:
        number = len(world.disk.entries) + len(world.disk.writes) + 1
        said = Said(number, fields["round"], fields["state"] == "open" and not fields["paused"])
        time, before = read_exact_time(fields["time"]), self.now
        if fields["state"] == "open" and not fields["paused"]:
            said.due = world.passed + read_exact_time(fields["until"]) - time
        if before and before.round == said.round:
            self.compare(world, fields, before, said)
        if fields["paused"]:
            said.left = fields["left"] if before is None or before.round != said.round or before.left is None else max(before.left, fields["left"])
        self.said.append(said)
        self.is_back, self.error_at = True, world.utc_error

    def compare(self, world: World, fields: dict[str, Any], before: Said, said: Said) -> None:
        """A change within a round: its end comes no earlier than was said."""
        what = fields["what"]
        # No front sees that UTC was set while none was there.
        is_set = what == "back" and world.utc_error != self.error_at
        if said.due is not None and before.due is not None and not is_set:
            require_kept(said.due >= before.due - SLACK, Kept.NEVER_EARLY, (what, said.due, before.due))
        if what == "ended" and before.due is not None:
            require_kept(world.passed >= before.due - SLACK, Kept.NEVER_EARLY, (world.passed, before.due))
            require_kept(world.passed - self.before_reading <= LATE + SLACK, Kept.ABSENCE_TOLD, (world.passed, self.before_reading))
        if fields["paused"] and before.due is not None and before.is_open and what == "paused" and fields["paused"] != "end":
            alive = self.before_reading if self.killed_at is None else min(self.killed_at, self.before_reading)
            here = world.passed if fields["paused"] == "auctioneer" else min(world.passed, alive)
            require_kept(fields["left"] >= before.due - here - SLACK, Kept.TIME_GIVEN_BACK, (fields, before.due, here))
        if what == "resumed" and fields["state"] == "open" and before.left is not None:
            assert said.due is not None
            require_kept(said.due - world.passed >= before.left - SLACK, Kept.TIME_GIVEN_BACK, (fields, before.left))

    # Lines.

    def look_at_wanted(self, world: World, wire: Wire, asked: bytes, line: bytes) -> None:
        word = asked.split(b" ")[0].decode("latin-1")
        place = 1 + sum(not one.startswith((b"WELCOME ", b"ERR front token", b"ERR front many", b"ERR front idle")) for one in wire.heard)
        if word in OWN and not refusal_of_own(wire.name, asked):
            require_kept(line.startswith((b"EVENT ", b"SCHEDULE ", b"READ ", b"PREVIEW ", b"AGREE ", b"ERR front ")), Kept.NEWS_IN_ORDER, (asked, line))
            if asked.startswith(b"EVENT") and line != b"EVENT -":
                self.look_at_told(world, wire.name, line)
            if line.startswith(b"SCHEDULE "):
                self.look_at_schedule(world, line)
        elif line in OF_ROUNDS:
            self.look_at_refused(world, wire, asked, line, self.of_wire[wire.number][place - 1])
        elif word in OWN:
            require_kept(line == refusal_of_own(wire.name, asked), Kept.NEWS_IN_ORDER, (asked, line))
        else:
            super().look_at_wanted(world, wire, asked, line)

    def look_at_told(self, world: World, name: str, line: bytes) -> None:
        """News that somebody gets stand on the disk."""
        number, text = int(line.split()[1]), line.split(b" ", 3)[3].decode("latin-1")
        seen = [entry for entry in world.disk.entries if entry.get("news") and (name == "desk" or entry.get("to", "all") in ("all", name))]
        found = seen[number - 1 : number]
        require_kept(len(found) == 1, Kept.NEWS_IN_ORDER, line)
        if text.startswith("SAY "):
            to = found[0]["to"]
            require_kept(text == f"SAY {to} {found[0]['text']}" and (to in ("all", name) or name == "desk"), Kept.NEWS_IN_ORDER, (name, line))

    def look_at_schedule(self, world: World, line: bytes) -> None:
        """The state of the clock that somebody gets stands on the disk."""
        words = line.decode().split(" ")
        state, until = words[4], words[8]
        if state == "none" or (state == "waits" and until == "-"):
            return
        seen = [(entry["paused"] and "paused" or entry["state"], entry["until"]) for entry in world.disk.entries if entry["kind"] == "clock"]
        require_kept((state, until) in [(one, f"{time[:19]}Z" if time else "-") for one, time in seen], Kept.NEWS_IN_ORDER, (line, seen[-3:]))

    def look_at_refused(self, world: World, wire: Wire, asked: bytes, line: bytes, taken: Taken) -> None:
        """The front refuses a command because of its round: it has to be right, and the command must not be new to the server."""
        came = self.came[wire.name]
        if (wire, told_form(asked)) in came:
            came.remove((wire, told_form(asked)))
        require_kept(taken.line == asked, Kept.TAKEN_IN_TIME, (taken, asked))
        require_kept(not is_command(told_form(asked)) or is_new(world.server, told_form(asked)), Kept.NEVER_DENIED, (asked, line))
        if line == b"ERR front closed":
            require_kept(not taken.is_open, Kept.TAKEN_IN_TIME, (asked, taken))
        elif line == b"ERR front round":
            auction = world.server.auction
            is_other = asked.startswith(b"IN ") and (auction.is_over or int(asked.split()[1]) != auction.round)
            require_kept(is_other, Kept.BOUND, (asked, auction.round))
        elif line == b"ERR front end":
            require_kept(ends(world) and not asked.endswith(b" ENDING"), Kept.NO_SLIP, asked)

    def look_at_sender(self, world: World, name: str, line: bytes) -> None:
        assert world.front
        place = world.front.names[name].session
        if line.startswith(b"CLOSE ") and world.front.sessions[place].item is None:
            require_kept(name == "desk" and (not ends(world) or bool(world.plan and world.plan.may_end)) or world.front.rounds.ends, Kept.NO_SLIP, line)
            return
        if line.startswith(b"CLOSE ") and is_new(world.server, line) and ends(world) and not world.closing.is_plain:
            said = [one for wire in self.wires if wire.name == "desk" for one in wire.taken if one == line + b" ENDING"]
            require_kept(bool(said), Kept.NO_SLIP, line)
        super().look_at_sender(world, name, line)

    def look_at_turn(self, world: World, came: Any, line: bytes) -> None:
        while came and came[0][1].split(b" ")[0].decode("latin-1") in OWN:
            came.popleft()
        kept = [pair for pair in came if pair[1].split(b" ")[0].decode("latin-1") not in OWN]
        came.clear()
        came.extend(kept)
        super().look_at_turn(world, came, line)

    # The end.

    def at_the_end(self, world: World) -> None:
        super().at_the_end(world)
        number = 1
        for line in world.server.file:
            words = line.split(" ")
            if words[0] in ("BID", "WAIVE"):
                self.look_at_judged(line.encode(), number)
            number += words[0] == "CLOSE"
        closed = [entry["closed"] for entry in world.disk.entries if entry["kind"] == "clock" and entry["what"] == "closed"]
        if world.plan is not None:
            require_kept(closed == list(range(1, number)), Kept.CLOSED_ONCE, (closed, number))

    def look_at_judged(self, line: bytes, number: int) -> None:
        """A bid or a waiver that was accepted in this round was taken in it."""
        there = [taken for taken in self.taken[line] if number - taken.round in (0, taken.is_free)]
        require_kept(any(taken.may_be_open for taken in there), Kept.OF_ITS_ROUND, (line, number, self.taken[line]))
        bound = [taken.line for taken in there if taken.may_be_open]
        is_bound = all(one.startswith(b"IN ") for one in bound)
        require_kept(not is_bound or any(int(one.split()[1]) == number for one in bound), Kept.BOUND, (line, number, bound))


class NotKept(AssertionError):
    """A promise of rounds isn't kept."""

    def __init__(self, promise: Kept, how: object) -> None:
        super().__init__(f"{promise.name}: {promise.value} {how}")
        self.promise = promise


def require_kept(is_kept: bool, promise: Kept, how: object = "") -> None:
    if not is_kept:
        raise NotKept(promise, how)


def refusal_of_own(name: str, line: bytes) -> bytes | None:
    word = line.split(b" ")[0].decode("latin-1")
    return None if word in OWN_MAY.get(name, OWN_MAY[""]) else b"ERR front rights"


def ends(world: World) -> bool:
    """Whether a close now would end the auction."""
    auction = world.server.auction
    return not auction.is_over and not auction.incoming and not any(state.has_waived for state in auction.bidders.values())
