"""Times of answers: a question of a name waits for no line of another one, so its time doesn't show what others send (docs/FRONT.md)."""
from __future__ import annotations

import random
from collections.abc import Callable, Iterable

import pytest

from front_pairs import DEFINITION, NODES, TREE, Deaf, Ears
from front_world import BEGIN, LIMITS, ROLES, Server, Wire, World, token
from hpb.front.core import desk, events, sessions
from hpb.front.core.clock import Plan
from hpb.front.core.information import Identities, Information, Rule
from hpb.front.core.state import Item, Session
from hpb.front.core.stepping import Step
from hpb.front.rights import is_command
from hpb.record.news import MOST_NEWS
from hpb.rules import begin, read_definition

SEEDS, MORE_SEEDS, PLANT_SEEDS = 100, 1_000, 40
VIEWERS = ("ann", "public")
RULES = Information(Rule(Identities.OWN, False, False))
QUESTIONS = ("SHOW", "NODE a", "NODE ab", "EVENT", "EVENT 0", "EVENT 1", "SCHEDULE", "INFORMATION", "READ 0")
OTHERS = {"bob": "y", "carl": "w"}
MOST_MOVES = 5_000
Patch = pytest.MonkeyPatch


class Crowd:
    """A front in a world in which others send commands. They are on their way: none waits until the one before has gone all of it."""

    def __init__(self, seed: int) -> None:
        self.dice = random.Random(seed)
        self.ears = Ears()
        server = Server(auction=begin(read_definition(DEFINITION)))
        plan = Plan(first=BEGIN, length=36_000)
        self.world = World(random.Random(seed), self.ears, LIMITS, tree=TREE, information=RULES, server=server, plan=plan)
        self.world.start()
        self.until(lambda: self.world.is_admitting)
        while not (self.world.front and self.world.front.rounds.at == "open"):
            self.world.pass_time(0.5)
        self.wires = {name: self.welcome(name) for name in ROLES}
        self.tickets = dict.fromkeys(OTHERS, 0)
        # How often something was asked while a command of another name was on its way.
        self.busy = 0
        self.rest()

    def move(self) -> None:
        world = self.world
        self.dice.choice([world.move_wires, world.move_server, world.move_disk, world.move_board])()

    def until(self, is_so: Callable[[], bool]) -> None:
        for _ in range(MOST_MOVES):
            if is_so():
                return
            self.move()
        raise AssertionError("the front doesn't go on")

    def rest(self) -> None:
        """Moves the world until no entry waits for the disk."""
        self.until(lambda: not self.world.disk.writes and not self.world.server.asked and not self.world.server.answers)

    def welcome(self, name: str) -> Wire:
        wire = self.world.connect(Deaf(), name)
        assert wire
        wire.inbox.append(b"TOKEN " + token(name, 1))
        self.until(lambda: bool(self.ears.heard[wire.number]))
        return wire

    def crowd(self) -> None:
        """Others send commands and questions, of which each comes some part of its way."""
        for _ in range(self.dice.randint(1, 4)):
            name = self.dice.choice(list(OTHERS))
            if not self.wires[name].inbox:
                self.tickets[name] += 1
                bid = f"BID {OTHERS[name]} {self.tickets[name]} {self.dice.choice(NODES)} {1_000 * self.tickets[name]}"
                self.wires[name].inbox.append(self.dice.choice([bid, bid, "SHOW", "READ 1"]).encode())
            for _ in range(self.dice.randint(0, 12)):
                self.move()
        if self.dice.random() < 0.3:
            self.wires["desk"].inbox.append(self.dice.choice([b"SAY bob call me", b"SHOW", b"WHO y"]))
            for _ in range(self.dice.randint(0, 6)):
                self.move()

    def asks(self, name: str, line: str) -> bytes | None:
        """The answer to a name. Nothing happens but that its line comes, and that the server answers its session. None, if it waits."""
        world, wire = self.world, self.wires[name]
        assert world.front and not wire.inbox
        heard = len(self.ears.heard[wire.number])
        session = world.front.names[name].session
        self.busy += any(sessions.is_judged(one) or one.entry for one in world.front.sessions)
        wire.inbox.append(line.encode())
        world.move_wire(wire)
        if session in world.server.asked:
            world.server.judge_one(session)
            world.post(events.Answered(session, world.server.answers.pop(session)))
        answers = self.ears.heard[wire.number][heard:]
        assert len(answers) <= 1
        return answers[0] if answers else None


def waiting(seed: int, viewer: str) -> tuple[list[str], int]:
    """The questions of a seed's day that wait for others; and how many were asked while a command of another name was on its way."""
    crowd, found = Crowd(seed), list[str]()
    for _ in range(6):
        crowd.crowd()
        for line in crowd.dice.sample(QUESTIONS, 3):
            if crowd.asks(viewer, line) is None:
                return [*found, line], crowd.busy
    return found, crowd.busy


def look(seeds: Iterable[int], viewer: str) -> int:
    """Nothing waits on these days. Comes to how many questions were asked while a command was on its way."""
    busy = 0
    for seed in seeds:
        found, more = waiting(seed, viewer)
        assert found == [], seed
        busy += more
    return busy


@pytest.mark.parametrize("viewer", VIEWERS)
def test_no_question_waits_for_a_line_of_another_name(viewer: str) -> None:
    assert look(range(SEEDS), viewer) > 2 * SEEDS


@pytest.mark.slow
@pytest.mark.timeout(3_600)
@pytest.mark.parametrize("viewer", VIEWERS)
def test_no_question_of_many_days_waits(viewer: str) -> None:
    assert look(range(SEEDS, SEEDS + MORE_SEEDS), viewer) > 2 * MORE_SEEDS


# Planted waits.


def waits_for_all_entries(patch: Patch) -> None:
    """A front's own answers leave once all entries up to now are on the disk."""
    answer = desk.answer
    patch.setattr(desk, "answer", lambda step, name, line: (answer(step, name, line)[0], step.front.ledger.written))


def waits_for_the_disk(patch: Patch) -> None:
    """Answers of the server leave once all entries up to now are on the disk."""
    judge = sessions.judge

    def late(step: Step, place: int, answer: bytes) -> None:
        judge(step, place, answer)
        session: Session = step.front.sessions[place]
        if session.entry == 0:
            step.set_session(place, entry=step.front.ledger.written)

    patch.setattr(sessions, "judge", late)


def commands_hold_up_questions(patch: Patch) -> None:
    """A question waits while any command has no answer."""
    may_begin = sessions.may_begin

    def held(step: Step, item: Item, gate: int | None) -> bool:
        is_free = not any(sessions.is_judged(session) for session in step.front.sessions)
        return may_begin(step, item, gate) and (is_free or is_command(item.line))

    patch.setattr(sessions, "may_begin", held)


@pytest.mark.parametrize("plant", [waits_for_all_entries, waits_for_the_disk, commands_hold_up_questions])
def test_a_planted_wait_is_found(plant: Callable[[Patch], None], monkeypatch: Patch) -> None:
    plant(monkeypatch)
    assert any(waiting(seed, "ann")[0] for seed in range(PLANT_SEEDS))


def test_news_for_one_name_push_out_none_of_another_one() -> None:
    """However many others get, the first news that are kept for a name stay."""
    crowd = Crowd(0)
    first = crowd.asks("ann", "EVENT 0")
    assert first and first.startswith(b"EVENT 1 ")
    for number in range(MOST_NEWS + 5):
        crowd.wires["desk"].inbox.append(b"SAY bob %d" % number)
        crowd.until(lambda: not crowd.wires["desk"].inbox)
        crowd.rest()
    assert crowd.asks("ann", "EVENT 0") == first
    last = MOST_NEWS + 5 + len([one for one in crowd.world.disk.entries if one.get("news") and one["kind"] == "clock"])
    for name in ("bob", "desk"):
        told = crowd.asks(name, "EVENT 0")
        assert told and told.startswith(b"EVENT %d " % (last - MOST_NEWS + 1)) and told.endswith(b" SAY bob %d" % 5), told
