"""Which connection of a name ends when one more comes, and which lines and connections other limits find there."""
from __future__ import annotations

import random
from dataclasses import replace

from front_world import LIMITS, Watch, World, token, tokens_of
from hpb.front.core import effects, events
from hpb.front.core.effects import Effect
from hpb.front.limits import Limits


class Heard(Watch):
    """What each connection is answered, and which have to go."""

    def __init__(self) -> None:
        self.answers: dict[int, list[bytes]] = {}
        self.ended: set[int] = set()

    def effect(self, world: World, effect: Effect) -> None:
        match effect:
            case effects.Answer(number, line):
                self.answers.setdefault(number, []).append(line.split(b" ")[0])
            case effects.End(number):
                self.ended.add(number)


def open_to(limits: Limits) -> tuple[World, Heard]:
    """A world that lets clients in, with these limits."""
    world = World(random.Random(1), heard := Heard(), limits)
    world.start()
    for _ in range(2000):
        if world.is_admitting:
            return world, heard
        for move in (world.move_server, world.move_disk, world.move_board):
            move()
    raise AssertionError("it lets nobody in")


def come(world: World, *numbers: int) -> None:
    """Connections of ann, each a tenth of a second behind the one before."""
    for number in numbers:
        world.clock += 0.1
        world.post(events.Came(number, "peer", "1"))
        world.post(events.Opened(number))
        world.post(events.Line(number, b"TOKEN " + token("ann", 1)))


def test_a_connection_whose_line_has_to_wait_is_not_the_one_that_ends() -> None:
    world, heard = open_to(replace(LIMITS, connections=2, lines_per_second=1))
    come(world, 901)
    for _ in range(3):
        world.post(events.Line(901, b"SHOW"))
    for _ in range(100):
        world.move_server()
    assert heard.answers[901] == [b"WELCOME", b"ROUND", b"ROUND"]
    come(world, 902, 903)
    assert heard.ended == {902} and heard.answers[903] == [b"WELCOME"]


def test_fewer_connections_hold_for_those_that_are_there_once_one_more_comes() -> None:
    world, heard = open_to(replace(LIMITS, connections=5))
    come(world, 901, 902, 903, 904, 905)
    world.post(events.Reloaded(replace(LIMITS, connections=2), tokens_of(world.tokens)))
    assert heard.ended == set()
    come(world, 906)
    assert heard.ended == {901, 902, 903, 904}


def test_a_line_that_might_come_is_taken_when_fewer_may_wait() -> None:
    world, heard = open_to(LIMITS)
    come(world, 901)
    world.post(events.Line(901, b"WHO x"))
    world.post(events.Line(901, b"WHO x"))
    world.post(events.Reloaded(replace(LIMITS, lines_waiting=1), tokens_of(world.tokens)))
    world.post(events.Line(901, b"SHOW"))
    for _ in range(100):
        world.move_server()
    assert heard.answers[901] == [b"WELCOME", b"WHO", b"WHO", b"ROUND"]
