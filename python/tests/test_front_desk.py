"""Lines of the auctioneer and of others that a front answers by itself, in a world without input or output (docs/ROUNDS.md)."""
from __future__ import annotations

import random
from typing import Any

from front_world import ROLES, Watch, World, token
from hpb.front.core import effects, events
from hpb.front.core.clock import Closing, Plan
from hpb.front.rights import Role

NINE = 1_796_202_000.0  # 2026-12-02T09:00:00Z

class Heard(Watch):
    """What connections are answered."""

    def __init__(self) -> None:
        self.lines: list[bytes] = []

    def effect(self, world: World, effect: effects.Effect) -> None:
        if isinstance(effect, effects.Answer):
            self.lines.append(effect.line)


class Deaf:
    """A client that ignores its answers."""

    def hear(self, wire: Any, line: bytes) -> None:
        pass


class Desk:
    """A front in a world, and what names ask it."""

    def __init__(self, **settings: Any) -> None:
        self.heard = Heard()
        self.world = World(random.Random(1), self.heard, **settings)
        self.world.start()
        while not self.world.is_admitting:
            self.settle(1)
        self.world.pass_time(0.5)
        self.wires: dict[str, Any] = {}

    def settle(self, moves: int = 60) -> None:
        for _ in range(moves):
            for move in (self.world.move_wires, self.world.move_server, self.world.move_disk, self.world.move_board):
                move()

    def ask(self, name: str, line: str) -> str:
        if name not in self.wires:
            self.wires[name] = wire = self.world.connect(Deaf(), name)
            assert wire
            wire.inbox.append(b"TOKEN " + token(name, 1))
        self.wires[name].inbox.append(line.encode())
        self.settle()
        return self.heard.lines[-1].decode("latin-1")

    def restart(self) -> None:
        self.world.kill()
        self.wires = {}
        self.world.start()
        while not self.world.is_admitting:
            self.settle(1)
        self.world.pass_time(0.5)


def test_without_a_clock_and_without_open_rounds_are_closed_by_the_auctioneer() -> None:
    front = Desk(closing=Closing())
    assert front.ask("desk", "SCHEDULE").startswith("SCHEDULE ROUND 1 STATE none OPENS - UNTIL - LEFT 0 NOW ")
    assert [front.ask("desk", line) for line in ("PAUSE", "RESUME", "EXTEND 1 10:00", "EVENT 0")] == [*["ERR front clock"] * 3, "EVENT -"]
    assert front.ask("desk", "CLOSE 1") == "ERR front end"
    assert front.ask("ann", "BID x 1 a 100") == "OK 1" and front.ask("desk", "CLOSE 1") == "OK 2"
    assert front.ask("desk", "CLOSE 2") == "ERR front end" and front.ask("desk", "CLOSE 1") == "OK 2"
    assert front.ask("desk", "CLOSE 2 ENDING") == "OK 3" and "CLOSED" in front.ask("public", "SHOW")
    assert {entry["kind"] for entry in front.world.disk.entries} == {"started", "accepted"}


def test_a_plain_close_ends_the_auction_if_the_configuration_says_so() -> None:
    assert Desk(closing=Closing(is_plain=True)).ask("desk", "CLOSE 1") == "OK 1"


def test_a_second_name_agrees_to_the_end() -> None:
    ROLES["public"] = Role("observer", agrees=True)
    try:
        front = Desk(closing=Closing(needs_second=True))
        assert front.ask("desk", "CLOSE 1 ENDING") == "ERR front second" == front.ask("desk", "OPEN 1 UNTIL 10:00 ENDING")
        assert front.ask("public", "AGREE 2") == "ERR front clock" and front.ask("public", "AGREE 1") == "AGREE 1"
        assert front.ask("desk", "EVENT 0").endswith("SAY desk public agrees that CLOSE 1 ends the auction") and front.ask("ann", "EVENT 0") == "EVENT -"
        front.restart()
        assert front.ask("desk", "CLOSE 1 ENDING") == "ERR front second"
        assert front.ask("public", "AGREE 1") == "AGREE 1" and front.ask("desk", "CLOSE 1") == "ERR front end"
        assert front.ask("desk", "CLOSE 1 ENDING") == "OK 1"
    finally:
        ROLES["public"] = Role("observer")


def test_a_close_is_judged_in_its_turn_among_names_that_share_a_session() -> None:
    """Two names bid before it, and one behind it: its bid of round 1 comes too late."""
    for sessions in (1, 2, 5):
        front = Desk(closing=Closing(), sessions=sessions)
        for name in ("ann", "bob", "carl", "desk"):
            assert front.ask(name, "SHOW").startswith("ROUND 1 ")
        lines = [("ann", b"BID x 1 a 100"), ("bob", b"BID y 1 b 150"), ("desk", b"CLOSE 1"), ("ann", b"IN 1 BID x 2 a 110"), ("ann", b"BID x 2 a 110")]
        for name, line in lines:
            front.world.post(events.Line(front.wires[name].number, line))
        front.settle()
        assert sorted(front.world.server.file[:2]) == ["BID x 1 a 100", "BID y 1 b 150"]
        assert front.world.server.file[2:] == ["CLOSE 1", "BID x 2 a 110"] and b"ERR front round" in front.heard.lines


def test_a_bid_of_another_round_is_sent_nowhere() -> None:
    front = Desk()
    assert front.ask("ann", "IN 2 BID x 1 a 100") == "ERR front round" and front.world.server.file == []
    assert front.ask("ann", "IN 1 BID x 1 a 100") == "OK 1" and front.ask("desk", "CLOSE 1") == "OK 2"
    assert front.ask("ann", "IN 1 BID x 2 b 110") == "ERR front round" and front.ask("ann", "IN 1 BID x 1 a 100") == "OK 1"
    assert front.ask("ann", "IN 2 WAIVE x 2") == "ERR 28 waiver"


def test_an_opened_round_ends_by_itself_and_the_auctioneer_opens_the_next() -> None:
    front = Desk()
    assert front.ask("desk", "OPEN 2 UNTIL 10:00") == "ERR front round"
    for line in ("OPEN 1 UNTIL 08:00", "OPEN 1 UNTIL 25:00"):
        assert front.ask("desk", line) == ("ERR front line" if "25" in line else "ERR front clock")
    assert front.ask("desk", "OPEN 1 UNTIL 09:02").endswith(" OPEN 1 UNTIL 2026-12-02T09:02:00Z")
    assert front.ask("desk", "OPEN 1 UNTIL 09:03") == "ERR front clock" == front.ask("desk", "CLOSE 1")
    assert front.ask("ann", "BID x 1 a 100") == "OK 1"
    assert front.ask("desk", "EXTEND 1 09:01") == "ERR front clock" and front.ask("desk", "EXTEND 1 09:03").endswith("EXTEND 1 UNTIL 2026-12-02T09:03:00Z")
    while front.world.passed < 185:
        front.world.pass_time(0.5)
    assert front.ask("ann", "BID x 2 b 110") == "ERR front closed" and front.ask("ann", "BID x 1 a 100") == "OK 1"
    assert front.ask("public", "SHOW") == "ROUND 2 STAGE 1 OPEN REVENUE 100 COUNT 2"
    assert front.ask("ann", "SCHEDULE").startswith("SCHEDULE ROUND 2 STATE waits OPENS - UNTIL - LEFT 0 NOW ")
    told = [front.ask("ann", f"EVENT {number}").split(" ", 3)[3] for number in range(5)]
    assert told == ["OPEN 1 UNTIL 2026-12-02T09:02:00Z", "EXTEND 1 UNTIL 2026-12-02T09:03:00Z", "WARN 1 60 UNTIL 2026-12-02T09:03:00Z", "END 1", "CLOSE 1"]


def test_a_round_whose_time_is_over_is_neither_extended_nor_paused() -> None:
    """The clock hasn't been read since, so the round isn't ended yet."""
    front = Desk(plan=Plan(first=NINE + 1, length=20, gap=10))
    front.world.pass_time(1.0)
    assert " STATE open " in front.ask("desk", "SCHEDULE")
    front.world.clock, front.world.passed = front.world.clock + 20, front.world.passed + 20
    assert [front.ask("desk", line) for line in ("EXTEND 1 09:10", "PAUSE")] == ["ERR front clock"] * 2
    assert front.ask("ann", "BID x 1 a 100") == "ERR front closed"


def test_a_round_that_is_paused_at_its_end_goes_on_when_it_is_extended() -> None:
    front = Desk(plan=Plan(first=NINE + 1, length=20, gap=10), closing=Closing())
    while " STATE paused " not in front.ask("ann", "SCHEDULE"):
        front.world.pass_time(0.5)
    assert front.ask("desk", "EVENT 3").endswith("PAUSE 1 end") and front.ask("desk", "CLOSE 1") == "ERR front end"
    assert front.ask("desk", "EXTEND 1 09:05").endswith("EXTEND 1 UNTIL 2026-12-02T09:05:00Z")
    assert front.ask("ann", "BID x 1 a 100") == "ERR front closed"
    assert front.ask("desk", "RESUME").endswith("RESUME 1 UNTIL 2026-12-02T09:05:00Z") and front.ask("ann", "BID x 1 a 100") == "OK 1"


def test_a_pause_keeps_the_time_that_is_left_over_a_kill() -> None:
    front = Desk(plan=Plan(first=NINE + 1, length=100, gap=10))
    front.world.pass_time(1.0)
    assert front.ask("desk", "PAUSE").endswith(" PAUSE 1 auctioneer") and front.ask("ann", "BID x 1 a 100") == "ERR front closed"
    left = front.ask("desk", "SCHEDULE").split("LEFT ")[1].split()[0]
    assert left == "99"
    front.world.passed, front.world.clock = front.world.passed + 3600, front.world.clock + 3600
    front.restart()
    assert f" STATE paused OPENS - UNTIL - LEFT {left} " in front.ask("ann", "SCHEDULE")
    assert front.ask("desk", "RESUME").endswith(" RESUME 1 UNTIL 2026-12-02T10:01:42Z")
    assert front.ask("ann", "BID x 1 a 100") == "OK 1"


def test_announcements_are_for_all_or_for_one_name_until_they_are_read() -> None:
    front = Desk()
    assert front.ask("desk", "SAY everybody hello") == "ERR front line"
    assert front.ask("desk", "SAY bob call me").endswith(" SAY bob call me") and front.ask("desk", "SAY all a break").endswith(" SAY all a break")
    # The number that ann sees doesn't show that bob got something.
    assert front.ask("bob", "EVENT").startswith("EVENT 1 ") and front.ask("ann", "EVENT").startswith("EVENT 1 ")
    assert front.ask("bob", "READ 1") == "READ 1" and front.ask("bob", "EVENT").startswith("EVENT 2 ")
    front.restart()
    assert front.ask("bob", "EVENT").startswith("EVENT 2 ") and front.ask("bob", "READ 9") == "READ 2" and front.ask("bob", "EVENT") == "EVENT -"
    assert front.ask("desk", "SAY all we go on").startswith("EVENT 3 ") and front.ask("ann", "EVENT 1").startswith("EVENT 2 ")


def test_the_page_asks_for_the_clock_and_for_the_news_of_a_name() -> None:
    front = Desk()
    front.ask("desk", "SAY bob call me")
    wanted = {b"SCHEDULE": b"SCHEDULE ROUND 1", b"EVENT 0 bob": b"EVENT 1 ", b"EVENT 0 ann": b"EVENT -", b"READ bob": b"READ 0", b"PREVIEW": b"ERR front line"}
    told = list[bytes]()

    class Board(Watch):
        def effect(self, world: World, effect: effects.Effect) -> None:
            if isinstance(effect, effects.AnswerBoard):
                told.append(effect.line)

    front.world.watch = Board()
    for number, line in enumerate(wanted, 800_000):
        front.world.asked.append(number)
        front.world.post(events.BoardAsks(number, line))
    assert len(told) == len(wanted) and all(line.startswith(start) for line, start in zip(told, wanted.values()))
