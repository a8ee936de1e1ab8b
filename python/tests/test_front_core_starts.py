"""How a front's core starts and ends: which commands it finds, when it lets nobody in, and which lines it waits for at the end."""
from __future__ import annotations

import random

import pytest

from front_world import ROLES, Server, Watch, Wire, World, token
from hpb.front.core import effects, events
from hpb.front.core.events import Left
from hpb.front.core.ledger import Foreign, Held, Ledger
from hpb.record import Entry
from hpb.rules import begin, read_definition
from serving import DEFINITION

ACCEPTED: list[Entry] = [{"kind": "accepted", "name": "ann", "line": "BID x 1 a 100", "answer": "OK 1"}]


def world_of(file: list[str], entries: list[Entry], *left: Left) -> World:
    """A world with these commands in its file, in its record, and beside the record."""
    world = World(random.Random(1), Watch())
    for line in file:
        world.server.judge(line.encode())
    assert world.server.file == file
    world.disk.entries = [{"entry": number, **entry} for number, entry in enumerate(entries, 1)]
    world.disk.beside = dict(enumerate(left))
    return world


def started(world: World, moves: int = 2000) -> World:
    """Runs the world until the front lets clients in, or has ended."""
    world.start()
    for _ in range(moves):
        if world.is_admitting or world.front is None:
            return world
        for move in (world.move_server, world.move_disk, world.move_board):
            move()
    raise AssertionError("it neither lets anybody in nor ends")


def entries(world: World) -> list[tuple[str, str]]:
    """The kind and the line of each entry, except entries of kind `started`."""
    return [(entry["kind"], entry.get("line", "")) for entry in world.disk.entries if entry["kind"] != "started"]


def test_a_command_that_the_file_has_and_the_record_has_not_is_put_there() -> None:
    world = started(world_of(["BID x 1 a 100", "BID y 1 b 150"], ACCEPTED, Left("bob", b"BID y 1 b 150"), Left("ann", b"BID x 1 a 100")))
    assert world.disk.accepted() == [("BID x 1 a 100", "OK 1"), ("BID y 1 b 150", "OK 2")]
    assert world.disk.beside == {} and world.ends == []
    assert world.said == ["1 commands that the last front told the server, and that the file has, were put into the record"]


def test_commands_are_found_in_the_order_of_their_numbers() -> None:
    file = ["BID z 1 all 500", "BID w 1 c 100", "CLOSE 1"]
    left = [Left("carl", b"BID w 1 c 100"), Left("desk", b"CLOSE 1"), Left("bob", b"BID z 1 all 500"), Left("ann", b"BID x 1 a 100")]
    world = started(world_of(file, [], *left))
    assert entries(world) == [("lapsed", "BID x 1 a 100"), *(("accepted", line) for line in file)]
    assert world.server.file == file


@pytest.mark.parametrize(
    ("file", "words"),
    [
        (["BID x 1 a 100", "BID y 1 b 150"], "the file has 1 commands of y, and the record has 0: the record is an older one"),
        ([], "the file has lost commands: 1 were accepted, and it shows 'ROUND 1"),
    ],
)
def test_a_file_and_a_record_that_dont_go_together_let_nobody_in_and_nothing_is_written(file: list[str], words: str) -> None:
    world = started(world_of(file, ACCEPTED))
    assert world.ends[0].startswith(words), world.ends
    assert [entry["kind"] for entry in world.disk.entries] == ["accepted"] and world.disk.writes == []


def test_a_left_line_of_the_first_form_gets_the_entry_that_answers_it() -> None:
    """The file has another command with its ticket. So the line's answer is known, and the line is in no file."""
    asked: Entry = {"kind": "asked", "name": "ann", "line": "BID x 1 b 100"}
    world = started(world_of(["BID x 1 a 100"], [*ACCEPTED, asked]))
    answered = [entry for entry in world.disk.entries if entry["kind"] == "answered"]
    assert [(entry["line"], entry["asked"], entry["answer"][:3]) for entry in answered] == [("BID x 1 b 100", 2, "ERR")]


def running() -> World:
    """A world whose front lets clients in, with one command in its record."""
    return started(world_of(["BID x 1 a 100"], ACCEPTED))


def back(world: World) -> World:
    """Loses the server, and lets it come up again."""
    world.lose_server()
    for _ in range(3):
        world.move_server()
    return world


def test_a_server_that_comes_again_with_a_stranger_s_command_ends_the_front() -> None:
    world = running()
    world.lose_server()
    world.server.judge(b"BID y 1 b 150")
    for _ in range(2):
        world.move_server()
    assert world.ends[0].startswith("the file has 2 commands, and the record explains 1 at most: it got commands by another way")


def test_a_server_that_comes_again_with_an_older_file_ends_the_front() -> None:
    world = running()
    world.lose_server()
    world.server = Server(begin(read_definition(DEFINITION)), state="lost")
    for _ in range(2):
        world.move_server()
    assert world.ends[0].startswith("the file has lost commands: 1 were accepted, and it shows")


def test_a_server_that_comes_again_as_it_was_goes_on() -> None:
    world = back(running())
    assert world.ends == [] and world.server.state == "up"
    assert "the server is gone (signal 9); it is started again" in world.said


def test_a_server_that_never_comes_ends_the_front_with_its_words() -> None:
    world = world_of([], [])
    world.start()
    for _ in range(40):
        if world.server.state == "starting":
            world.server.state = "down"
            world.post(events.ServerFailed("the server doesn't come up: ERR 91 device", False))
        world.pass_time(2.0)
    assert world.ends == ["the server doesn't come up: ERR 91 device"]
    assert world.said == ["the server doesn't come up: ERR 91 device; it is tried again"]


@pytest.mark.parametrize("moves", range(0, 30, 3))
def test_a_stop_before_anybody_is_let_in_ends_at_once_and_says_so(moves: int) -> None:
    world = world_of([], [], *(Left(name, b"BID x 1 a 100") for name in ROLES))
    world.start()
    for _ in range(moves):
        world.move_server()
        world.move_disk()
    assert not world.is_admitting
    world.post(events.Stop())
    assert world.ends == [""] and world.said[-1] == "it was stopped before clients were let in"


# The end.


class Deaf:
    """A client that ignores its answers."""

    def hear(self, wire: Wire, line: bytes) -> None:
        pass


def asking() -> tuple[World, Wire]:
    """A world whose server hasn't judged a bid yet, and the connection that sent the bid."""
    world = running()
    wire = world.connect(Deaf(), "1")
    assert wire
    wire.inbox.extend([b"TOKEN " + token("bob", 1), b"BID y 1 b 150"])
    while not world.server.asked:
        world.move_wires()
        world.move_disk()
    return world, wire


def ended(world: World) -> World:
    """Stops the front, and gives the world after its end."""
    world.post(events.Stop())
    for _ in range(1000):
        if world.front is None:
            return world
        world.move_server()
        world.move_disk()
    raise AssertionError("it doesn't end")


@pytest.mark.parametrize("vanishes", [False, True])
def test_a_command_that_the_server_has_is_waited_for_at_the_end(vanishes: bool) -> None:
    """Even if its client has vanished: else the file would have one command more than the record."""
    world, wire = asking()
    if vanishes:
        world.hang_up(wire)
        while world.wires:
            world.move_wires()
    ended(world)
    assert world.ends == [""] and world.published[-1].startswith("STOPPED 2 ")
    assert world.disk.accepted()[1:] == [("BID y 1 b 150", "OK 2")]
    assert (wire.heard[-1] == b"OK 2") is not vanishes


# The ledger.


def hold(ledger: Ledger, number: int, sent: int) -> None:
    ledger.held[number] = Held(sent, "ann", b"BID x 1 a 100", session=0)


def test_a_number_waits_for_smaller_ones_that_may_still_come() -> None:
    ledger = Ledger()
    one, other = ledger.take_place(), ledger.take_place()
    ledger.tell(one)
    ledger.tell(other)
    assert (one, other, ledger.explained()) == (0, 1, (0, 2))
    ledger.judge(other)
    hold(ledger, 2, 2)
    assert ledger.next() is None and ledger.explained() == (2, 2)
    ledger.judge(one)
    hold(ledger, 1, 2)
    for number in (1, 2):
        found = ledger.next()
        assert isinstance(found, Held)
        assert found.entry(number) == effects.Write("accepted", {"name": "ann", "line": "BID x 1 a 100", "answer": f"OK {number}"})
        ledger.accept(found.line)
    assert ledger.next() is None and (ledger.count, ledger.written, ledger.used) == (2, 2, {"x": 1})


def test_a_number_that_is_nobody_s_is_foreign() -> None:
    """It is known to be foreign once each command that was sent before it has got another answer."""
    ledger = Ledger(count=2)
    one = ledger.take_place()
    ledger.tell(one)
    hold(ledger, 5, 1)
    assert ledger.next() is None
    ledger.judge(one)
    assert ledger.next() == Foreign(3, 4)


def test_a_place_that_is_given_back_is_taken_again() -> None:
    ledger = Ledger()
    assert [ledger.take_place() for _ in range(3)] == [0, 1, 2]
    ledger.give_place(1)
    assert [ledger.take_place(), ledger.take_place()] == [1, 3]


def test_a_copy_of_a_ledger_is_changed_without_the_first_one() -> None:
    first = Ledger(count=1, used={"x": 1}, told={0: 1}, free=[1])
    hold(first, 3, 1)
    copy = first.copy()
    assert copy == first
    copy.tell(copy.take_place())
    copy.accept(b"BID y 4 a 100")
    hold(copy, 4, 2)
    assert (first.count, first.used, first.told, first.free, list(first.held)) == (1, {"x": 1}, {0: 1}, [1], [3])
