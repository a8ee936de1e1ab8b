"""The core of a client: what it sends, and the effects of a refusal and of a loss, without any connection."""
import random

import pytest
from hypothesis import given
from hypothesis import strategies as some

from hpb.client.core import Core, Done, Drop, Keep, Send
from hpb.client.outcomes import NotWelcome
from hpb.lines import Accepted, AskWho, Bid, Close, Command, Line, NodeShown, Show, Stage, Waive, WhoShown
from hpb.refusals import FrontRefused, Refused, refusal
from hpb.rules import Auction, begin, read_definition
from model import World, is_same
from serving import DEFINITION

WITH_WAIVERS = DEFINITION.replace(b'"stages"', b'"waivers":2,"stages"')


def ready(known: list[tuple[str | None, int]] | None = None) -> Core:
    """A core with a connection. For x and y, ticket 1 is the last used one."""
    core = Core(known=[("x", 1), ("y", 1)] if known is None else known)
    core.connected()
    return core


def sent(core: Core) -> list[str]:
    """The lines that go out now."""
    return "".join(effect.data.decode() for effect in core.effects() if isinstance(effect, Send)).split("\n")[:-1]


def done(core: Core) -> list[object]:
    """The outcomes that have come, in their order."""
    return [effect.outcome for effect in core.effects() if isinstance(effect, Done)]


def tell(core: Core, *lines: str) -> None:
    core.received("".join(f"{line}\n" for line in lines).encode())


def test_a_ticket_is_looked_up_before_the_first_command() -> None:
    core = ready([])
    core.ask(Bid("x", "a", 160))
    assert sent(core) == ["WHO x"]
    tell(core, "WHO x ELIGIBILITY 10 ACTIVITY 0 TICKET 1")
    assert sent(core) == ["BID x 2 a 160"]
    tell(core, "OK 6")
    assert done(core) == [Accepted(6)]
    core.ask(Bid("x", "b", 210))
    assert sent(core) == ["BID x 3 b 210"]


def test_the_auctioneer_looks_before_each_close_and_stage() -> None:
    core = ready()
    rows: list[tuple[Command, str, str]] = [
        (Close(), "ROUND 1 STAGE 1 OPEN REVENUE 0 COUNT 4", "CLOSE 1"),
        (Stage(), "ROUND 2 STAGE 1 OPEN REVENUE 500 COUNT 5", "STAGE 2"),
        (Close(), "ROUND 2 STAGE 2 CLOSED REVENUE 500 COUNT 9", "CLOSE 4"),
    ]
    for command, shown, line in rows:
        core.ask(command)
        assert sent(core) == ["SHOW"]
        tell(core, shown)
        assert sent(core) == [line]
        tell(core, "OK 5")
        core.effects()


def test_sixteen_lines_are_in_flight_and_the_next_one_goes_out_with_an_answer() -> None:
    core = ready()
    for amount in range(20):
        core.ask(Bid("x", "a", 160 + amount))
    assert sent(core) == [f"BID x {ticket} a {158 + ticket}" for ticket in range(2, 18)]
    tell(core, "OK 6", "OK 7")
    assert sent(core) == ["BID x 18 a 176", "BID x 19 a 177"]


def test_those_behind_a_refused_command_are_numbered_anew_once_all_have_their_answers() -> None:
    core = ready()
    for amount in (160, 170, 180):
        core.ask(Bid("x", "a", amount))
    core.ask(Bid("y", "b", 210))
    assert sent(core) == ["BID x 2 a 160", "BID x 3 a 170", "BID x 4 a 180", "BID y 2 b 210"]
    tell(core, "ERR 22 low", "ERR 15 gap")
    assert done(core) == [refusal(22)]
    core.ask(Bid("x", "b", 300))
    assert sent(core) == []
    tell(core, "ERR 15 gap")
    assert sent(core) == ["BID x 2 a 170", "BID x 3 a 180", "BID x 4 b 300"]
    tell(core, "OK 6", "OK 7", "OK 8", "ERR 25 eligibility")
    assert done(core) == [Accepted(6), Accepted(7), Accepted(8), refusal(25)]


@pytest.mark.parametrize("command, line", [(Waive("x"), "WAIVE x 3"), (Bid("x", "b", 210), "BID x 3 b 210")])
def test_a_waiver_goes_out_alone_and_bids_go_out_behind_it(command: Command, line: str) -> None:
    core = ready()
    core.ask(Bid("x", "a", 160))
    core.ask(command)
    core.ask(Bid("x", "c", 200))
    is_bid = isinstance(command, Bid)
    assert sent(core) == (["BID x 2 a 160", line, "BID x 4 c 200"] if is_bid else ["BID x 2 a 160"])
    tell(core, "OK 6")
    if not is_bid:
        assert sent(core) == [line, "BID x 4 c 200"]


def test_what_has_no_answer_goes_out_again_under_its_ticket_and_13_says_that_it_was_kept() -> None:
    core = ready()
    for amount in (160, 170, 180):
        core.ask(Bid("x", "a", amount))
    core.ask(Show())
    core.effects()
    tell(core, "OK 6")
    assert done(core) == [Accepted(6)]
    core.lost()
    core.connected()
    assert sent(core) == ["BID x 3 a 170", "BID x 4 a 180", "SHOW"]
    tell(core, "ERR 13 old", "OK 8")
    assert done(core) == [Accepted(None), Accepted(8)]
    core.ask(Bid("x", "a", 190))
    assert sent(core) == ["BID x 5 a 190"]


def test_after_a_loss_behind_a_refusal_those_that_would_get_15_are_numbered_anew() -> None:
    core = ready()
    for amount in (160, 170, 180):
        core.ask(Bid("x", "a", amount))
    tell(core, "ERR 22 low", "ERR 15 gap")
    core.lost()
    core.effects()
    core.connected()
    assert sent(core) == ["BID x 2 a 170", "BID x 3 a 180"]


def test_what_was_not_written_to_a_lost_connection_is_not_written_twice_to_the_next_one() -> None:
    core = ready()
    core.ask(Bid("x", "a", 160))
    core.lost()
    core.connected()
    assert sent(core) == ["BID x 2 a 160"]


def test_13_says_nothing_where_another_line_under_the_ticket_was_lost() -> None:
    core = ready()
    core.ask(Bid("x", "a", 160))
    core.lost()
    core.connected()
    tell(core, "ERR 22 low")
    core.effects()
    core.ask(Bid("x", "b", 210))
    core.lost()
    core.effects()
    core.connected()
    assert sent(core) == ["BID x 2 b 210"]
    tell(core, "ERR 13 old")
    assert sent(core) == ["WHO x"]
    tell(core, "WHO x ELIGIBILITY 10 ACTIVITY 10 TICKET 3")
    assert sent(core) == ["BID x 4 b 210"]


def test_13_and_15_without_a_reason_that_is_known_look_the_ticket_up() -> None:
    for refused in ("ERR 13 old", "ERR 15 gap"):
        core = ready()
        core.ask(Bid("x", "a", 160))
        for ticket in (5, 7):
            core.effects()
            tell(core, refused)
            assert sent(core) == ["WHO x"]
            tell(core, f"WHO x ELIGIBILITY 10 ACTIVITY 10 TICKET {ticket}")
            assert sent(core) == [f"BID x {ticket + 1} a 160"]
        tell(core, refused)
        assert [type(outcome) for outcome in done(core)] == [type(refusal(int(refused[4:6])))]


def test_14_is_told_and_the_next_ticket_is_looked_up() -> None:
    core = ready()
    core.ask(Bid("x", "a", 160))
    tell(core, "ERR 14 ticket")
    assert done(core) == [refusal(14)]
    core.ask(Bid("x", "b", 210))
    assert sent(core) == ["WHO x"]


def test_a_waiver_whose_line_was_lost_is_never_numbered_anew() -> None:
    core = ready()
    core.ask(Waive("x"))
    core.lost()
    core.effects()
    core.connected()
    assert sent(core) == ["WAIVE x 2"]
    tell(core, "ERR 15 gap")
    assert done(core) == [refusal(15)]


@pytest.mark.parametrize("line", ["ERR 93 failed", "ERR 95 order", "ERR front idle", "ERR front many", "HTTP/1.1 400", "x" * 300])
def test_what_ends_a_connection_loses_no_line(line: str) -> None:
    core = ready()
    core.ask(Bid("x", "a", 160))
    core.effects()
    tell(core, line)
    assert [type(effect) for effect in core.effects()] == [Drop]
    tell(core, "OK 7")
    assert core.effects() == []
    core.connected()
    assert sent(core) == ["BID x 2 a 160"]


def test_a_token_is_said_first_and_lines_wait_for_the_welcome() -> None:
    core = Core(token="a" * 16, known=[("x", 1)])
    core.ask(Bid("x", "a", 160))
    core.connected()
    assert sent(core) == ["TOKEN " + "a" * 16]
    tell(core, "WELCOME ann")
    assert sent(core) == ["BID x 2 a 160"]
    tell(core, "ERR front rights")
    assert done(core) == [FrontRefused("rights")]


def test_a_token_that_is_not_known_ends_all_that_waits() -> None:
    core = Core(token="a" * 16)
    core.ask(Bid("x", "a", 160))
    core.connected()
    tell(core, "ERR front token")
    effects = core.effects()
    assert [effect.is_fatal for effect in effects if isinstance(effect, Drop)] == [True]
    assert [type(effect.outcome) for effect in effects if isinstance(effect, Done)] == [NotWelcome]


def test_a_token_that_went_says_nothing_about_what_was_sent() -> None:
    """The server carries out the line that it has: no command is noted as refused."""
    core = Core(token="a" * 16, known=[("x", 1)])
    core.connected()
    tell(core, "WELCOME ann")
    core.ask(Bid("x", "a", 160))
    assert "BID x 2 a 160" in sent(core)
    tell(core, "ERR front token")
    effects = core.effects()
    assert [effect.is_fatal for effect in effects if isinstance(effect, Drop)] == [True]
    assert [type(effect.outcome) for effect in effects if isinstance(effect, Done)] == [NotWelcome]
    assert not [effect for effect in effects if isinstance(effect, Keep)]


def test_a_look_up_that_is_refused_refuses_the_commands_of_its_bidder() -> None:
    core = ready()
    core.ask(Bid("q", "a", 160))
    core.ask(Bid("x", "a", 160))
    assert sent(core) == ["WHO q", "BID x 2 a 160"]
    tell(core, "ERR 11 bidder", "OK 6")
    assert done(core) == [refusal(11), Accepted(6)]


def test_each_command_is_noted_before_it_is_sent_and_with_its_answer() -> None:
    core = ready()
    core.ask(Bid("x", "a", 160))
    assert core.effects() == [Keep("SENT BID x 2 a 160", True), Send(b"BID x 2 a 160\n")]
    tell(core, "OK 6")
    assert core.effects() == [Keep("DONE BID x 2 a 160 = OK 6", False), Done(1, Accepted(6))]


def test_what_nobody_waits_for_is_not_sent_again_and_the_ticket_is_looked_up() -> None:
    core = ready()
    number = core.ask(Bid("x", "a", 160))
    core.effects()
    assert core.abandon(number)
    core.lost()
    core.connected()
    assert sent(core) == []
    core.ask(Bid("x", "b", 210))
    assert sent(core) == ["WHO x"]


def test_what_was_not_sent_never_counts() -> None:
    core = Core()
    number = core.ask(Bid("x", "a", 160))
    assert not core.abandon(number)
    core.connected()
    assert core.effects() == []


def test_questions_are_answered_in_their_order() -> None:
    core = ready()
    core.ask(Show())
    core.ask(AskWho("x"))
    tell(core, "NODE a HIGH 0 - PRICE 0 MIN 100 WIN no", "WHO x ELIGIBILITY 10 ACTIVITY 0 TICKET 1")
    assert [type(outcome) for outcome in done(core)] == [NodeShown, WhoShown]


@pytest.mark.parametrize("line", [Bid("x y", "a", 1), Bid("x", "a", -1), AskWho(""), Bid("x", "a" * 117, 1)])
def test_what_can_not_be_sent_is_refused_at_once(line: Line) -> None:
    core = ready()
    with pytest.raises(ValueError):
        core.ask(line)
    assert not core.wants_connection


# Events in any order.


def started(text: bytes) -> Auction:
    return begin(read_definition(text))


def any_command(dice: random.Random, auction: Auction) -> Command:
    kind = dice.random()
    if kind < 0.1:
        return Close()
    if kind < 0.15:
        return Stage()
    bidder = dice.choice(list(auction.bidders))
    if kind < 0.25:
        return Waive(bidder)
    node = dice.choice(list(auction.tree.nodes))
    return Bid(bidder, node, auction.standing.minima[node] + 10 * dice.choice([0, 0, 0, 1, 2, 50, -1]) + dice.choice([0] * 12 + [5]))


def play(seed: int, may_linger: bool) -> tuple[World, dict[int, Command]]:
    """A client to which anything happens in any order, until it is left in peace.

    With `may_linger`, lines sent over a connection that it left may be judged much later. Otherwise they are judged before the next
    connection is made, or never, as when a server dies.
    """
    dice = random.Random(seed)
    world = World(Core(), started(WITH_WAIVERS))
    asked: dict[int, Command] = {}
    for _ in range(dice.randint(10, 150)):
        step = dice.random()
        if step < 0.35 and len(asked) < 60:
            command = any_command(dice, world.auction)
            asked[world.core.ask(command)] = command
        elif step < 0.6 and world.wire and world.wire.lines:
            for _ in range(dice.randint(1, len(world.wire.lines))):
                world.judge(world.wire)
        elif step < 0.85 and world.wire and world.wire.answers:
            world.read(dice.randint(1, 16))
        elif step < 0.9 and world.wire:
            world.leave()
            if not may_linger:
                wire = world.left.pop()
                for _ in range(dice.randint(0, len(wire.lines))):
                    world.judge(wire)
        elif step < 0.95 and (lingering := [wire for wire in world.left if wire.lines]):
            world.judge(dice.choice(lingering))
        elif world.wire is None:
            world.connect()
        world.perform()
    world.settle()
    for wire in world.left:
        while wire.lines:
            world.judge(wire)
    return world, asked


def count(commands: list[Line], command: Line) -> int:
    return sum(is_same(command, other) for other in commands)


@given(some.integers(0, 2**32), some.booleans())
def test_in_any_order_no_command_is_lost_and_none_counts_twice(seed: int, may_linger: bool) -> None:
    world, asked = play(seed, may_linger)
    assert world.outcomes.keys() == asked.keys()
    assert world.most_in_flight <= 16
    for command in asked.values():
        kept = count(world.accepted, command)
        told = [world.outcomes[number] for number, other in asked.items() if is_same(command, other)]
        assert kept <= len(told)
        accepted = sum(isinstance(outcome, Accepted) for outcome in told)
        # A command reported as accepted counts once. If no line of an abandoned connection lingers, one reported as refused doesn't
        # count.
        assert accepted <= kept
        if not may_linger:
            assert accepted == kept


@given(some.integers(0, 2**32))
def test_in_any_order_refusals_are_those_of_the_rules(seed: int) -> None:
    """If one client uses all tickets, and no line of a lost connection lingers, no outcome is 13, 14 or 15."""
    world, _ = play(seed, may_linger=False)
    told = {outcome.number for outcome in world.outcomes.values() if isinstance(outcome, Refused)}
    assert not told & {10, 11, 12, 13, 14, 15}
