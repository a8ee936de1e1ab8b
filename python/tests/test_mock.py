"""Mock auctions: the mark in the definition, what a front's core says, and what a client does (docs/ROUNDS.md)."""
from __future__ import annotations

import dataclasses
import random

import pytest

from front_pairs import Deaf, Ears
from front_world import TREE, World, token
from hpb.client import NotWelcome
from hpb.client.core import Core, Done, Send
from hpb.client.reaching import settings
from hpb.front.mock import mock_name, moved, text_of
from hpb.front.rights import Role
from hpb.lines import Accepted, Bid, Close, Show, numbered
from hpb.refusals import BeyondLimits
from hpb.rules import Auction, apply, begin, read_definition
from hpb.rules.definition import Bidder, Definition
from hpb.rules.mock import MARK, as_mock, has_mark, is_mock
from hpb.rules.preview import preview
from hpb.rules.tree import tree_of
from hpb.rules.writing import definition_line, fields_of
from serving import DEFINITION

REAL = read_definition(DEFINITION)
MOCK_TREE = tree_of(as_mock(REAL))


def test_the_mark_is_one_more_bidder_and_nothing_else() -> None:
    mock = as_mock(REAL)
    assert mock.bidders == (*REAL.bidders, Bidder("mock_auction", 1)) and dataclasses.replace(mock, bidders=REAL.bidders) == REAL
    assert (is_mock(REAL), is_mock(mock), as_mock(mock)) == (False, True, mock)
    assert (has_mark(fields_of(REAL)), has_mark(fields_of(mock)), has_mark(None), has_mark({}), has_mark({"bidders": [1]})) == (False, True, False, False, False)
    assert is_mock(read_definition(definition_line(mock).encode()))


def test_a_definition_with_the_most_bidders_has_no_room_for_the_mark() -> None:
    def of(count: int) -> Definition:
        return dataclasses.replace(REAL, bidders=tuple(Bidder(f"b{number}", 10) for number in range(count)))

    assert len(as_mock(of(63)).bidders) == 64
    with pytest.raises(BeyondLimits) as refused:
        as_mock(of(64))
    assert "64 bidders leave no room for the bidder mock_auction" in str(refused.value)


def test_the_mark_changes_no_result() -> None:
    """Days by seeds: each answer and each standing of a mock is that of the auction, and a look before a close counts the same bidders."""
    for seed in range(20):
        dice = random.Random(seed)
        both = [begin(REAL), begin(as_mock(REAL))]
        for _ in range(40):
            command: Bid | Close = Close() if dice.random() < 0.15 else Bid(dice.choice("xyzw"), dice.choice(list(TREE.nodes)), 100 * dice.randint(1, 9))
            both = alike(both, command)
            if not both[0].is_over:
                found = [preview(auction) for auction in both]
                assert found[0] == found[1] and MARK not in found[1].bidders


def alike(both: list[Auction], command: Bid | Close) -> list[Auction]:
    """Both auctions after a command, which they answer alike."""
    ticket = next_ticket(both[0], command)
    told = [apply(auction, numbered(command, ticket)) for auction in both]
    (first, answer), (second, other) = told
    assert answer == other and isinstance(answer, Accepted) is isinstance(other, Accepted)
    assert (first.standing, first.high, first.round, first.is_over) == (second.standing, second.high, second.round, second.is_over)
    return [first, second]


def next_ticket(auction: Auction, command: Bid | Close) -> int:
    last = auction.auctioneer if isinstance(command, Close) else auction.bidders[command.bidder].last
    return (last.command.ticket if last else 0) + 1


# The front's core.


def started(is_mock: bool, is_of_other_server: bool = False) -> World:
    """A front that came up, or ended. With `is_of_other_server` the server has the other kind of auction than the file."""
    ears = Ears()
    world = World(random.Random(1), ears, tree=MOCK_TREE if is_mock else TREE)
    world.server.auction = begin(as_mock(REAL) if is_mock is not is_of_other_server else REAL)
    world.start()
    for _ in range(2_000):
        if world.is_admitting or world.front is None:
            break
        world.move_server()
        world.move_disk()
        world.move_board()
    return world


def greeting(world: World) -> bytes:
    wire = world.connect(Deaf(), "ann")
    assert wire and isinstance(world.watch, Ears)
    wire.inbox.append(b"TOKEN " + token("ann", 1))
    while not world.watch.heard[wire.number]:
        world.move_wires()
    return world.watch.heard[wire.number][0]


@pytest.mark.parametrize("is_mock", [True, False])
def test_each_greeting_of_a_mock_says_so_and_no_other(is_mock: bool) -> None:
    world = started(is_mock)
    assert greeting(world) == (b"WELCOME ann MOCK" if is_mock else b"WELCOME ann")
    assert world.published and all(line.endswith(" MOCK") is is_mock for line in world.published)


@pytest.mark.parametrize("is_mock", [True, False])
def test_a_front_whose_server_has_the_other_kind_of_auction_ends(is_mock: bool) -> None:
    """Nobody has bid in either, so no count tells them apart."""
    world = started(is_mock, is_of_other_server=True)
    assert world.front is None and len(world.ends) == 1
    assert world.ends[0].startswith("the server has another auction than the file: "), world.ends


def test_the_auctioneer_is_shown_all_bidders_but_the_mark() -> None:
    assert Role("auctioneer").seen(MOCK_TREE) == Role("auctioneer").seen(TREE) == ["x", "y", "z", "w"]
    assert Role("observer", sees_all=True).seen(MOCK_TREE) == ["x", "y", "z", "w"] and Role("observer").seen(MOCK_TREE) == []


# The client's core.


def greeted(core: Core, line: str) -> list[object]:
    """The effects of a connection that is greeted so."""
    core.connected()
    core.effects()
    core.received(f"{line}\n".encode())
    return list(core.effects())


def test_a_client_knows_from_its_first_greeting_whether_it_is_at_a_mock() -> None:
    for line, at_mock in (("WELCOME ann MOCK", True), ("WELCOME ann", False), ("WELCOME mock", False)):
        core = Core("token-of-sixteen")
        assert core.is_mock is None
        core.ask(Show())
        assert any(isinstance(effect, Send) and b"SHOW" in effect.data for effect in greeted(core, line))
        assert core.is_mock is at_mock


@pytest.mark.parametrize(("first", "second"), [("WELCOME ann MOCK", "WELCOME ann"), ("WELCOME ann", "WELCOME ann MOCK")])
def test_a_bid_that_waits_for_a_mock_never_goes_to_the_auction_nor_the_other_way_round(first: str, second: str) -> None:
    core = Core("token-of-sixteen", [("x", 0)])
    greeted(core, first)
    core.ask(Bid("x", "a", 100))
    core.effects()
    core.lost()
    effects_ = greeted(core, second)
    assert not any(isinstance(effect, Send) for effect in effects_)
    assert [type(effect.outcome) for effect in effects_ if isinstance(effect, Done)] == [NotWelcome]


@pytest.mark.parametrize("is_mock", [True, False])
def test_a_client_that_is_for_one_kind_of_auction_takes_no_other(is_mock: bool) -> None:
    core = Core("token-of-sixteen", is_mock=is_mock)
    core.ask(Show())
    found = greeted(core, "WELCOME ann" if is_mock else "WELCOME ann MOCK")
    assert [type(effect.outcome) for effect in found if isinstance(effect, Done)] == [NotWelcome]
    assert settings("localhost", 6000, token="token-of-sixteen", mock=is_mock).is_mock is is_mock
    with pytest.raises(ValueError, match="`mock` is for a front"):
        settings("localhost", 6000, mock=is_mock)


# Its configuration.


def test_a_plan_is_moved_as_a_whole() -> None:
    windows = [["2026-12-02T09:00", "2026-12-02T09:30"], ["2026-12-02T09:40", "2026-12-02T10:10"]]
    assert moved({"zone": "Europe/Berlin", "windows": windows}, "2026-12-01T18:00") == {
        "zone": "Europe/Berlin", "windows": [["2026-12-01T17:00:00Z", "2026-12-01T17:30:00Z"], ["2026-12-01T17:40:00Z", "2026-12-01T18:10:00Z"]],
    }
    assert moved({"first": "2026-12-02T09:00Z", "length_seconds": 60}, "2026-12-01T18:00Z") == {"first": "2026-12-01T18:00:00Z", "length_seconds": 60}


def test_fields_are_written_as_toml() -> None:
    fields = {"a": 1, "b": True, "c": 'x "y" \\ z', "t": {"d": [["e", 2]], "u": {"f": False}}, "g g": {}}
    assert text_of(fields) == 'a = 1\nb = true\nc = "x \\"y\\" \\\\ z"\n\n[t]\nd = [["e", 2]]\n\n[t.u]\nf = false\n\n["g g"]\n'
    assert mock_name("there/auction.hpb") == "mock-auction.hpb"
