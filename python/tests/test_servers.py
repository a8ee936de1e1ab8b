"""Both clients with a real server that is killed: no command is lost, and none counts twice."""
import asyncio
import pathlib
import random
import threading
from collections.abc import Callable, Sequence

import pytest

from hpb import Accepted, AsyncClient, Bid, Client, Close, Command, Outcome
from hpb.file import read_auction
from hpb.refusals import TooLow
from relay import Relay
from serving import ADDRESS, Program, Server

# The rounds of the first example's auction: z's five bids, and one or two from each other bidder. All are accepted.
NODES_OF = {"x": ["a"], "y": ["b"], "z": ["all", "east", "a", "b", "c"], "w": ["c", "d"]}
LICENCES = {"all": 3, "east": 2}


def bids_of(round_: int) -> list[Bid]:
    """The nine bids of a round, counted from 1. Each amount is twice that of the round before."""
    return [Bid(bidder, node, 1000 * 2**round_ * LICENCES.get(node, 1)) for bidder, nodes in NODES_OF.items() for node in nodes]


Sends = Callable[[int, Sequence[Command]], list[Outcome]]


def by_client(port: int, commands: Sequence[Command]) -> list[Outcome]:
    """The client that blocks."""
    with Client(ADDRESS, port, timeout=60, silence=10) as client:
        return client.send(commands)


def by_async_client(port: int, commands: Sequence[Command]) -> list[Outcome]:
    """The client for asyncio."""

    async def send() -> list[Outcome]:
        async with AsyncClient(ADDRESS, port, timeout=60, silence=10) as client:
            return await client.send(commands)

    return asyncio.run(send())


@pytest.fixture(params=[by_client, by_async_client], ids=["sync", "async"])
def send(request: pytest.FixtureRequest) -> Sends:
    """Each way to send commands ahead."""
    way: Sends = request.param
    return way


def kept_by(server: Server) -> list[tuple[str, str, int]]:
    """Bidder, node and amount of each high bid of the open round."""
    server.kill()
    auction = read_auction(server.file.read_bytes()).auction
    return sorted((bid.bidder, node, bid.amount) for node, bid in auction.incoming.items())


def test_a_client_of_ten_lines(server: Server) -> None:
    with Client(ADDRESS, server.port, timeout=60) as client:
        assert client.bid("x", "a", 100) == Accepted(1)
        with pytest.raises(TooLow):
            client.bid("w", "c", 90)
        assert client.close() == Accepted(2)
        assert client.node("a").minimum == 110
    assert server.lines("SHOW", "WHO x") == ["ROUND 2 STAGE 1 OPEN REVENUE 100 COUNT 2", "WHO x ELIGIBILITY 10 ACTIVITY 10 TICKET 1"]


def kills(server: Server) -> Callable[[], None]:
    def act() -> None:
        server.kill()
        server.start()

    return act


@pytest.mark.parametrize("behind", [False, True], ids=["before", "behind"])
@pytest.mark.parametrize("at", [pytest.param(at, marks=[] if at in (5, 9) else pytest.mark.slow) for at in range(1, 14)])
def test_no_kill_of_the_server_loses_or_doubles_a_command(server: Server, send: Sends, at: int, behind: bool) -> None:
    """The server is killed at each of the lines in turn: four questions for tickets, and nine bids."""
    with Relay(server.port, at, behind, kills(server)) as relay:
        outcomes = send(relay.port, bids_of(1))
        assert relay.has_acted
    assert [type(outcome) for outcome in outcomes] == [Accepted] * 9
    assert server.lines("SHOW") == ["ROUND 1 STAGE 1 OPEN REVENUE 0 COUNT 9"]


@pytest.mark.slow
@pytest.mark.parametrize("seed", range(3))
def test_kills_at_random_moments_lose_and_double_nothing(server: Server, send: Sends, seed: int) -> None:
    """Eight rounds, in which the server is killed up to ten times."""
    dice, ended, killed = random.Random(seed), threading.Event(), list[bool]()

    def kill() -> None:
        pause = dice.uniform(0, 0.01)
        while len(killed) < 10 and not ended.wait(pause):
            server.kill()
            server.start()
            killed.append(True)
            pause = dice.uniform(0.1, 2)

    killer = threading.Thread(target=kill)
    killer.start()
    try:
        for round_ in range(1, 9):
            assert [type(outcome) for outcome in send(server.port, bids_of(round_))] == [Accepted] * 9
            assert [type(outcome) for outcome in send(server.port, [Close()])] == [Accepted]
    finally:
        ended.set()
        killer.join(60)
    assert killed
    assert server.lines("SHOW")[0].endswith("COUNT 80")


def test_a_file_of_tickets_tells_after_a_crash_what_was_kept(server: Server, tmp_path: pathlib.Path) -> None:
    tickets = tmp_path / "tickets"
    with Client(ADDRESS, server.port, tickets=tickets, timeout=60) as client:
        assert client.bid("z", "a", 100) == Accepted(1)
    # As if it had been killed while two bids were on their way, of which one was kept.
    with tickets.open("a", encoding="ascii") as file:
        file.write("SENT BID z 2 b 100\nSENT BID z 3 c 100\nSENT BID z 4 d 1")
    assert server.lines("BID z 2 b 100") == ["OK 2"]
    with Client(ADDRESS, server.port, tickets=tickets, timeout=60) as client:
        assert client.earlier() == [(Bid("z", "b", 100, ticket=2), True), (Bid("z", "c", 100, ticket=3), False)]
        assert client.bid("z", "c", 100) == Accepted(3)
    assert server.lines("WHO z") == ["WHO z ELIGIBILITY 40 ACTIVITY 40 TICKET 3"]


def test_what_a_file_keeps_is_what_was_sent(server: Server, send: Sends) -> None:
    assert [type(outcome) for outcome in send(server.port, bids_of(1))] == [Accepted] * 9
    nodes = [(node, amount) for _, node, amount in kept_by(server)]
    assert sorted(nodes) == [("a", 2000), ("all", 6000), ("b", 2000), ("c", 2000), ("d", 2000), ("east", 4000)]


def test_a_thousand_bids_ahead(server: Server, program: Program) -> None:
    """All but the first are refused by 24, and those in flight behind them get new tickets. None is lost or hangs."""
    commands = [Bid("z", "d", 100 + 10 * more) for more in range(300)]
    outcomes = by_client(server.port, commands)
    assert outcomes[0] == Accepted(1)
    assert {getattr(outcome, "number", 0) for outcome in outcomes[1:]} == {24}
