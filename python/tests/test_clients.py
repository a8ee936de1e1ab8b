"""The same rows for the core alone, for `Client` and for `AsyncClient`: the outcome of each command, whatever connections do."""
import asyncio
import itertools
import socket
import threading
import time
from collections.abc import Callable, Sequence

import pytest

from fake import BEFORE, BEHIND, ENDING_LINES, HALF, SILENT, Fake, Fault, Listener
from hpb import (
    Accepted, AsyncClient, Bid, Client, Close, Command, Ended, HpbError, NotWelcome, Outcome, Refused, Stage, Unanswered, Waive,
)
from hpb.client.core import Core, Done, Drop, Send
from hpb.refusals import NotAStep, NoWaiverLeft, TooLow, UnknownBidder, UnknownNode, refusal
from serving import ADDRESS

ROUND = [Bid("x", "a", 100), Bid("y", "b", 150), Bid("z", "all", 500), Bid("w", "c", 100)]
MANY = [Bid("z", "a", 100), Bid("z", "b", 110), Bid("z", "c", 120), Bid("x", "a", 130), Bid("z", "east", 240), Bid("y", "b", 150)]
SILENCE = 0.4

Sends = Callable[[Fake, Sequence[Command]], list[Outcome]]


def by_core(fake: Fake, commands: Sequence[Command]) -> list[Outcome]:
    """The core alone, in memory."""
    core, outcomes = Core(), dict[int, Outcome]()
    numbers = [core.ask(command) for command in commands]
    connection, answers = None, b""
    for _ in range(1000):
        effects = core.effects()
        for effect in effects:
            match effect:
                case Send(data) if connection:
                    answers += connection.take(data)
                case Done(number, (Accepted() | HpbError()) as outcome):
                    outcomes[number] = outcome
                case Drop():
                    connection, answers = None, b""
        if len(outcomes) == len(numbers):
            return [outcomes[number] for number in numbers]
        if connection is None:
            connection, answers = fake.connect(), b""
            core.connected()
        elif answers:
            answers, told = b"", answers
            core.received(told)
        elif not effects:
            # It ended, or was silent for too long.
            connection = None
            core.lost()
    raise AssertionError("it doesn't come to an end")


def by_client(fake: Fake, commands: Sequence[Command]) -> list[Outcome]:
    """The client that blocks, over TCP."""
    with Listener(fake) as listener, Client(ADDRESS, listener.port, timeout=20, silence=SILENCE) as client:
        return client.send(commands)


def by_async_client(fake: Fake, commands: Sequence[Command]) -> list[Outcome]:
    """The client for asyncio, over TCP."""

    async def send(port: int) -> list[Outcome]:
        async with AsyncClient(ADDRESS, port, timeout=20, silence=SILENCE) as client:
            return await client.send(commands)

    with Listener(fake) as listener:
        return asyncio.run(send(listener.port))


@pytest.fixture(params=[by_core, by_client, by_async_client], ids=["core", "sync", "async"])
def send(request: pytest.FixtureRequest) -> Sends:
    """Each way to send commands ahead."""
    way: Sends = request.param
    return way


def texts(outcomes: Sequence[Outcome]) -> list[str]:
    """Outcomes in short."""
    return [f"{'ERR' if isinstance(outcome, Refused) else 'OK'} {getattr(outcome, 'number', outcome)}" for outcome in outcomes]


ROWS: list[tuple[str, list[Command], list[str]]] = [
    ("a round", [*ROUND, Close()], ["OK 1", "OK 2", "OK 3", "OK 4", "OK 5"]),
    ("a close without bids, and then", [Close(), Bid("x", "a", 100), Stage()], ["OK 1", "ERR 20", "ERR 20"]),
    ("refused, and one behind it", [Bid("z", "a", 90), Bid("z", "b", 105), Bid("z", "c", 120)], ["ERR 22", "ERR 21", "OK 1"]),
    ("no such names", [Bid("q", "a", 100), Bid("x", "q", 100), Bid("x", "a", 100), Waive("q")], ["ERR 11", "ERR 12", "OK 1", "ERR 11"]),
    ("a waiver that there isn't", [Bid("z", "a", 100), Waive("z"), Bid("z", "b", 100)], ["OK 1", "ERR 28", "OK 2"]),
    ("stages", [Stage(), Stage(), Bid("x", "a", 100), Close()], ["OK 1", "ERR 27", "OK 2", "OK 3"]),
    ("nothing", [], []),
    ("forty bids", [Bid("z", "a", 100), *[Bid("z", "a", 110 + 10 * more) for more in range(39)]], ["OK 1", *["ERR 24"] * 39]),
]


@pytest.mark.parametrize("commands, wanted", [row[1:] for row in ROWS], ids=[row[0].replace(" ", "-") for row in ROWS])
def test_what_commands_come_to(send: Sends, commands: list[Command], wanted: list[str]) -> None:
    fake = Fake()
    found = texts(send(fake, commands))
    if {Close, Stage} & {type(command) for command in commands}:
        # The auctioneer's commands wait for a question of their own, so others may get their tickets before them.
        assert sorted(text[:3] for text in found) == sorted(text[:3] for text in wanted)
    else:
        assert found == wanted


@pytest.mark.parametrize("line, kind", itertools.product(range(1, 11), (BEFORE, BEHIND, HALF)))
def test_no_command_is_lost_or_counted_twice_wherever_a_connection_ends(send: Sends, line: int, kind: str) -> None:
    """The lines are WHO for three bidders and six bids; then the next connection fails at its third line."""
    fake = Fake()
    fake.faults.extend([Fault(line, kind), Fault(3, kind)])
    assert [type(outcome) for outcome in send(fake, MANY)] == [Accepted] * len(MANY)
    assert sorted(line.split(" ")[3:] for line in fake.accepted) == sorted([bid.node, str(bid.amount)] for bid in MANY)
    assert [line.split(" ")[3] for line in fake.accepted if " z " in line] == ["a", "b", "c", "east"]


@pytest.mark.parametrize("kind", [*ENDING_LINES, SILENT])
def test_what_ends_a_connection_is_answered_by_the_next_one(send: Sends, kind: str) -> None:
    fake = Fake()
    fake.faults.extend([Fault(5, kind), Fault(1, kind)])
    assert [type(outcome) for outcome in send(fake, MANY)] == [Accepted] * len(MANY)
    assert len(fake.accepted) == len(MANY)


def test_a_refusal_that_was_lost_is_judged_anew(send: Sends) -> None:
    fake = Fake()
    fake.faults.append(Fault(4, BEHIND))
    assert texts(send(fake, [Bid("z", "a", 100), Bid("z", "b", 90), Bid("z", "c", 100)])) == ["OK 1", "ERR 22", "OK 2"]


# Other things that the shells do.


def test_calls_give_answers_and_raise_refusals() -> None:
    with Listener(Fake()) as listener, Client(ADDRESS, listener.port, timeout=20) as client:
        assert client.bid("x", "a", 100) == Accepted(1)
        with pytest.raises(TooLow):
            client.bid("z", "all", 290)
        with pytest.raises(NotAStep):
            client.bid("z", "all", 305)
        with pytest.raises(NoWaiverLeft):
            client.waive("x")
        assert client.close() == Accepted(2)
        assert client.show().round == 2
        assert client.node("a").wins
        assert client.who("x").ticket == 1
        assert client.stage() == Accepted(3)
        with pytest.raises(UnknownNode):
            client.node("nowhere")
        with pytest.raises(UnknownBidder):
            client.who("nobody")
        for bidder, node in (("x y", "a"), ("x\N{EURO SIGN}", "a"), ("x", "a\N{EURO SIGN}"), ("x", "a" * 120)):
            with pytest.raises(ValueError):
                client.bid(bidder, node, 1)
        assert client.show().round == 2
        with pytest.raises(ValueError):
            client.send([Bid("x", "a", 1, ticket=3)])


def test_calls_of_asyncio_are_in_flight_together() -> None:
    async def talk(port: int) -> None:
        async with AsyncClient(ADDRESS, port, timeout=20) as client:
            found = await asyncio.gather(*(client.bid(bid.bidder, bid.node, bid.amount) for bid in ROUND))
            assert found == [Accepted(number) for number in range(1, 5)]
            with pytest.raises(TooLow):
                await client.bid("z", "d", 90)
            with pytest.raises(ValueError):
                await client.bid("z\N{EURO SIGN}", "d", 90)
            assert (await client.show()).count == 4
            assert await client.close() == Accepted(5)
            assert (await client.show()).revenue == 500
            assert (await client.node("all")).minimum == 550
            assert (await client.who("w")).eligibility == 25
            assert await client.stage() == Accepted(6)
            with pytest.raises(NoWaiverLeft):
                await client.waive("x")

    with Listener(Fake()) as listener:
        asyncio.run(talk(listener.port))


def test_a_call_without_an_answer_ends_in_its_time() -> None:
    fake = Fake()
    fake.faults.extend([Fault(2, SILENT)] * 50)
    with Listener(fake) as listener, Client(ADDRESS, listener.port, timeout=1, silence=30) as client:
        begun = time.monotonic()
        with pytest.raises(Unanswered) as found:
            client.bid("x", "a", 100)
        assert found.value.may_count
        assert 0.9 < time.monotonic() - begun < 10


def test_a_call_of_asyncio_without_an_answer_ends_in_its_time() -> None:
    async def talk(port: int) -> None:
        async with AsyncClient(ADDRESS, port, timeout=1, silence=30) as client:
            with pytest.raises(Unanswered) as found:
                await client.bid("x", "a", 100)
            assert found.value.may_count

    fake = Fake()
    fake.faults.extend([Fault(2, SILENT)] * 50)
    with Listener(fake) as listener:
        asyncio.run(talk(listener.port))


def nobodys_port() -> int:
    with socket.socket() as probe:
        probe.bind((ADDRESS, 0))
        return int(probe.getsockname()[1])


def test_where_nobody_listens_a_call_says_so_in_its_time() -> None:
    with Client(ADDRESS, nobodys_port(), timeout=0.7) as client, pytest.raises(Unanswered) as found:
        client.bid("x", "a", 100)
    assert not found.value.may_count
    assert "refused" in found.value.reason


def test_addresses_are_tried_in_turn() -> None:
    async def talk(port: int) -> None:
        async with AsyncClient(ADDRESS, nobodys_port(), others=[(ADDRESS, nobodys_port()), (ADDRESS, port)], timeout=20) as client:
            assert await client.bid("y", "b", 150) == Accepted(2)

    with Listener(Fake()) as listener:
        with Client(ADDRESS, nobodys_port(), others=[(ADDRESS, nobodys_port()), (ADDRESS, listener.port)], timeout=20) as client:
            assert client.bid("x", "a", 100) == Accepted(1)
        asyncio.run(talk(listener.port))


@pytest.mark.parametrize("is_async", [False, True])
def test_no_client_talks_to_itself(is_async: bool, monkeypatch: pytest.MonkeyPatch) -> None:
    """If a port makes the system connect it to itself, it is refused, and not taken for an auction."""

    def leads_to_itself(connection: socket.socket, *_: object) -> tuple[str, int]:
        return connection.getsockname()  # type: ignore[no-any-return]

    with Listener(Fake()) as listener:
        if not is_async:
            monkeypatch.setattr(socket.socket, "getpeername", leads_to_itself)
            with Client(ADDRESS, listener.port, timeout=0.5) as client, pytest.raises(Unanswered, match="to itself"):
                client.show()
            return
        monkeypatch.setattr("asyncio.trsock.TransportSocket.getpeername", leads_to_itself)

        async def talk() -> None:
            async with AsyncClient(ADDRESS, listener.port, timeout=0.5) as client:
                with pytest.raises(Unanswered, match="to itself"):
                    await client.show()

        asyncio.run(talk())


def test_a_connection_that_ended_while_nothing_was_asked_is_made_anew() -> None:
    fake = Fake()
    fake.faults.append(Fault(3, BEFORE))
    with Listener(fake) as listener, Client(ADDRESS, listener.port, timeout=20) as client:
        client.show()
        client.show()
        assert client.show().count == 0
        assert fake.connections == 2


def test_several_threads_may_call() -> None:
    outcomes: list[Accepted] = []
    with Listener(Fake()) as listener, Client(ADDRESS, listener.port, timeout=20) as client:
        threads = [threading.Thread(target=lambda bid=bid: outcomes.append(client.bid(bid.bidder, bid.node, bid.amount))) for bid in MANY]
        for thread in threads:
            thread.start()
        for thread in threads:
            thread.join(20)
    assert sorted(outcome.number or 0 for outcome in outcomes) == [1, 2, 3, 4, 5, 6]


def test_what_was_ended_answers_no_call() -> None:
    client = Client(ADDRESS, 5000)
    client.end()
    client.end()
    with pytest.raises(Ended):
        client.show()


def test_an_end_of_a_client_of_asyncio_ends_its_calls() -> None:
    async def talk(port: int) -> None:
        client = AsyncClient(ADDRESS, port, timeout=20)
        call = asyncio.create_task(client.show())
        await asyncio.sleep(0.1)
        await client.end()
        with pytest.raises(Ended):
            await call
        with pytest.raises(Ended):
            await client.show()

    fake = Fake()
    fake.faults.append(Fault(1, SILENT))
    with Listener(fake) as listener:
        asyncio.run(talk(listener.port))


def test_following_tells_each_change_and_ends_with_the_auction() -> None:
    fake = Fake()
    with Listener(fake) as listener, Client(ADDRESS, listener.port, timeout=20) as client:
        views = client.follow(["a", "all"], ["x"], every=0.01)
        first = next(views)
        assert (first.shown.count, first.nodes["a"].high, first.whos["x"].activity) == (0, 0, 0)
        fake.judge("BID x 1 a 100")
        assert (seen := next(views)).whos["x"].activity == 10
        assert seen.nodes == first.nodes
        fake.judge("CLOSE 1")
        assert next(views).nodes["a"].high == 100
        fake.judge("CLOSE 2")
        assert next(views).shown.is_over
        assert list(views) == []


def test_following_by_asyncio() -> None:
    fake = Fake()

    async def talk(port: int) -> list[int]:
        async with AsyncClient(ADDRESS, port, timeout=20) as client:
            seen = []
            async for view in client.follow(["a"], every=0.01):
                seen.append(view.shown.count)
                fake.judge(["BID x 1 a 100", "CLOSE 1", "CLOSE 2", "SHOW"][len(seen) - 1])
            return seen

    with Listener(fake) as listener:
        assert asyncio.run(talk(listener.port)) == [0, 1, 2, 3]


@pytest.mark.parametrize("words", [{"token": "short"}, {"token": "a b" * 10}, {"plain": True, "ca": "x.pem"}, {"others": [("h", 0)]}])
def test_words_that_do_not_fit_are_refused_at_once(words: dict[str, object]) -> None:
    with pytest.raises(ValueError):
        Client("localhost", 6000, **words)  # type: ignore[arg-type]


@pytest.mark.parametrize("host", ["", "a..b", "a" * 70, "a\0b", "\ud800"])
@pytest.mark.parametrize("kind", [Client, AsyncClient])
def test_a_host_that_cannot_be_one_is_refused_at_once(kind: type[Client] | type[AsyncClient], host: str) -> None:
    """Before, the first call raised an error of Python's, or waited for all of its time."""
    for words in ((host, 6000, ()), ("localhost", 6000, ((host, 6000),))):
        with pytest.raises(ValueError, match="is no host"):
            kind(words[0], words[1], others=words[2])


def test_a_refusal_has_a_class() -> None:
    assert issubclass(TooLow, Refused) and isinstance(refusal(22), TooLow)
    assert issubclass(NotWelcome, HpbError)


def test_a_call_that_is_interrupted_takes_no_answer_of_the_next_one(monkeypatch: pytest.MonkeyPatch) -> None:
    """By Ctrl-C before its line is sent: the next answer isn't for it. Before, the next call waited until the connection counted as lost."""
    with Listener(Fake()) as listener, Client(ADDRESS, listener.port, timeout=20, silence=20) as client:
        assert client.show().count == 0
        with monkeypatch.context() as patch, pytest.raises(KeyboardInterrupt):
            patch.setattr(client, "_send", lambda data: (_ for _ in ()).throw(KeyboardInterrupt))
            client.who("x")
        begun = time.monotonic()
        assert client.who("y").bidder == "y" and client.bid("x", "a", 100) == Accepted(1)
        assert time.monotonic() - begun < 10
