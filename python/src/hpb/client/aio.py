"""The client for asyncio: calls that wait at the same time are in flight together."""
import asyncio
import contextlib
import os
import ssl
from collections.abc import AsyncIterator, Sequence
from types import TracebackType

from hpb.client.calls import Calls, answers_of, check_commands, news_in, outcome, told
from hpb.client.core import Done, Send
from hpb.client.following import View, look
from hpb.client.outcomes import Ended, Outcome, Unanswered
from hpb.client.reaching import not_trusted, set_up, settings
from hpb.lines import (
    Accepted, Answer, AskNode, AskWho, Bid, Close, Command, NodeShown, Question, Show, Shown, Stage, Waive, WhoShown,
)
from hpb.refusals import HpbError
from hpb.rounds import AskFront, Agreed, News, Previewed, Prospect, ReadUpTo, Schedule

_MOST_BYTES = 65536


class AsyncClient:
    """The client for asyncio: the same words and calls as `hpb.Client`, but each call is awaited.

        async with AsyncClient("localhost", 6000, token=token, ca="front.pem") as client:
            await asyncio.gather(client.bid("x", "a", 100), client.bid("x", "b", 150))

    It belongs to the loop in which it is first called. A cancelled call is given up: its command may be accepted or not. A file of
    tickets is synced within the loop.
    """

    def __init__(
        self,
        host: str,
        port: int,
        *,
        others: Sequence[tuple[str, int]] = (),
        token: str | None = None,
        ca: str | os.PathLike[str] | None = None,
        plain: bool = False,
        tickets: str | os.PathLike[str] | None = None,
        timeout: float = 150.0,
        silence: float = 60.0,
        mock: bool | None = None,
    ) -> None:
        self._calls = Calls(settings(host, port, tuple(others), token, ca, plain, timeout, silence, mock), tickets)
        self._writer: asyncio.StreamWriter | None = None
        self._task: asyncio.Task[None] | None = None
        self._wanted = asyncio.Event()
        self._waiting: dict[int, asyncio.Future[Answer | HpbError]] = {}
        self._has_ended = False
        self._heard = 0.0

    async def __aenter__(self) -> "AsyncClient":
        return self

    async def __aexit__(self, kind: type[BaseException] | None, value: BaseException | None, trace: TracebackType | None) -> None:
        await self.end()

    async def end(self) -> None:
        """Ends the connection and the use of the file of tickets. Calls that still wait raise `Ended`."""
        if self._has_ended:
            return
        self._has_ended = True
        if self._task:
            self._task.cancel()
            with contextlib.suppress(asyncio.CancelledError):
                await self._task
        self._close_connection()
        self._calls.core.fail(Ended("this client was ended"))
        self._perform()
        if self._calls.tickets:
            self._calls.tickets.close()

    def is_mock(self) -> bool | None:
        """Whether the front said that its auction is a mock; None before its first greeting."""
        return self._calls.core.is_mock

    # Commands.

    async def bid(self, bidder: str, node: str, amount: int, round: int | None = None) -> Accepted:
        """Bids `amount` dollars for a node; refused by 11 to 15 and 20 to 26. A front takes it in that `round` alone, if one is given."""
        return told((await self._asked([Bid(bidder, node, amount, round=round)]))[0], Accepted)

    async def waive(self, bidder: str, round: int | None = None) -> Accepted:
        """Sends a waiver, which keeps the bidder's eligibility at the close of this round; refused by 11, 13 to 15, 20, 26, 28 and 29."""
        return told((await self._asked([Waive(bidder, round=round)]))[0], Accepted)

    async def close(self, ending: bool = False) -> Accepted:
        """Closes the round, as the auctioneer; refused by 13 to 15, 20 and 26.

        If nobody bid or waived in the round, this ends the auction for good. A front refuses that by `end`, unless it is `ending`.
        """
        return told((await self._asked([Close(ending=ending)]))[0], Accepted)

    async def stage(self) -> Accepted:
        """Moves on to the next stage percentage, as the auctioneer; refused by 13 to 15, 20, 26, and by 27 after the last stage."""
        return told((await self._asked([Stage()]))[0], Accepted)

    async def send(self, commands: Sequence[Command]) -> list[Outcome]:
        """Sends commands ahead, up to 16 in flight, and returns the outcome of each in order. No refusal is raised.

        A refused command doesn't hold up the others: later ones of the same bidder get new tickets. If a command has a ticket
        already, ValueError is raised.
        """
        check_commands(commands)
        return [outcome(answer) for answer in await self._asked(commands)]

    # Questions.

    async def show(self) -> Shown:
        """The state of the auction."""
        return told((await self._asked([Show()]))[0], Shown)

    async def node(self, node: str) -> NodeShown:
        """A node as of the last close; refused by 12."""
        return told((await self._asked([AskNode(node)]))[0], NodeShown)

    async def who(self, bidder: str) -> WhoShown:
        """A bidder as of now; refused by 11."""
        return told((await self._asked([AskWho(bidder)]))[0], WhoShown)

    # Lines of a front whose rounds keep time.

    async def schedule(self) -> Schedule:
        """The state of the round clock."""
        return told((await self._asked([AskFront("SCHEDULE")]))[0], Schedule)

    async def news(self, after: int | None = None) -> News | None:
        """The first news behind a number, or behind those that this name has read; None if there is nothing new."""
        return news_in((await self._asked([AskFront("EVENT" if after is None else f"EVENT {after}")]))[0])

    async def read(self, upto: int) -> ReadUpTo:
        """Says that all news up to this number were read."""
        return told((await self._asked([AskFront(f"READ {upto}")]))[0], ReadUpTo)

    async def tell(self, line: str) -> News:
        """Changes the clock, or announces something, as the auctioneer: `OPEN 3 UNTIL 10:30`, `EXTEND 3 10:45`, `PAUSE`, `RESUME`,
        `SAY all we begin at ten`. Comes to the news of it.
        """
        return told((await self._asked([AskFront(line)]))[0], News)

    async def preview(self) -> Previewed:
        """What a close would do now, in sum, as the auctioneer."""
        return told((await self._asked([AskFront("PREVIEW")]))[0], Previewed)

    async def prospect(self, bidder: str) -> Prospect:
        """What a close would do to a bidder now, as the auctioneer."""
        return told((await self._asked([AskFront(f"PREVIEW {bidder}")]))[0], Prospect)

    async def agree(self, ticket: int) -> Agreed:
        """Agrees that the close with this ticket ends the auction, as a second name."""
        return told((await self._asked([AskFront(f"AGREE {ticket}")]))[0], Agreed)

    async def follow(self, nodes: Sequence[str] = (), bidders: Sequence[str] = (), every: float = 1.0) -> AsyncIterator[View]:
        """Views of these nodes and bidders: one at once, and another whenever the auction has changed, up to its end.

        It asks SHOW every `every` seconds, and the rest only if that answer has changed.
        """
        view: View | None = None
        while view is None or not view.shown.is_over:
            if found := await self._looked(nodes, bidders, view):
                view = found
                yield view
            else:
                await asyncio.sleep(every)

    async def earlier(self) -> list[tuple[Command, bool]]:
        """The commands that an earlier client with the same file of tickets got no answer to, and whether each was accepted."""
        return self._calls.earlier(await self._asked(self._calls.earlier_questions()))

    async def _looked(self, nodes: Sequence[str], bidders: Sequence[str], before: View | None) -> View | None:
        looking = look(nodes, bidders, before)
        questions = next(looking)
        try:
            while True:
                questions = looking.send(answers_of(await self._asked(questions)))
        except StopIteration as found:
            view: View | None = found.value
            return view

    # Lines as they stand.

    def name(self) -> str:
        """The name by which a front knows the token; empty before its first welcome."""
        return self._calls.core.name

    async def ask(self, lines: Sequence[str]) -> list[Answer | HpbError]:
        """The outcome of each of these lines, in their order. No refusal is raised.

        A line without an answer is sent again as it stands, over the next connection. So a command needs its own ticket, by which it counts
        once. Don't send commands of the same sender by other calls meanwhile.
        """
        return await self._asked([AskFront(line) for line in lines])

    # Input and output.

    async def _asked(self, lines: Sequence[Command | Question]) -> list[Answer | HpbError]:
        """The outcomes of lines, in their order. A line without an outcome in time is given up, and gets `Unanswered`."""
        if self._has_ended:
            raise Ended("this client was ended")
        loop = asyncio.get_running_loop()
        if not self._calls.core.waits_for_answer:
            self._heard = loop.time()
        numbers = self._calls.ask(lines)
        futures = {number: loop.create_future() for number in numbers}
        self._waiting.update(futures)
        self._perform()
        self._wanted.set()
        if self._task is None:
            self._task = loop.create_task(self._drive())
        try:
            if futures:
                await asyncio.wait(futures.values(), timeout=self._calls.settings.timeout)
            return [self._outcome(number) for number in numbers]
        finally:
            for number in numbers:
                if self._waiting.pop(number, None):
                    self._calls.give_up(number)

    def _outcome(self, number: int) -> Answer | HpbError:
        future = self._waiting.pop(number)
        return future.result() if future.done() else Unanswered(self._calls.reason, self._calls.give_up(number))

    async def _drive(self) -> None:
        """Keeps a connection up as long as something waits for one."""
        while True:
            await self._wanted.wait()
            self._wanted.clear()
            while self._calls.core.wants_connection:
                try:
                    reader = await self._connect()
                    await self._read(reader)
                except OSError as fault:
                    self._lose(str(fault) or type(fault).__name__)
                self._perform()

    async def _connect(self) -> asyncio.StreamReader:
        known = self._calls.settings
        address, pause = self._calls.turns.next()
        await asyncio.sleep(pause)
        try:
            async with asyncio.timeout(known.connecting):
                name = address[0] if known.context else None
                reader, self._writer = await asyncio.open_connection(*address, ssl=known.context, server_hostname=name)
        except ssl.SSLCertVerificationError as fault:
            self._calls.core.fail(not_trusted(fault, address[0]))
            raise
        set_up(self._writer.get_extra_info("socket"))
        self._heard = asyncio.get_running_loop().time()
        self._calls.connected()
        self._perform()
        return reader

    async def _read(self, reader: asyncio.StreamReader) -> None:
        """Reads until the connection ends. If the other end owes an answer and stays silent for too long, the connection counts as lost."""
        loop, silence = asyncio.get_running_loop(), self._calls.settings.silence
        while self._writer is not None:
            begun = self._heard if self._calls.core.waits_for_answer else loop.time()
            try:
                async with asyncio.timeout_at(begun + silence):
                    data = await reader.read(_MOST_BYTES)
            except TimeoutError:
                if self._calls.core.waits_for_answer and loop.time() >= self._heard + silence:
                    raise TimeoutError(f"no answer for {silence:g} seconds") from None
                continue
            if not data:
                raise ConnectionError("the other end ends the connection")
            self._heard = loop.time()
            self._calls.received(data)
            self._perform()

    def _perform(self) -> None:
        """Carries out the core's effects until there are none left."""
        while effects := self._calls.core.effects():
            for effect in effects:
                if isinstance(effect, Send):
                    if self._writer is not None:
                        self._writer.write(effect.data)
                elif isinstance(effect, Done):
                    self._settle(effect)
                elif not self._calls.happened(effect):
                    self._close_connection()

    def _settle(self, effect: Done) -> None:
        self._calls.happened(effect)
        if effect.number in self._calls.outcomes:
            outcome_of = self._calls.take(effect.number)
            future = self._waiting.get(effect.number)
            if future and not future.done():
                future.set_result(outcome_of)

    def _lose(self, reason: str) -> None:
        self._close_connection()
        self._calls.lost(reason)

    def _close_connection(self) -> None:
        if self._writer is not None:
            self._writer.close()
            self._writer = None
