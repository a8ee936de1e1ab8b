"""The client that blocks: each call returns when its answer is there."""
import os
import select
import socket
import ssl
import threading
import time
from collections.abc import Iterator, Sequence
from types import TracebackType

from hpb.client.calls import Calls, answers_of, check_commands, news_in, outcome, told
from hpb.client.core import Send
from hpb.client.following import View, look
from hpb.client.outcomes import Ended, Outcome, Unanswered
from hpb.client.reaching import not_trusted, set_up, settings
from hpb.lines import (
    Accepted, Answer, AskNode, AskWho, Bid, Close, Command, NodeShown, Question, Show, Shown, Stage, Waive, WhoShown,
)
from hpb.refusals import HpbError
from hpb.rounds import AskFront, Agreed, News, Previewed, Prospect, ReadUpTo, Schedule

_MOST_BYTES = 65536


class Client:
    """A client of `hpb serve`, or of a front before it.

        with Client("localhost", 6000, token=token, ca="front.pem") as client:
            client.bid("x", "a", 100)

    It connects with the first call, and again if its connection is lost. Lines without an answer are then sent again, and each
    command still counts once. Several threads may call.

    - `others`: more addresses of the same auction, tried in turn.
    - `tickets`: a file of its own, by which it knows after a crash which commands it had sent.
    - `timeout`: how many seconds a call waits in all.
    - `silence`: after how many seconds without an answer a connection counts as lost.
    - `mock`: True is for a mock alone, and False for an auction that is none. If it isn't given, the first greeting counts.

    Each call may raise:

    - a refusal (`hpb.Refused`, `hpb.FrontRefused`);
    - `Unanswered`, if no answer came in time;
    - `NotWelcome`, if the token or the certificate is wrong, or if the auction is a mock and shouldn't be, or the other way round;
    - ValueError, if a word or a number can't be sent.
    """

    def __init__(
        self,
        host: str,
        port: int,
        *,
        others: Sequence[tuple[str, int]] = (),
        token: str | None = None,
        ca: str | os.PathLike[str] | None = None,
        plain: bool = False,
        tickets: str | os.PathLike[str] | None = None,
        timeout: float = 150.0,
        silence: float = 60.0,
        mock: bool | None = None,
    ) -> None:
        self._calls = Calls(settings(host, port, tuple(others), token, ca, plain, timeout, silence, mock), tickets)
        self._connection: socket.socket | None = None
        self._has_ended = False
        self._heard = 0.0
        self._lock = threading.Lock()

    def __enter__(self) -> "Client":
        return self

    def __exit__(self, kind: type[BaseException] | None, value: BaseException | None, trace: TracebackType | None) -> None:
        self.end()

    def end(self) -> None:
        """Ends the connection and the use of the file of tickets. Later calls raise `Ended`."""
        with self._lock:
            self._lose("it was ended here")
            if self._calls.tickets and not self._has_ended:
                self._calls.tickets.close()
            self._has_ended = True

    def is_mock(self) -> bool | None:
        """Whether the front said that its auction is a mock; None before its first greeting."""
        return self._calls.core.is_mock

    # Commands.

    def bid(self, bidder: str, node: str, amount: int, round: int | None = None) -> Accepted:
        """Bids `amount` dollars for a node; refused by 11 to 15 and 20 to 26. A front takes it in that `round` alone, if one is given."""
        return told(self._asked([Bid(bidder, node, amount, round=round)])[0], Accepted)

    def waive(self, bidder: str, round: int | None = None) -> Accepted:
        """Sends a waiver, which keeps the bidder's eligibility at the close of this round; refused by 11, 13 to 15, 20, 26, 28 and 29."""
        return told(self._asked([Waive(bidder, round=round)])[0], Accepted)

    def close(self, ending: bool = False) -> Accepted:
        """Closes the round, as the auctioneer; refused by 13 to 15, 20 and 26.

        If nobody bid or waived in the round, this ends the auction for good. A front refuses that by `end`, unless it is `ending`.
        """
        return told(self._asked([Close(ending=ending)])[0], Accepted)

    def stage(self) -> Accepted:
        """Moves on to the next stage percentage, as the auctioneer; refused by 13 to 15, 20, 26, and by 27 after the last stage."""
        return told(self._asked([Stage()])[0], Accepted)

    def send(self, commands: Sequence[Command]) -> list[Outcome]:
        """Sends commands ahead, up to 16 in flight, and returns the outcome of each in order. No refusal is raised.

        A refused command doesn't hold up the others: later ones of the same bidder get new tickets. If a command has a ticket
        already, ValueError is raised.
        """
        check_commands(commands)
        return [outcome(answer) for answer in self._asked(commands)]

    # Questions.

    def show(self) -> Shown:
        """The state of the auction."""
        return told(self._asked([Show()])[0], Shown)

    def node(self, node: str) -> NodeShown:
        """A node as of the last close; refused by 12."""
        return told(self._asked([AskNode(node)])[0], NodeShown)

    def who(self, bidder: str) -> WhoShown:
        """A bidder as of now; refused by 11."""
        return told(self._asked([AskWho(bidder)])[0], WhoShown)

    # Lines of a front whose rounds keep time.

    def schedule(self) -> Schedule:
        """The state of the round clock."""
        return told(self._asked([AskFront("SCHEDULE")])[0], Schedule)

    def news(self, after: int | None = None) -> News | None:
        """The first news behind a number, or behind those that this name has read; None if there is nothing new."""
        return news_in(self._asked([AskFront("EVENT" if after is None else f"EVENT {after}")])[0])

    def read(self, upto: int) -> ReadUpTo:
        """Says that all news up to this number were read."""
        return told(self._asked([AskFront(f"READ {upto}")])[0], ReadUpTo)

    def tell(self, line: str) -> News:
        """Changes the clock, or announces something, as the auctioneer: `OPEN 3 UNTIL 10:30`, `EXTEND 3 10:45`, `PAUSE`, `RESUME`,
        `SAY all we begin at ten`. Comes to the news of it.
        """
        return told(self._asked([AskFront(line)])[0], News)

    def preview(self) -> Previewed:
        """What a close would do now, in sum, as the auctioneer."""
        return told(self._asked([AskFront("PREVIEW")])[0], Previewed)

    def prospect(self, bidder: str) -> Prospect:
        """What a close would do to a bidder now, as the auctioneer."""
        return told(self._asked([AskFront(f"PREVIEW {bidder}")])[0], Prospect)

    def agree(self, ticket: int) -> Agreed:
        """Agrees that the close with this ticket ends the auction, as a second name."""
        return told(self._asked([AskFront(f"AGREE {ticket}")])[0], Agreed)

    def follow(self, nodes: Sequence[str] = (), bidders: Sequence[str] = (), every: float = 1.0) -> Iterator[View]:
        """Views of these nodes and bidders: one at once, and another whenever the auction has changed, up to its end.

        It asks SHOW every `every` seconds, and the rest only if that answer has changed.
        """
        view: View | None = None
        while view is None or not view.shown.is_over:
            if found := self._looked(nodes, bidders, view):
                view = found
                yield view
            else:
                time.sleep(every)

    def earlier(self) -> list[tuple[Command, bool]]:
        """The commands that an earlier client with the same file of tickets got no answer to, and whether each was accepted."""
        return self._calls.earlier(self._asked(self._calls.earlier_questions()))

    def _looked(self, nodes: Sequence[str], bidders: Sequence[str], before: View | None) -> View | None:
        looking = look(nodes, bidders, before)
        questions = next(looking)
        try:
            while True:
                questions = looking.send(answers_of(self._asked(questions)))
        except StopIteration as found:
            view: View | None = found.value
            return view

    # Lines as they stand.

    def name(self) -> str:
        """The name by which a front knows the token; empty before its first welcome."""
        return self._calls.core.name

    def ask(self, lines: Sequence[str]) -> list[Answer | HpbError]:
        """The outcome of each of these lines, in their order. No refusal is raised.

        A line without an answer is sent again as it stands, over the next connection. So a command needs its own ticket, by which it counts
        once. Don't send commands of the same sender by other calls meanwhile.
        """
        return self._asked([AskFront(line) for line in lines])

    # Input and output.

    def _asked(self, lines: Sequence[Command | Question]) -> list[Answer | HpbError]:
        """The outcomes of lines, in their order. A line without an outcome in time is given up, and gets `Unanswered`."""
        with self._lock:
            if self._has_ended:
                raise Ended("this client was ended")
            end = time.monotonic() + self._calls.settings.timeout
            self._look_for_end()
            numbers = self._calls.ask(lines)
            try:
                self._perform()
                while any(number not in self._calls.outcomes for number in numbers) and time.monotonic() < end:
                    self._go_on(end)
                    self._perform()
            except BaseException:
                # Nobody waits for these lines any more, whatever ended the waiting. Nobody knows how much of them was sent, either.
                for number in numbers:
                    self._calls.give_up(number)
                self._lose("a call was interrupted")
                raise
            return [self._outcome(number) for number in numbers]

    def _outcome(self, number: int) -> Answer | HpbError:
        if number in self._calls.outcomes:
            return self._calls.take(number)
        return Unanswered(self._calls.reason, self._calls.give_up(number))

    def _look_for_end(self) -> None:
        """A connection that wasn't used for long may have ended meanwhile."""
        if self._connection is None or self._calls.core.waits_for_answer:
            return
        self._heard = time.monotonic()
        looking = select.poll()
        looking.register(self._connection, select.POLLIN)
        if looking.poll(0):
            self._lose("it ended while nothing was asked")

    def _go_on(self, end: float) -> None:
        """Connects or reads, but doesn't wait beyond `end`."""
        try:
            if self._connection is None:
                self._connect(end)
            else:
                self._read(self._connection, end)
        except OSError as fault:
            self._lose(str(fault) or type(fault).__name__)

    def _connect(self, end: float) -> None:
        known = self._calls.settings
        address, pause = self._calls.turns.next()
        time.sleep(max(0.0, min(pause, end - time.monotonic())))
        seconds = max(0.01, min(known.connecting, end - time.monotonic()))
        connection = socket.create_connection(address, seconds)
        try:
            set_up(connection)
            if known.context:
                connection = known.context.wrap_socket(connection, server_hostname=address[0])
        except ssl.SSLCertVerificationError as fault:
            connection.close()
            self._calls.core.fail(not_trusted(fault, address[0]))
            return
        except BaseException:
            connection.close()
            raise
        self._connection, self._heard = connection, time.monotonic()
        self._calls.connected()

    def _perform(self) -> None:
        """Carries out the core's effects until there are none left."""
        while effects := self._calls.core.effects():
            for effect in effects:
                if isinstance(effect, Send):
                    self._send(effect.data)
                elif not self._calls.happened(effect):
                    self._close_connection()

    def _send(self, data: bytes) -> None:
        """If the bytes can't be sent, the connection counts as lost, and its lines go out again over the next one."""
        if self._connection is None:
            return
        try:
            self._connection.settimeout(self._calls.settings.silence)
            self._connection.sendall(data)
        except OSError as fault:
            self._lose(str(fault))

    def _read(self, connection: socket.socket, end: float) -> None:
        silence, now = self._calls.settings.silence, time.monotonic()
        if now >= self._heard + silence:
            raise TimeoutError(f"no answer for {silence:g} seconds")
        connection.settimeout(max(0.001, min(end, self._heard + silence) - now))
        try:
            data = connection.recv(_MOST_BYTES)
        except TimeoutError:
            return
        if not data:
            raise ConnectionError("the other end ends the connection")
        self._heard = time.monotonic()
        self._calls.received(data)

    def _lose(self, reason: str) -> None:
        self._close_connection()
        self._calls.lost(reason)

    def _close_connection(self) -> None:
        if self._connection is not None:
            self._connection.close()
            self._connection = None

