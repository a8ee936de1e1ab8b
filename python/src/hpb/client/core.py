"""The client's logic, without input and output: events in, effects out. Shells connect, read, write and wait.

Up to 16 lines are in flight at once. A line gets its ticket when it goes out. A bid may go out behind other bids of its bidder. A
waiver, a close or a stage goes out only while nothing else of its sender is in flight, so that its ticket is certain. After a
refused command, the commands behind it get 15; once all of them have their answers, they get new tickets. After a loss each line
without an answer goes out again under its ticket, so that it counts once.
"""
import itertools
from collections import deque
from collections.abc import Iterable
from dataclasses import dataclass

from hpb.client.outcomes import NotWelcome
from hpb.client.rows import Asked, Row
from hpb.limits import MOST_IN_FLIGHT, MOST_TICKET
from hpb.lines import (
    QUESTIONS, Accepted, Answer, AskWho, Bid, Close, Command, Line, NoAnswer, Question, Show, Shown, Stage, Waive, WhoShown,
    format_answer, format_line, numbered, parse_answer,
)
from hpb.refusals import FrontRefused, HpbError, Refused
from hpb.rounds import MOCK

# After so many refusals of a command's tickets for no known reason, the refusal is its answer: somebody else must be sending under the
# same name.
_MOST_WRONG = 3
# The longest answer of a server has 104 bytes, and that of a front fewer than 256.
_MOST_ANSWER = 256
_FAILED, _GIVEN_UP = (91, 93), 95
_ENDS = ("idle", "many")
_NOT_WELCOME = "token"


@dataclass(frozen=True, slots=True)
class Keep:
    """A note for the file of tickets. An urgent one has to be durable before anything more is sent."""

    note: str
    is_urgent: bool


@dataclass(frozen=True, slots=True)
class Send:
    """Bytes for the connection."""

    data: bytes


@dataclass(frozen=True, slots=True)
class Done:
    """The outcome of a line that was asked for."""

    number: int
    outcome: Answer | HpbError


@dataclass(frozen=True, slots=True)
class Drop:
    """The connection is useless, and has to be closed. With `is_fatal` trying again can't help."""

    reason: str
    is_fatal: bool = False


Effect = Keep | Send | Done | Drop


@dataclass(frozen=True, slots=True)
class _LookUp:
    """A question that the core asks by itself, to find out a row's tickets."""

    row: Row

    @property
    def line(self) -> Question:
        return Show() if self.row.bidder is None else AskWho(self.row.bidder)


def check_line(line: Line) -> None:
    """Raises ValueError if this can't be a line, whatever ticket it gets."""
    format_line(line if isinstance(line, QUESTIONS) else numbered(line, MOST_TICKET))


class Core:
    """A client's state. Report events by `ask`, `abandon`, `connected`, `received` and `lost`; then do what `effects` returns."""

    def __init__(self, token: str | None = None, known: Iterable[tuple[str | None, int]] = (), is_mock: bool | None = None) -> None:
        """`known` has the last used ticket of each bidder, as far as a file of tickets has it. `is_mock` says which kind of auction it has
        to be: a mock, or none. If it is None, the first greeting says it.
        """
        self._token, self.is_mock = token, is_mock
        self._numbers = itertools.count(1)
        self._rows: dict[str | None, Row] = {}
        for bidder, last in known:
            self._rows[bidder] = Row(bidder, last, last + 1)
        self._waiting: deque[Asked] = deque()
        self._flight: deque[Asked | _LookUp] = deque()
        self._effects: list[Effect] = []
        self._rest = b""
        self._is_connected = self._is_ready = False
        # The name that a front knows the token by; empty until it has said so.
        self.name = ""

    # Events.

    def ask(self, line: Line) -> int:
        """Asks for a line, which gets its ticket later. Returns the number that `Done` will bear. If it can't be a line, ValueError
        is raised.
        """
        check_line(line)
        command = line if isinstance(line, QUESTIONS) else numbered(line, 0)
        asked = Asked(next(self._numbers), command)
        self._waiting.append(asked)
        self._pump()
        return asked.number

    def abandon(self, number: int) -> bool:
        """Nobody waits for this line any more. Returns whether its command may count: one that wasn't sent never does."""
        for sent in self._flight:
            if isinstance(sent, Asked) and sent.number == number:
                sent.is_abandoned = True
                return True
        for queue in (self._waiting, *(row.again for row in self._rows.values())):
            for asked in [asked for asked in queue if asked.number == number]:
                queue.remove(asked)
                self._doubt(asked)
                return asked.was_lost
        return False

    def connected(self) -> None:
        """A connection was made."""
        self._is_connected, self._is_ready, self._rest = True, self._token is None, b""
        if self._token is not None:
            self._effects.append(Send(f"TOKEN {self._token}\n".encode("latin-1")))
        self._pump()

    def received(self, data: bytes) -> None:
        """Bytes came over the connection."""
        *lines, self._rest = (self._rest + data).split(b"\n")
        for line in lines:
            if self._is_connected:
                self._take(line.decode("latin-1"))
        if self._is_connected and len(self._rest) > _MOST_ANSWER:
            self._drop("what comes is no answer of an auction")
        self._pump()

    def lost(self) -> None:
        """The connection ended, or isn't trusted any more. Lines without an answer go out again over the next one."""
        if not self._is_connected:
            return
        self._is_connected = self._is_ready = False
        # Bytes that weren't written to this connection yet must not go to the next one.
        self._effects = [effect for effect in self._effects if not isinstance(effect, Send)]
        sent, self._flight = list(self._flight), deque()
        back = [asked for asked in sent if isinstance(asked, Asked) and self._goes_out_again(asked)]
        again: list[Asked] = []
        for row in self._rows.values():
            # In each row, the commands refused by 15 come before those without an answer.
            again += row.again
            row.end_flight()
        self._waiting.extendleft(reversed(again + back))

    def fail(self, error: HpbError) -> None:
        """Ends everything that waits with an error, because nothing more can be done for it."""
        self.lost()
        for asked in self._waiting:
            self._effects.append(Done(asked.number, error))
            self._doubt(asked)
        self._waiting.clear()

    # Effects.

    def effects(self) -> list[Effect]:
        """The effects to carry out now, in this order. Each is returned once."""
        effects, self._effects = self._effects, []
        return effects

    @property
    def wants_connection(self) -> bool:
        """Whether a line waits to be sent or answered."""
        return bool(self._waiting or self._flight)

    @property
    def waits_for_answer(self) -> bool:
        """Whether the other end owes an answer."""
        return self._is_connected and (not self._is_ready or bool(self._flight))

    # Sending.

    def _pump(self) -> None:
        """Sends whatever may go out now, in the order of asking. A row that has to wait holds up only itself."""
        if not self._is_ready:
            return
        data, held = b"", set[str | None]()
        for asked in list(self._waiting):
            if len(self._flight) >= MOST_IN_FLIGHT:
                break
            if isinstance(asked.line, QUESTIONS):
                data += self._sent(asked)
                continue
            row = self._row_of(asked.line)
            if row.bidder in held or not self._is_numbered(row, asked, asked.line):
                held.add(row.bidder)
                data += self._looked_up(row)
                continue
            row.in_flight.append(asked.line)
            data += self._sent(asked)
        if data:
            self._effects.append(Send(data))

    def _is_numbered(self, row: Row, asked: Asked, command: Command) -> bool:
        """Whether a command may go out. It keeps its ticket, or gets the row's next one if that is known."""
        if command.ticket:
            return not row.is_stalled
        if not row.may_send_now(command) or row.next is None:
            return False
        asked.line = numbered(command, row.take_ticket())
        return True

    def _looked_up(self, row: Row) -> bytes:
        """Asks for a row's tickets, if they aren't known and nothing else of the row is in flight."""
        if row.next is not None or row.is_looked_up or row.in_flight or len(self._flight) >= MOST_IN_FLIGHT:
            return b""
        row.is_looked_up = True
        look_up = _LookUp(row)
        self._flight.append(look_up)
        return f"{format_line(look_up.line)}\n".encode("latin-1")

    def _sent(self, asked: Asked) -> bytes:
        self._waiting.remove(asked)
        self._flight.append(asked)
        text = format_line(asked.line)
        if not isinstance(asked.line, QUESTIONS):
            self._effects.append(Keep(f"SENT {text}", is_urgent=True))
        return f"{text}\n".encode("latin-1")

    # Answers.

    def _take(self, text: str) -> None:
        if not self._is_ready:
            self._take_welcome(text)
            return
        try:
            answer = parse_answer(text)
        except NoAnswer as fault:
            self._drop(str(fault))
            return
        if isinstance(answer, FrontRefused) and answer.word in _ENDS:
            self._drop(str(answer))
        elif isinstance(answer, FrontRefused) and answer.word == _NOT_WELCOME:
            # The token went meanwhile. This answers no line: the server may have those that were sent.
            self._end_for_good(f"the token isn't known any more: {text!r}")
        elif isinstance(answer, Refused) and answer.number in (*_FAILED, _GIVEN_UP):
            self._drop(str(answer))
        elif not self._flight:
            self._drop(f"an answer to nothing: {text!r}")
        else:
            self._answered(self._flight.popleft(), answer)

    def _take_welcome(self, text: str) -> None:
        if text.startswith("WELCOME "):
            self.name = text.removeprefix("WELCOME ").removesuffix(f" {MOCK}")
            self._take_kind(text.endswith(f" {MOCK}"))
            return
        is_fatal = text not in [f"ERR front {word}" for word in _ENDS]
        reason = f"the token is answered {text[:100]!r}"
        if is_fatal:
            self._end_for_good(reason)
        else:
            self._drop(reason)

    def _take_kind(self, says_mock: bool) -> None:
        """A line that was meant for a mock never goes to the auction itself, nor the other way round."""
        if self.is_mock not in (None, says_mock):
            self._end_for_good("this front's auction is a mock, and the client's is none" if says_mock else "this front's auction is no mock")
            return
        self._is_ready, self.is_mock = True, says_mock

    def _end_for_good(self, reason: str) -> None:
        self._drop(reason, is_fatal=True)
        self.fail(NotWelcome(reason))

    def _drop(self, reason: str, is_fatal: bool = False) -> None:
        self._effects.append(Drop(reason, is_fatal))
        self.lost()

    def _answered(self, sent: Asked | _LookUp, answer: Answer) -> None:
        if isinstance(sent, _LookUp):
            self._take_look_up(sent.row, answer)
        elif isinstance(sent.line, QUESTIONS):
            self._done(sent, answer)
        else:
            self._take_command(self._row_of(sent.line), sent, sent.line, answer)

    def _take_look_up(self, row: Row, answer: Answer) -> None:
        row.is_looked_up = False
        match answer:
            case WhoShown():
                row.last, row.next = answer.ticket, answer.ticket + 1
            case Shown():
                row.last, row.next = answer.next_ticket - 1, answer.next_ticket
            case Refused() | FrontRefused():
                for asked in [asked for asked in self._waiting if self._is_of(asked, row)]:
                    self._waiting.remove(asked)
                    self._done(asked, answer)
            case _:
                self._drop(f"a question for a ticket is answered {format_answer(answer)!r}")

    def _take_command(self, row: Row, asked: Asked, command: Command, answer: Answer) -> None:
        row.in_flight.pop(0)
        match answer:
            case Accepted():
                row.is_used_up_to(command.ticket)
                self._done(asked, answer)
            case Refused(number=13):
                self._take_old(row, asked, command, answer)
            case Refused(number=14):
                row.forget()
                self._done(asked, answer)
            case Refused(number=15):
                self._take_gap(row, asked, command, answer)
            case Refused() | FrontRefused():
                row.is_stalled = bool(row.in_flight)
                self._done(asked, answer)
            case _:
                self._drop(f"a command is answered {format_answer(answer)!r}")
        if not row.in_flight:
            self._settle(row)

    def _take_old(self, row: Row, asked: Asked, command: Command, answer: Refused) -> None:
        """For 13. If the line was sent before, it was accepted, and so was a later one. Otherwise its ticket was wrong."""
        row.forget()
        if asked.was_lost and not row.was_told_otherwise(command):
            self._done(asked, Accepted(None))
        else:
            self._number_anew(row, asked, command, answer)

    def _take_gap(self, row: Row, asked: Asked, command: Command, answer: Refused) -> None:
        """For 15: a command before it was refused. If none is known to have been, the ticket was wrong."""
        if row.is_stalled:
            self._again(row, asked, command)
        else:
            row.forget()
            self._number_anew(row, asked, command, answer)

    def _number_anew(self, row: Row, asked: Asked, command: Command, answer: Refused) -> None:
        asked.wrong += 1
        row.is_stalled = bool(row.in_flight)
        # The rules count the same bid once, whatever tickets it has. Any other command that was lost might count twice.
        if asked.wrong >= _MOST_WRONG or (asked.was_lost and not isinstance(command, Bid)):
            self._done(asked, answer)
        else:
            self._again(row, asked, command)

    def _again(self, row: Row, asked: Asked, command: Command) -> None:
        asked.line = numbered(command, 0)
        if not asked.is_abandoned:
            row.again.append(asked)
        self._note_done(command, "ERR 15 gap")

    def _settle(self, row: Row) -> None:
        self._waiting.extendleft(reversed(row.again))
        row.settle()

    def _done(self, asked: Asked, answer: Answer) -> None:
        if not isinstance(asked.line, QUESTIONS) and asked.line.ticket:
            told = "OK" if answer == Accepted(None) else format_answer(answer)
            self._note_done(asked.line, told)
        self._effects.append(Done(asked.number, answer))

    def _note_done(self, command: Command, told: str) -> None:
        self._effects.append(Keep(f"DONE {format_line(command)} = {told}", is_urgent=False))

    # Losses.

    def _goes_out_again(self, asked: Asked) -> bool:
        """Whether a lost line is sent again: under its ticket, or under a new one if it would have got 15."""
        if isinstance(asked.line, QUESTIONS):
            return not asked.is_abandoned
        row = self._row_of(asked.line)
        asked.was_lost = True
        row.lost.setdefault(asked.line.ticket, set()).add(asked.line)
        if asked.is_abandoned:
            self._doubt(asked)
        elif row.is_stalled:
            asked.line = numbered(asked.line, 0)
        return not asked.is_abandoned

    def _doubt(self, asked: Asked) -> None:
        """It isn't known whether this command counts, so its row's next ticket isn't known either."""
        if not isinstance(asked.line, QUESTIONS):
            self._row_of(asked.line).forget()

    # Rows.

    def _row_of(self, command: Command) -> Row:
        bidder = None if isinstance(command, Close | Stage) else command.bidder
        return self._rows.setdefault(bidder, Row(bidder))

    def _is_of(self, asked: Asked, row: Row) -> bool:
        return isinstance(asked.line, Bid | Waive | Close | Stage) and self._row_of(asked.line) is row
