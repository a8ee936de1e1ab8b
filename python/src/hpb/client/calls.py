"""The part that both clients share: their settings, the core, and how the caller sees an outcome."""
import os
from collections.abc import Sequence
from typing import TypeVar

from hpb.client.core import Core, Done, Drop, Effect, Keep, check_line
from hpb.client.outcomes import Outcome, TicketsNotKept
from hpb.client.reaching import Settings, Turns
from hpb.client.tickets import TicketFile, sender_of
from hpb.lines import Accepted, Answer, AskWho, Command, NoAnswer, NodeShown, Question, Show, Shown, WhoShown
from hpb.refusals import FrontRefused, HpbError, Refused
from hpb.rounds import Agreed, News, NoNews, Previewed, Prospect, ReadUpTo, Schedule

Told = TypeVar("Told", Accepted, Shown, NodeShown, WhoShown, Schedule, News, NoNews, ReadUpTo, Previewed, Prospect, Agreed)


class Calls:
    """A core with its file of tickets, its addresses, and the outcomes that have come. A shell does the reading and writing."""

    def __init__(self, known: Settings, tickets: str | os.PathLike[str] | None) -> None:
        self.settings = known
        self.turns = Turns(known.addresses)
        self.tickets = TicketFile(tickets) if tickets is not None else None
        self.core = Core(known.token, self.tickets.known() if self.tickets else (), known.is_mock)
        self.outcomes: dict[int, Answer | HpbError] = {}
        self.wanted: set[int] = set()
        self.reason = ""
        self._has_heard = False

    def ask(self, lines: Sequence[Command | Question]) -> list[int]:
        """Asks for lines, and keeps their outcomes until they are taken. If any can't be a line, ValueError is raised and none is
        asked for.
        """
        for line in lines:
            check_line(line)
        numbers = [self.core.ask(line) for line in lines]
        self.wanted.update(numbers)
        return numbers

    def give_up(self, number: int) -> bool:
        """The caller no longer wants this line's outcome. Returns whether its command may count."""
        self.wanted.discard(number)
        self.outcomes.pop(number, None)
        return self.core.abandon(number)

    def take(self, number: int) -> Answer | HpbError:
        """Hands out an outcome that has come."""
        self.wanted.discard(number)
        return self.outcomes.pop(number)

    def happened(self, effect: Effect) -> bool:
        """Handles an effect other than bytes for the connection. Returns whether the connection can still be used.

        Nothing is sent before its note is durable. If a note can't be made durable, everything that waits ends with
        `TicketsNotKept`.
        """
        match effect:
            case Keep(note, is_urgent) if self.tickets:
                try:
                    self.tickets.note(note, is_urgent)
                except OSError as fault:
                    self.core.fail(TicketsNotKept(f"{self.tickets.path} can't be written: {fault.strerror}"))
                    return False
            case Done(number, outcome) if number in self.wanted:
                self.outcomes[number] = outcome
                self.turns.answered()
            case Drop(reason):
                self.reason = reason
                self.turns.failed()
                return False
        return True

    def connected(self) -> None:
        """A connection was made."""
        self._has_heard = False
        self.core.connected()

    def received(self, data: bytes) -> None:
        """Bytes came over the connection."""
        self._has_heard = True
        self.core.received(data)

    def lost(self, reason: str) -> None:
        """The connection ended, or couldn't be made. If its address said nothing, the next address is tried."""
        self.reason = reason
        if not self._has_heard:
            self.turns.failed()
        self._has_heard = False
        self.core.lost()

    def earlier_questions(self) -> list[Question]:
        """The questions whose answers show which commands of an earlier client were accepted."""
        commands = self.tickets.unanswered if self.tickets else ()
        return [Show() if (bidder := sender_of(command)) is None else AskWho(bidder) for command in commands]

    def earlier(self, answers: Sequence[Answer | HpbError]) -> list[tuple[Command, bool]]:
        """The unanswered commands of an earlier client, and whether each was accepted: it was if its ticket is used.

        This assumes that nobody else uses that sender's tickets.
        """
        kept: list[tuple[Command, bool]] = []
        for command, answer in zip(self.tickets.unanswered if self.tickets else (), answers):
            used = told(answer, Shown).next_ticket - 1 if sender_of(command) is None else told(answer, WhoShown).ticket
            kept.append((command, command.ticket <= used))
        return kept


def told(answer: Answer | HpbError, kind: type[Told]) -> Told:
    """The answer, if it is of the kind that was asked for. A refusal is raised; any other answer raises `NoAnswer`."""
    if isinstance(answer, HpbError):
        raise answer
    if not isinstance(answer, kind):
        raise NoAnswer(f"this is no answer to that line: {answer}")
    return answer


def news_in(answer: Answer | HpbError) -> News | None:
    """The news of an answer to EVENT, or None if there is nothing new."""
    if isinstance(answer, NoNews):
        return None
    return told(answer, News)


def answers_of(found: Sequence[Answer | HpbError]) -> list[Answer]:
    """All answers, refusals included. An outcome that isn't an answer is raised."""
    answers: list[Answer] = []
    for answer in found:
        if isinstance(answer, HpbError) and not isinstance(answer, Refused | FrontRefused):
            raise answer
        answers.append(answer)
    return answers


def outcome(answer: Answer | HpbError) -> Outcome:
    """The outcome of a command."""
    return answer if isinstance(answer, HpbError) else told(answer, Accepted)


def check_commands(commands: Sequence[Command]) -> None:
    """Raises ValueError if a command has a ticket: the client gives the tickets."""
    for command in commands:
        if command.ticket:
            raise ValueError(f"{command} has a ticket, which is the client's to give")
