"""The lines of docs/PROTOCOL.md: commands, questions and answers, read and written.

`format_line(Bid("x", "a", 100, ticket=1))` is `"BID x 1 a 100"`, and `parse_line` turns it back. Amounts are whole dollars, and
tickets are numbers from 1. A ticket of 0 means that there is none yet: it fits the grammar, and the auction refuses it by 13. Lines
are texts without their LF. A byte beyond ASCII is the character with that number.
"""
import dataclasses
import re
from dataclasses import dataclass, field
from typing import TypeAlias, TypeVar

from hpb.limits import MOST_AMOUNT, MOST_COMMANDS, MOST_LINE_BYTES, MOST_TICKET, NAME
from hpb.refusals import BadLine, FrontRefused, HpbError, Refused
from hpb.rounds import AskFront, FrontAnswer, format_front_answer, parse_front_answer

# Commands.


@dataclass(frozen=True, slots=True)
class Bid:
    """A bid: `bidder` offers `amount` dollars for `node`. A front takes it in this `round` alone, if one is given."""

    bidder: str
    node: str
    amount: int
    ticket: int = 0
    round: int | None = field(default=None, repr=False)


@dataclass(frozen=True, slots=True)
class Waive:
    """A waiver: the bidder keeps its eligibility at the close of this round. A front takes it in this `round` alone, if one is given."""

    bidder: str
    ticket: int = 0
    round: int | None = field(default=None, repr=False)


@dataclass(frozen=True, slots=True)
class Close:
    """The end of the round. If nobody bid or waived in the round, it ends the auction for good. A front refuses that by `end`, unless the
    close is `ending`.
    """

    ticket: int = 0
    ending: bool = field(default=False, repr=False)


@dataclass(frozen=True, slots=True)
class Stage:
    """The next stage percentage."""

    ticket: int = 0


Command: TypeAlias = Bid | Waive | Close | Stage
AnyCommand = TypeVar("AnyCommand", bound=Command)

# Questions.


@dataclass(frozen=True, slots=True)
class Show:
    """Asks for the state of the auction; `Shown` answers."""


@dataclass(frozen=True, slots=True)
class AskNode:
    """Asks for a node as of the last close; `NodeShown` answers."""

    node: str


@dataclass(frozen=True, slots=True)
class AskWho:
    """Asks for a bidder as of now; `WhoShown` answers."""

    bidder: str


Question: TypeAlias = Show | AskNode | AskWho | AskFront
Line: TypeAlias = Command | Question
# A line that `hpb` itself takes.
LineOfServer: TypeAlias = Command | Show | AskNode | AskWho
# The kinds of questions, for `isinstance`.
QUESTIONS = (Show, AskNode, AskWho, AskFront)

# Answers.


@dataclass(frozen=True, slots=True)
class Accepted:
    """`OK number`: this was the `number`-th command to be accepted, 1 to 1,000,000. A repeat gets the number of the first time.

    The number is None if it isn't known, though the command is known to be accepted: before its line was sent again, a later
    command of its sender was accepted.
    """

    number: int | None


@dataclass(frozen=True, slots=True)
class Shown:
    """The answer to `SHOW`: the round from 1, the stage from 1 to 4, the revenue of the last close in dollars, and how many commands
    were accepted.
    """

    round: int
    stage: int
    is_over: bool
    revenue: int
    count: int

    @property
    def next_ticket(self) -> int:
        """The ticket of the auctioneer's next command."""
        return self.round + self.stage - 1 + self.is_over


@dataclass(frozen=True, slots=True)
class NodeShown:
    """The answer to `NODE`, for closed rounds, in dollars. If nobody has bid, `bidder` is None and `high` 0."""

    name: str
    high: int
    bidder: str | None
    price: int
    minimum: int
    wins: bool


@dataclass(frozen=True, slots=True)
class WhoShown:
    """The answer to `WHO`: bidding units, the last used ticket, and the waivers left, which are None if the definition has none."""

    bidder: str
    eligibility: int
    activity: int
    ticket: int
    waivers: int | None = None

    @property
    def waivers_left(self) -> int:
        """How many waivers are left; 0 if the definition has none."""
        return self.waivers or 0


Answer: TypeAlias = Accepted | Shown | NodeShown | WhoShown | Refused | FrontRefused | FrontAnswer


class NoAnswer(HpbError):
    """A line that is no answer of docs/PROTOCOL.md, so the other end is neither `hpb` nor a front before it."""


def numbered(command: AnyCommand, ticket: int) -> AnyCommand:
    """The same command with another ticket."""
    return dataclasses.replace(command, ticket=ticket)


def format_line(line: Line) -> str:
    """The text of a command or a question. ValueError is raised if a name has a space, an LF or a character that is no byte, or if a number
    is out of its range. So it is if the line gets too long.
    """
    text = _text_of(line)
    if len(text) > MOST_LINE_BYTES:
        raise ValueError(f"a line has {MOST_LINE_BYTES} bytes at most, and this would have {len(text)}")
    return text


def _text_of(line: Line) -> str:
    match line:
        case Bid(bidder, node, amount, ticket, of):
            return f"{_in(of)}BID {_word(bidder)} {_number(ticket, MOST_TICKET)} {_word(node)} {_number(amount, MOST_AMOUNT)}"
        case Waive(bidder, ticket, of):
            return f"{_in(of)}WAIVE {_word(bidder)} {_number(ticket, MOST_TICKET)}"
        case Close(ticket, ending):
            return f"CLOSE {_number(ticket, MOST_TICKET)}{' ENDING' if ending else ''}"
        case Stage(ticket):
            return f"STAGE {_number(ticket, MOST_TICKET)}"
        case Show():
            return "SHOW"
        case AskNode(node):
            return f"NODE {_word(node)}"
        case AskWho(bidder):
            return f"WHO {_word(bidder)}"
        case AskFront(text) if "\n" not in text:
            return text
    raise ValueError(f"{line!r} can't be a line")


def _in(number: int | None) -> str:
    """The prefix of a command that is bound to a round."""
    return "" if number is None else f"IN {_number(number, MOST_COMMANDS)} "


def _word(text: str) -> str:
    if not _WORD.fullmatch(text):
        raise ValueError(f"{text!r} can't be a word of a line")
    return text


def _number(value: int, most: int) -> str:
    if isinstance(value, bool) or not isinstance(value, int) or not 0 <= value <= most:
        raise ValueError(f"{value!r} is no number from 0 to {most}")
    return str(value)


# Each character is a byte of the line.
_WORD = re.compile(r"[\0-\t\x0b-\x1f!-\xff]+")
_DIGITS = re.compile(r"0|[1-9][0-9]*", re.ASCII)


def parse_line(text: str) -> LineOfServer:
    """The command or question in a line. Refused by `BadLine` (10), if it isn't of the grammar."""
    if len(text) > MOST_LINE_BYTES:
        raise BadLine(f"more than {MOST_LINE_BYTES} bytes")
    match text.split(" "):
        case ["BID", bidder, ticket, node, amount] if bidder and node:
            return Bid(bidder, node, _read(amount, MOST_AMOUNT), _read(ticket, MOST_TICKET))
        case ["WAIVE", bidder, ticket] if bidder:
            return Waive(bidder, _read(ticket, MOST_TICKET))
        case ["CLOSE", ticket]:
            return Close(_read(ticket, MOST_TICKET))
        case ["STAGE", ticket]:
            return Stage(_read(ticket, MOST_TICKET))
        case ["SHOW"]:
            return Show()
        case ["NODE", node] if node:
            return AskNode(node)
        case ["WHO", bidder] if bidder:
            return AskWho(bidder)
    raise BadLine


def parse_command_of_front(text: str) -> LineOfServer:
    """The same for a command as a front takes it: `IN 3 BID x 1 a 100` and `CLOSE 4 ENDING` are two."""
    words = text.split(" ", 2)
    if words[0] == "IN" and len(words) == 3:
        bound = parse_line(words[2])
        if isinstance(bound, Bid | Waive):
            return dataclasses.replace(bound, round=_read(words[1], MOST_COMMANDS))
        raise BadLine
    command = parse_line(text.removesuffix(" ENDING"))
    if text.endswith(" ENDING"):
        if not isinstance(command, Close):
            raise BadLine
        return Close(command.ticket, ending=True)
    return command


def _read(word: str, most: int) -> int:
    if not _DIGITS.fullmatch(word) or len(word) > len(str(most)) or int(word) > most:
        raise BadLine(f"{word!r} is no number from 0 to {most}")
    return int(word)


_WHOLE = r"(0|[1-9][0-9]{0,19})"
_NAME = NAME.pattern
_SHOWN = re.compile(rf"ROUND {_WHOLE} STAGE ([1-4]) (OPEN|CLOSED) REVENUE {_WHOLE} COUNT {_WHOLE}")
_NODE = re.compile(rf"NODE ({_NAME}) HIGH {_WHOLE} (-|{_NAME}) PRICE {_WHOLE} MIN {_WHOLE} WIN (yes|no)")
_WHO = re.compile(rf"WHO ({_NAME}) ELIGIBILITY {_WHOLE} ACTIVITY {_WHOLE} TICKET {_WHOLE}(?: WAIVERS {_WHOLE})?")
_OK = re.compile(r"OK ([1-9][0-9]{0,6})")
_REFUSED = re.compile(r"ERR ([1-9][0-9]) ([a-z]+)")
_FRONT = re.compile(r"ERR front ([a-z]+)")


def parse_answer(text: str) -> Answer:
    """The answer in a line. A refusal is returned, not raised. If the line is no answer at all, `NoAnswer` is raised."""
    if found := _OK.fullmatch(text):
        return _accepted(text, int(found[1]))
    if found := _REFUSED.fullmatch(text):
        return _refused(text, int(found[1]), found[2])
    if found := _SHOWN.fullmatch(text):
        return Shown(int(found[1]), int(found[2]), found[3] == "CLOSED", int(found[4]), int(found[5]))
    if found := _NODE.fullmatch(text):
        bidder = None if found[3] == "-" else found[3]
        return NodeShown(found[1], int(found[2]), bidder, int(found[4]), int(found[5]), found[6] == "yes")
    if found := _WHO.fullmatch(text):
        waivers = None if found[5] is None else int(found[5])
        return WhoShown(found[1], int(found[2]), int(found[3]), int(found[4]), waivers)
    if found := _FRONT.fullmatch(text):
        return FrontRefused(found[1])
    if own := parse_front_answer(text):
        return own
    raise NoAnswer(f"this is no answer of an auction: {text[:100]!r}")


def _accepted(text: str, number: int) -> Accepted:
    if number > MOST_COMMANDS:
        raise NoAnswer(f"there are {MOST_COMMANDS:,} commands at most: {text!r}")
    return Accepted(number)


def _refused(text: str, number: int, word: str) -> Refused:
    kind = Refused.by_number.get(number)
    if kind is None or kind.word != word:
        raise NoAnswer(f"this is no refusal of docs/PROTOCOL.md: {text!r}")
    return kind()


def format_answer(answer: Answer) -> str:
    """The text of an answer. If it is an `Accepted` without its number, ValueError is raised."""
    match answer:
        case Accepted(None):
            raise ValueError("it has no number")
        case Accepted(number):
            return f"OK {number}"
        case Shown(round_, stage, is_over, revenue, count):
            return f"ROUND {round_} STAGE {stage} {'CLOSED' if is_over else 'OPEN'} REVENUE {revenue} COUNT {count}"
        case NodeShown(name, high, bidder, price, minimum, wins):
            return f"NODE {name} HIGH {high} {bidder or '-'} PRICE {price} MIN {minimum} WIN {'yes' if wins else 'no'}"
        case WhoShown(bidder, eligibility, activity, ticket, waivers):
            told = "" if waivers is None else f" WAIVERS {waivers}"
            return f"WHO {bidder} ELIGIBILITY {eligibility} ACTIVITY {activity} TICKET {ticket}{told}"
        case Refused() | FrontRefused():
            return answer.line
        case _:
            return format_front_answer(answer)
