"""What happens to a front. A connection is a number that is never used again; a session is a place, from 0.

Events of which each command has one are named tuples, which cost less to make than other values.
"""
from collections.abc import Mapping
from dataclasses import dataclass, field
from typing import NamedTuple, TypeAlias

from hpb.front.limits import Limits
from hpb.front.tokens import Tokens
from hpb.record.entries import Entry, Place
from hpb.record.news import News

# Connections.


@dataclass(frozen=True, slots=True)
class Came:
    """A connection was taken. `network` stands for the client's address: connections with the same `network` count as one address."""

    connection: int
    peer: str
    network: str


@dataclass(frozen=True, slots=True)
class Opened:
    """The connection can be written to. Over TLS, this is after the handshake."""

    connection: int


class Line(NamedTuple):
    """The line came that the connection was allowed to send."""

    connection: int
    line: bytes


@dataclass(frozen=True, slots=True)
class TooLong:
    """The line is longer than it may be. `beginning` has the most bytes that it may have."""

    connection: int
    beginning: bytes


@dataclass(frozen=True, slots=True)
class LinesEnded:
    """The client sends no more. `rest` are its bytes after the last LF."""

    connection: int
    rest: bytes


@dataclass(frozen=True, slots=True)
class Stuffed:
    """The client has stopped reading its answers, or reads them again."""

    connection: int
    is_full: bool


@dataclass(frozen=True, slots=True)
class Waited:
    """The time of a `Wait` is over."""

    connection: int


@dataclass(frozen=True, slots=True)
class Gone:
    """The connection has ended."""

    connection: int
    why: str


OfClient: TypeAlias = Came | Opened | Line | TooLong | LinesEnded | Stuffed | Waited | Gone

# The server.


@dataclass(frozen=True, slots=True)
class SessionOpened:
    """A session with a new server has answered SHOW with `shown`."""

    shown: bytes


@dataclass(frozen=True, slots=True)
class ServerUp:
    """All sessions with the new server are open."""


@dataclass(frozen=True, slots=True)
class ServerFailed:
    """A new server didn't come up. `is_final` says that another start can't help."""

    why: str
    is_final: bool


@dataclass(frozen=True, slots=True)
class ServerGone:
    """A server that was up has ended. `how` says how it ended, and is empty if nobody knows."""

    how: str


class Answered(NamedTuple):
    """The server has answered the line of a session."""

    session: int
    answer: bytes


@dataclass(frozen=True, slots=True)
class ServerEnded:
    """The server has ended after an `EndServer`. `words` is its output, and `status` its exit status, if it ended by itself."""

    words: str
    status: int | None


OfServer: TypeAlias = SessionOpened | ServerUp | ServerFailed | ServerGone | Answered | ServerEnded

# The record.


@dataclass(frozen=True, slots=True)
class Left:
    """A command that the last front may have sent to the server. In a record of the first form, `asked` is the number of the entry that has
    it."""

    name: str
    line: bytes
    asked: int = 0


@dataclass(frozen=True)
class SealOnDisk:
    """A seal that is on the disk, by its number. `round` is the round that it seals, or 0 at a front's end, and `count` the number of commands by
    then. `line` has the statement and the signature. Without a stamp `stamped_at` is empty."""

    number: int
    round: int
    count: int
    line: str
    stamped_at: str = ""


@dataclass(frozen=True, slots=True)
class RecordOpened:
    """The record is open, and this is its state. `left` are the commands without an answer, in the record and beside it. `lines` are the
    commands of the open round, if they are known. `clock` is the last state of the round clock, if there was one. `order` has the bidders in
    the order of their first high bids, as far as pseudonyms need it, and `is_unveiled` says whether all was unveiled. If the front has seals,
    `closed` is the number of the last CLOSE, `sealed` that of the last one with a seal, and `seal` the last seal."""

    count: int
    used: Mapping[str | None, int]
    foreign: int
    left: tuple[Left, ...]
    place: Place
    lines: tuple[bytes, ...] | None = None
    clock: Entry = field(default_factory=dict)
    news: tuple[News, ...] = ()
    told: Mapping[str, int] = field(default_factory=dict)
    read: Mapping[str, int] = field(default_factory=dict)
    order: tuple[str, ...] = ()
    is_unveiled: bool = False
    closed: int = 0
    sealed: int = 0
    seal: SealOnDisk | None = None


class Synced(NamedTuple):
    """So many more of the written entries are on the disk, in their order. `place` is behind the last one. `seals` are those among them."""

    entries: int
    place: Place
    seals: tuple[SealOnDisk, ...] = ()


class StandsBeside(NamedTuple):
    """The commands in these places beside the record are on the disk."""

    places: tuple[int, ...]


@dataclass(frozen=True, slots=True)
class BesideEmptied:
    """All places beside the record are empty."""


@dataclass(frozen=True, slots=True)
class AskFreeze:
    """Commands are to stand still, so that file and record can be copied. `Frozen` follows, unless the front ends first."""


@dataclass(frozen=True, slots=True)
class Thaw:
    """Commands may go on."""


OfRecord: TypeAlias = RecordOpened | Synced | StandsBeside | BesideEmptied | AskFreeze | Thaw

# Seals.


@dataclass(frozen=True, slots=True)
class LookedUp:
    """A seal or a receipt for a session. `of_command` is the line of the command whose receipt it is. Without a seal `text` is empty."""

    session: int
    text: str = ""
    of_command: bytes = b""


@dataclass(frozen=True, slots=True)
class Stamped:
    """A stamp was given for the seal with this number: its time, and its token in base64."""

    number: int
    time: str
    token: str


OfSeals: TypeAlias = LookedUp | Stamped

# All else.


@dataclass(frozen=True, slots=True)
class BoardUp:
    """The page can be opened. `line` says at which address."""

    line: str


@dataclass(frozen=True, slots=True)
class BoardAsks:
    """The page asks the server a question."""

    number: int
    line: bytes


@dataclass(frozen=True, slots=True)
class Unpublished:
    """The line is the first one that standard output lost."""

    line: str


@dataclass(frozen=True, slots=True)
class Reloaded:
    """Limits and tokens were read again."""

    limits: Limits
    tokens: Tokens


@dataclass(frozen=True, slots=True)
class Tick:
    """Time has passed."""


@dataclass(frozen=True, slots=True)
class ClockRead:
    """The clocks were read, both at one moment: UTC and the monotonic clock, in seconds. `is_synchronised` is what the system says of UTC."""

    monotonic: float
    utc: float
    is_synchronised: bool


@dataclass(frozen=True, slots=True)
class Stop:
    """The front is to end."""


@dataclass(frozen=True, slots=True)
class Failed:
    """The front can't go on."""

    why: str


Event: TypeAlias = OfClient | OfServer | OfRecord | OfSeals | BoardUp | BoardAsks | Unpublished | Reloaded | Tick | ClockRead | Stop | Failed
