"""The effects of an event: the shells round the front's core carry them out, in this order.

Effects of which each command has one are named tuples, which cost less to make than other values.
"""
from collections.abc import Mapping
from dataclasses import dataclass
from typing import NamedTuple, TypeAlias

from hpb.record.entries import Entry, Place

Field: TypeAlias = str | int | None

# Connections.


@dataclass(frozen=True, slots=True)
class Admit:
    """Takes connections from now on."""


@dataclass(frozen=True, slots=True)
class Shut:
    """Takes no more connections."""


class Take(NamedTuple):
    """Lets the connection send one more line, of at most so many bytes, or end its lines. No more is read before this."""

    connection: int
    most_bytes: int


@dataclass(frozen=True, slots=True)
class Wait:
    """Asks for `Waited` after so many seconds."""

    connection: int
    seconds: float


class Answer(NamedTuple):
    """Sends a line to a client."""

    connection: int
    line: bytes


@dataclass(frozen=True, slots=True)
class End:
    """Ends the connection once everything written to it is sent, or after some seconds."""

    connection: int


@dataclass(frozen=True, slots=True)
class Abort:
    """Ends the connection at once."""

    connection: int


# The server.


@dataclass(frozen=True, slots=True)
class StartServer:
    """Starts a server. If it comes up, `SessionOpened` follows for each session, then `ServerUp`, and `ServerGone` once it is lost. If not,
    `ServerFailed` follows."""


@dataclass(frozen=True, slots=True)
class DropServer:
    """Gives the server up. `ServerGone` follows."""


@dataclass(frozen=True, slots=True)
class EndServer:
    """Ends the server: `ServerEnded` follows within so many seconds."""

    seconds: float


class Tell(NamedTuple):
    """Sends a line to the server. `Answered` follows, or `ServerGone` if the server ends before its answer."""

    session: int
    line: bytes


# The record.


class Write(NamedTuple):
    """Writes an entry into the record. A later `Synced` says that it is on the disk."""

    kind: str
    fields: Entry


class PutBeside(NamedTuple):
    """Writes a command into a place beside the record. A later `StandsBeside` says that it is on the disk."""

    place: int
    name: str
    line: bytes


@dataclass(frozen=True, slots=True)
class FreeBeside:
    """Empties a place beside the record. Nothing waits until this is on the disk."""

    place: int


@dataclass(frozen=True, slots=True)
class EmptyBeside:
    """Empties all places beside the record. `BesideEmptied` follows."""


@dataclass(frozen=True, slots=True)
class Frozen:
    """Commands stand still since an `AskFreeze`: file and record have this `count` of them, and the record is on the disk up to this place."""

    count: int
    place: Place


# Seals.


@dataclass(frozen=True, slots=True)
class LookUp:
    """Looks up a seal (`SEAL`) or the receipt of a command (`RECEIPT`) by its number, for a session. `LookedUp` follows."""

    session: int
    what: str
    number: int


# All else.


@dataclass(frozen=True, slots=True)
class StartBoard:
    """Starts the page. `BoardUp` or `Failed` follows."""


@dataclass(frozen=True, slots=True)
class AnswerBoard:
    """Answers a question of the page."""

    number: int
    line: bytes


@dataclass(frozen=True, slots=True)
class Wake:
    """Asks for a `Tick` after so many seconds at most."""

    seconds: float


@dataclass(frozen=True, slots=True)
class Publish:
    """Writes a line on standard output. `Unpublished` follows if it is the first one that can't be written."""

    text: str


@dataclass(frozen=True, slots=True)
class Say:
    """Writes a line on standard error."""

    text: str


@dataclass(frozen=True, slots=True)
class Note:
    """Writes a line into the log."""

    kind: str
    fields: Mapping[str, Field]


@dataclass(frozen=True, slots=True)
class MustEnd:
    """From now on the process ends within its limit of time, whatever happens."""


@dataclass(frozen=True, slots=True)
class Finish:
    """Ends the front. `why` is the reason why it can't go on, and is empty if all is in order."""

    why: str


OnClient: TypeAlias = Admit | Shut | Take | Wait | Answer | End | Abort
OnServer: TypeAlias = StartServer | DropServer | EndServer | Tell
OnRecord: TypeAlias = Write | PutBeside | FreeBeside | EmptyBeside | Frozen
Effect: TypeAlias = OnClient | OnServer | OnRecord | LookUp | StartBoard | AnswerBoard | Wake | Publish | Say | Note | MustEnd | Finish
