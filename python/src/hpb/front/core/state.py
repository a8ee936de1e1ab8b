"""The state of a front, made of values. Of these a step changes its own copies of connections, names, sessions and the ledger, and nobody
changes any once the step is over."""
import enum
from collections.abc import Mapping, Sequence
from dataclasses import dataclass, field

from hpb.front.core.books import Books
from hpb.front.core.clock import Closing, Plan, Rounds
from hpb.front.core.events import Left, SealOnDisk
from hpb.front.core.information import Information, Veil, Viewer, prefix_for, viewer_of
from hpb.front.core.ledger import Ledger
from hpb.front.core.values import changed
from hpb.front.limits import BURST_SECONDS, Limits
from hpb.front.rights import AUCTIONEER, Role
from hpb.front.tokens import Token, Tokens
from hpb.record.entries import Entry
from hpb.record.news import News
from hpb.rules.mock import is_mock
from hpb.rules.tree import Tree

# The first pause before a server that didn't come up is started again, in seconds. Each further pause is twice as long, up to a limit.
FIRST_PAUSE = 0.05


class Phase(enum.IntEnum):
    """The phases of a front, in their order. Before `OPEN` nobody is let in."""

    RECORD = enum.auto()
    ASKING = enum.auto()
    LOOKING = enum.auto()
    NOTING = enum.auto()
    EMPTYING = enum.auto()
    STARTED = enum.auto()
    SHOWING = enum.auto()
    BOARD = enum.auto()
    OPEN = enum.auto()
    # The end: the front answers the lines that it has, writes the record's last entry, and ends the server.
    ANSWERING = enum.auto()
    CLOSING = enum.auto()
    ENDING = enum.auto()
    ENDED = enum.auto()


class Freeze(enum.Enum):
    """Whether commands wait because somebody copies file and record. A freeze is `WANTED` until all that was begun is on the disk."""

    NONE = enum.auto()
    WANTED = enum.auto()
    STANDS = enum.auto()


@dataclass(frozen=True)
class Setting:
    """The parts of a front that stay the same while it runs. `sessions` counts those of names; a board has one more. `record` is the name
    of the record's file. `starts_server` says whether the front starts the server itself. `plan` is that of the rounds, if they keep
    time. `information` has the rules on what names may know, if there are any. `has_seals` says whether closes are sealed."""

    tree: Tree
    roles: Mapping[str, Role]
    sessions: int
    has_board: bool = False
    starts_server: bool = True
    may_be_foreign: bool = False
    record: str = "the record"
    address: str = ""
    plan: Plan | None = None
    closing: Closing = Closing()
    information: Information | None = None
    has_seals: bool = False

    # The auctioneer's name, how pseudonyms begin, and whether the definition is that of a mock.
    desk: str = field(init=False)
    prefix: str = field(init=False)
    is_mock: bool = field(init=False)

    def __post_init__(self) -> None:
        object.__setattr__(self, "desk", next(name for name, role in self.roles.items() if role.kind == AUCTIONEER))
        object.__setattr__(self, "prefix", prefix_for(self.tree.bidders))
        object.__setattr__(self, "is_mock", is_mock(self.tree.definition))


class Going(enum.Enum):
    """Whether a connection stays, leaves once its lines are answered, or is closed. Nothing is written to a closed one."""

    STAYS = enum.auto()
    LEAVES = enum.auto()
    CLOSED = enum.auto()


@dataclass
class Item:
    """A waiting line, with its connection and token, which isn't changed any more once it waits. If the front refuses the line, `refusal` is the word that says why. `number` counts
    lines in the order in which they were taken, and `round` is the round that was open then, or 0 if none was."""

    connection: int
    token: Token
    line: bytes
    refusal: str | None = None
    number: int = 0
    round: int = 0


NO_ITEM = Item(0, Token("", b""), b"")


def item_of(connection: int, token: Token, line: bytes, refusal: str | None = None) -> Item:
    """A line that came. A copy with other fields costs much less than a new value."""
    return changed(NO_ITEM, connection=connection, token=token, line=line, refusal=refusal)


@dataclass
class Connection:
    """A connection. Until its first line has come, it has no token, and counts as unknown."""

    peer: str
    network: str
    seen: float
    is_open: bool = False
    token: Token | None = None
    # How many of its lines have no answer yet, and how many were taken in all.
    waiting: int = 0
    taken: int = 0
    # Whether it may send a line; its line that waits for the name's rate, if there is one; and whether it has ended its lines.
    may_send: bool = False
    held: Item | None = None
    has_ended: bool = False
    # Whether it has stopped reading its answers; and whether its token was removed, so that its lines are dropped.
    is_full: bool = False
    is_barred: bool = False
    going: Going = Going.STAYS
    why: str = ""


@dataclass
class Name:
    """A name of the configuration: its role, its session, its connections and its waiting lines. `credit` is how many lines it might send
    at once at the time `seen`."""

    role: Role
    session: int
    credit: float
    seen: float
    connections: tuple[int, ...] = ()
    items: tuple[Item, ...] = ()


class For(enum.Enum):
    """The purpose of a session's line: a client's line, the result of a close, its seal, the front's start, or a question of the page."""

    LINE = enum.auto()
    CLOSE = enum.auto()
    SEAL = enum.auto()
    START = enum.auto()
    BOARD = enum.auto()


class Stage(enum.Enum):
    """How far a session's line has come. A command waits beside the record, then for the server, then for its entry; other lines skip the
    first. A line about seals is looked up instead."""

    FREE = enum.auto()
    LOOKED_UP = enum.auto()
    BESIDE = enum.auto()
    TOLD = enum.auto()
    ANSWERED = enum.auto()


@dataclass
class Session:
    """A session with the server, which works on one line at a time. `turns` are the names with waiting lines, in the order of their
    turns. A CLOSE by the clock has no `item`."""

    turns: tuple[str, ...] = ()
    stage: Stage = Stage.FREE
    purpose: For = For.LINE
    line: bytes = b""
    # Whether a server had the line. If not, the line waits for one.
    is_sent: bool = False
    name: str = ""
    item: Item | None = None
    # The command's place beside the record. Once it is known: the answer, and the entry that has to be on the disk before the answer
    # leaves.
    beside: int | None = None
    answer: bytes = b""
    entry: int | None = None


# A session without a line.
FREE = Session()


@dataclass(frozen=True)
class Server:
    """The server: whether it is up, and since when. `starts` counts its starts since it last answered. `retry_at` is the time of the next
    start, and `pause` the next pause. After a restart the server is up once it has answered `questions`; `answers` are those so far."""

    is_up: bool = False
    since: float = 0.0
    starts: int = 0
    retry_at: float | None = None
    pause: float = FIRST_PAUSE
    questions: tuple[bytes, ...] = ()
    answers: tuple[str, ...] = ()


@dataclass(frozen=True)
class Finding:
    """How far the search for the last front's commands has come: the questions still to ask, the answers, and the commands still to look
    for."""

    questions: tuple[bytes, ...] = ()
    answers: tuple[str, ...] = ()
    recorded: Mapping[str | None, int] = field(default_factory=dict)
    foreign: int = 0
    used: Mapping[str | None, int] = field(default_factory=dict)
    left: tuple[Left, ...] = ()
    found: Mapping[int, Left] = field(default_factory=dict)
    others: tuple[tuple[str, Entry], ...] = ()


@dataclass(frozen=True)
class Sealing:
    """The seals of a record. `closed` is the number of the last CLOSE, and `sealed` that of the last one whose seal is on the disk. `last` is the
    last seal there. `answers` are those about the state after the last close so far. `entry` is that of the seal on its way to the disk, counted
    since the front's start."""

    closed: int = 0
    sealed: int = 0
    last: SealOnDisk | None = None
    answers: tuple[str, ...] = ()
    entry: int | None = None


@dataclass(frozen=True)
class Front:
    """The whole state of a front. `time` is the seconds that have passed, and never goes back. `clock` is the last reading of the clock,
    which may."""

    setting: Setting
    limits: Limits
    tokens: Tokens
    clock: float
    names: Mapping[str, Name]
    sessions: Sequence[Session]
    time: float = 0.0
    phase: Phase = Phase.RECORD
    connections: Mapping[int, Connection] = field(default_factory=dict)
    unknown: tuple[int, ...] = ()
    ledger: Ledger = field(default_factory=Ledger)
    server: Server = Server()
    finding: Finding = Finding()
    questions: tuple[tuple[int, bytes], ...] = ()
    # When the auction was over; when the front's end began; and how many lines had no answer in time.
    over_since: float | None = None
    stopped_at: float = 0.0
    left: int = 0
    # How many lines were taken. Below: the rounds; the commands of the open one; the last news; how many there were for all, and for each name;
    # and how many each name has read.
    taken: int = 0
    # Whether a CLOSE held lines of other sessions.
    is_held: bool = False
    freeze: Freeze = Freeze.NONE
    rounds: Rounds = Rounds()
    books: Books = Books()
    news: tuple[News, ...] = ()
    told: Mapping[str, int] = field(default_factory=dict)
    read: Mapping[str, int] = field(default_factory=dict)
    veil: Veil = Veil()
    sealing: Sealing = Sealing()

    @property
    def waiting(self) -> int:
        """How many lines of welcomed connections have no answer yet."""
        return sum(self.connections[one].waiting for name in self.names.values() for one in name.connections)

    def viewer(self, name: str) -> Viewer:
        """The viewer of a name, with its rights now."""
        setting = self.setting
        return viewer_of(setting.information, changed(self.veil, is_lifted=self.is_unveiled), name, setting.roles[name], setting.prefix)

    @property
    def is_unveiled(self) -> bool:
        """Whether the record has on its disk that all is unveiled."""
        return self.veil.is_lifted and self.veil.entry <= self.ledger.synced


def new_front(setting: Setting, limits: Limits, tokens: Tokens, clock: float) -> Front:
    """A front that knows nothing yet of its record and its server."""
    credit = float(BURST_SECONDS * limits.lines_per_second)
    names = {name: Name(role, place % setting.sessions, credit, 0.0) for place, (name, role) in enumerate(setting.roles.items())}
    sessions = (FREE,) * (setting.sessions + setting.has_board)
    return Front(setting, limits, tokens, clock, names, sessions)
