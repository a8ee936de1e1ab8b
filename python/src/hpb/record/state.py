"""The state of an auction by the entries of its record: everything that a front needs from it at its start (docs/FRONT.md)."""
from dataclasses import dataclass, field
from typing import Any

from hpb.front.rights import sender_and_ticket
from hpb.record.entries import FIRST_FORM, FORM, Damaged, Entry
from hpb.record.news import CLOCK, MET, READ, SAID, STATE_FIELDS, UNVEILED, News, kept, news_of

# The key for the auctioneer among the senders in a segment's first entry.
AUCTIONEER = ""


@dataclass
class State:
    """The state of an auction by its record.

    `count` is how many commands were accepted, `used` the last ticket of each sender, and `foreign` how many commands didn't come through
    the front. `open` has the lines without an answer that were sent to the server, each under the number of its entry. Only records of the
    first form have such entries; the second form keeps these lines in the file beside the record. `lines` are the commands of the open
    round; they are None if an older program began the segment, or if commands came from elsewhere. `clock` is the state of the round clock,
    and is empty if there never was one. `news` are the last ones, `told` how many there were for all and for each name, and `read` how many
    each name has read. `order` has the bidders in the order of their first high bids, if pseudonyms need it, and `is_unveiled` says whether
    all was unveiled.
    """

    definition: Any = None
    form: int = FORM
    segment: int = 1
    names: dict[str, Any] = field(default_factory=dict)
    count: int = 0
    used: dict[str | None, int] = field(default_factory=dict)
    foreign: int = 0
    open: dict[int, tuple[str, bytes]] = field(default_factory=dict)
    lines: list[bytes] | None = field(default_factory=list[bytes])
    clock: Entry = field(default_factory=dict)
    news: list[News] = field(default_factory=list)
    told: dict[str, int] = field(default_factory=dict)
    read: dict[str, int] = field(default_factory=dict)
    order: list[str] = field(default_factory=list)
    is_unveiled: bool = False
    is_sealed: bool = False

    def take(self, entry: Entry) -> None:
        """Takes the next entry. A LookupError, TypeError, ValueError or AttributeError says that no front writes such an entry."""
        kind = entry["kind"]
        if kind == "begin":
            self.begin(entry)
        elif kind == "started":
            self.names = entry["names"]
        elif kind == "asked":
            self.open[entry["entry"]] = (entry["name"], entry["line"].encode("latin-1"))
        elif kind == "foreign":
            self.count = entry["to"]
            self.foreign += entry["to"] - entry["from"] + 1
            self.lines = None
        elif kind == "accepted":
            self.accept(entry["line"].encode("latin-1"))
        elif kind == "sealed":
            self.is_sealed = True
        elif kind == MET:
            self.order = list(entry["order"])
        elif kind in (CLOCK, SAID, READ, UNVEILED):
            self.take_of_rounds(entry)
        if "asked" in entry:
            self.open.pop(entry["asked"], None)

    def accept(self, line: bytes) -> None:
        self.count += 1
        sender, ticket = sender_and_ticket(line)
        self.used[sender] = max(self.used.get(sender, 0), ticket)
        if line.startswith(b"CLOSE "):
            self.lines = []
        elif self.lines is not None:
            self.lines.append(line)

    def take_of_rounds(self, entry: Entry) -> None:
        """Takes an entry about the round clock or the news."""
        if entry["kind"] == CLOCK:
            self.clock = {name: entry[name] for name in STATE_FIELDS}
        elif entry["kind"] == READ:
            self.read[entry["name"]] = entry["upto"]
        elif entry["kind"] == UNVEILED:
            self.is_unveiled = True
        if news := news_of(entry):
            self.news = kept(self.news, news)
            self.told[news.to] = self.told.get(news.to, 0) + 1

    def begin(self, entry: Entry) -> None:
        """Takes the first entry of a segment, which has the whole state before it."""
        if entry["form"] not in (FIRST_FORM, FORM):
            raise Damaged(f"it is of form {entry['form']!r}, and this program knows {FIRST_FORM} and {FORM}")
        self.form, self.definition, self.is_sealed = entry["form"], entry["definition"], False
        if self.form != FIRST_FORM:
            head = entry["state"]
            if "lines" in head:
                self.lines = [line.encode("latin-1") for line in head["lines"]]
            elif self.count != head["count"]:
                # An older program began this segment, and the segments before it weren't read.
                self.lines = None
            self.segment, self.names, self.count, self.foreign = entry["segment"], head["names"], head["count"], head["foreign"]
            self.used = {sender or None: ticket for sender, ticket in head["used"].items()}
            self.open = {number: (name, line.encode("latin-1")) for number, name, line in head["open"]}
            rounds = head.get("rounds", {"clock": {}, "news": [], "told": {}, "read": {}})
            self.clock, self.told, self.read = rounds["clock"], dict(rounds["told"]), dict(rounds["read"])
            self.news = [News(*news) for news in rounds["news"]]
            veil = head.get("information", {"order": [], "unveiled": False})
            self.order, self.is_unveiled = list(veil["order"]), veil["unveiled"]

    def head(self) -> Entry:
        """The state as the first entry of the next segment has it."""
        lines = {} if self.lines is None else {"lines": [line.decode("latin-1") for line in self.lines]}
        rounds = {"clock": self.clock, "news": [list(news[:4]) for news in self.news], "told": dict(self.told), "read": dict(self.read)}
        veil = {"order": list(self.order), "unveiled": self.is_unveiled}
        return {
            "names": self.names,
            "count": self.count,
            "foreign": self.foreign,
            "used": {sender or AUCTIONEER: ticket for sender, ticket in self.used.items()},
            "open": [[number, name, line.decode("latin-1")] for number, (name, line) in self.open.items()],
            **lines,
            **({"rounds": rounds} if any(rounds.values()) else {}),
            **({"information": veil} if any(veil.values()) else {}),
        }
