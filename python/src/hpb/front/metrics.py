"""What a front shows of itself to Prometheus: counts and times that it gathers as events pass, and the state at the time of a question
(docs/FRONT.md).

It needs the library prometheus_client, and only a configuration with `[metrics]` imports this module.
"""
import asyncio
import collections
import os
import time
from collections.abc import Iterable, Iterator, Mapping, Sequence
from typing import TypeAlias

from prometheus_client import CollectorRegistry, Counter, Histogram, ProcessCollector
from prometheus_client.core import GaugeMetricFamily
from prometheus_client.exposition import choose_encoder

from hpb import __version__ as VERSION
from hpb.front.core import effects, events
from hpb.front.core.rounds import time_of
from hpb.front.core.state import Front, Phase
from hpb.front.log import Field
from hpb.front.machine import Machine
from hpb.front.rights import IN, OWN_WORDS, WORDS
from hpb.front.terms import Reload
from hpb.record.segments import segment_paths
from hpb.threads import in_thread

OTHER = "other"
KINDS = {*WORDS, *OWN_WORDS, b"TOKEN"}
ACCEPTED, ANSWERED = "accepted", "answered"
# The upper ends of the ranges in which times are counted, in seconds.
TIMES = (0.0005, 0.001, 0.0025, 0.005, 0.01, 0.025, 0.05, 0.1, 0.25, 0.5, 1.0, 2.5, 5.0, 10.0)
DAY_SECONDS = 86_400
# How often the record's length is looked at, in seconds: the disk may hang, so nobody waits for it.
LENGTH_SECONDS = 5.0


def kind_of(line: bytes) -> str:
    """The word of a line that says what it is. Words that no front knows are one kind."""
    words = line.split(b" ", 3)
    word = words[2] if words[0] == IN and len(words) > 2 else words[0]
    return word.decode() if word in KINDS else OTHER


def result_of(answer: bytes) -> str:
    """What an answer says: that a command is accepted, that a question is answered, or the word of a refusal, with `front` before one of the
    front's own."""
    words = answer.decode("latin-1").split(" ")
    if words[0] == "OK":
        return ACCEPTED
    if words[0] != "ERR":
        return ANSWERED
    return " ".join(words[1:3]) if words[1] == "front" else words[2] if len(words) > 2 else OTHER


class Metrics:
    """Gathers what passes through a machine, and shows it."""

    def __init__(self, machine: Machine, reloading: Reload, record: str) -> None:
        self.machine, self.reloading, self.record, self.record_bytes = machine, reloading, record, 0
        self.registry = registry = CollectorRegistry()
        ProcessCollector(registry=registry)
        self.lines = Counter("hpb_front_lines", "Lines of clients that were answered, by their first word and by what came of them", ["line", "result"], registry=registry)
        self.times = Histogram("hpb_front_answer_seconds", "From the time a line is taken until its answer leaves", ["line"], buckets=TIMES, registry=registry)
        self.syncs = Histogram("hpb_front_sync_seconds", "Until an entry of the record, or a command beside it, is on the disk", ["what"], buckets=TIMES, registry=registry)
        self.tokens = Counter("hpb_front_tokens", "First lines of connections, by what came of their tokens", ["outcome"], registry=registry)
        self.restarts = Counter("hpb_front_restarts", "Starts and ends of the server and of the page", ["what", "outcome"], registry=registry)
        registry.register(self)  # type: ignore[arg-type]
        # The kind of each line of a connection that has no answer yet, and when it was taken; and when entries and commands were written.
        self.open: dict[int, collections.deque[tuple[str, float]]] = {}
        self.entries: collections.deque[float] = collections.deque()
        self.beside: dict[int, float] = {}

    # Events and effects that pass.

    def see(self, came: Sequence[events.Event], done: Sequence[effects.Effect]) -> None:
        """Takes events of the front that came together, with their effects."""
        now = time.monotonic()
        for event in came:
            self.take(event, now)
        for effect in done:
            match effect:
                case effects.Answer(connection, answer):
                    self.take_answer(connection, answer, now)
                case effects.Write():
                    self.entries.append(now)
                case effects.PutBeside(place):
                    self.beside[place] = now
        # Answers to a connection may be among the effects of the events before its end.
        for event in came:
            if isinstance(event, events.Gone):
                self.open.pop(event.connection, None)

    def take(self, event: events.Event, now: float) -> None:
        match event:
            case events.Line(connection, line):
                self.take_line(connection, line, now)
            case events.TooLong(connection, line):
                self.open.setdefault(connection, collections.deque()).append((OTHER, now))
            case events.Synced(entries):
                for _ in range(min(entries, len(self.entries))):
                    self.syncs.labels("record").observe(now - self.entries.popleft())
            case events.StandsBeside(places):
                for place in places:
                    self.syncs.labels("beside").observe(now - self.beside.pop(place, now))

    def take_line(self, connection: int, line: bytes, now: float) -> None:
        self.open.setdefault(connection, collections.deque()).append((kind_of(line), now))

    def take_answer(self, connection: int, answer: bytes, now: float) -> None:
        """The answers of a connection come in the order of its lines. One that ends a silent connection has no line."""
        waiting = self.open.get(connection)
        kind, taken = waiting.popleft() if waiting else (OTHER, now)
        self.lines.labels(kind, result_of(answer)).inc()
        self.times.labels(kind).observe(now - taken)

    def note(self, kind: str, fields: Mapping[str, Field]) -> None:
        """Takes a line of the log."""
        if kind == "token":
            self.tokens.labels(str(fields["outcome"])).inc()
        elif kind == "restart":
            self.restarts.labels(str(fields["what"]), str(fields["outcome"])).inc()

    async def keep_measuring(self) -> None:
        """Looks at the record's length again and again."""
        while True:
            await in_thread(self.measure)
            await asyncio.sleep(LENGTH_SECONDS)

    def measure(self) -> None:
        """Runs in a thread. A record that another program takes away is the record's own trouble."""
        try:
            self.record_bytes = sum(os.stat(path).st_size for path in segment_paths(self.record))
        except OSError:
            pass

    # The metrics of now.

    @property
    def front(self) -> Front:
        return self.machine.front

    def is_ready(self) -> bool:
        """Whether a line that comes now is answered without a start of the front or of its server first."""
        return self.front.phase == Phase.OPEN and self.front.server.is_up

    def shown(self, accept: str) -> tuple[str, bytes]:
        """The type and the bytes of all metrics, in the form that a scraper accepts."""
        encoder, kind = choose_encoder(accept)
        return kind, encoder(self.registry)

    def collect(self) -> Iterator[GaugeMetricFamily]:
        """The state of now, for the library."""
        front, rounds = self.front, self.front.rounds
        yield gauge("hpb_build_info", "The version of the package", ["version"], [([VERSION], 1)])
        yield gauge("hpb_front_ready", "Whether the front lets clients in, and its server is up", [], [([], self.is_ready())])
        yield gauge("hpb_front_lines_waiting", "Lines of a name that have no answer yet", ["name"], [([name], self.waiting(name)) for name in front.names])
        connections = [([name], len(one.connections)) for name, one in front.names.items()]
        yield gauge("hpb_front_connections", "Connections of a name", ["name"], connections)
        yield gauge("hpb_front_unknown_connections", "Connections that haven't said a token", [], [([], len(front.unknown))])
        yield gauge("hpb_front_record_bytes", "Bytes of the record, all its segments", [], [([], self.record_bytes)])
        yield gauge("hpb_auction_commands", "Accepted commands", [], [([], front.ledger.count)])
        yield gauge("hpb_auction_round", "The open round", [], [([], rounds.round)])
        yield gauge("hpb_auction_over", "Whether the auction is over", [], [([], rounds.is_over)])
        yield gauge("hpb_auction_paused", "Whether the clock of rounds is paused", [], [([], bool(rounds.paused))])
        until: list[Row] = [([], rounds.until - time_of(front))] if rounds.is_on and rounds.until is not None and not rounds.paused else []
        yield gauge("hpb_auction_seconds_to_close", "Seconds until the clock closes the open round, if it runs", [], until)
        certificate = self.reloading.terms.certificate
        days: list[Row] = [([], (certificate.ends - time.time()) / DAY_SECONDS)] if certificate else []
        yield gauge("hpb_front_certificate_days", "Days until the certificate ends", [], days)

    def describe(self) -> Iterable[GaugeMetricFamily]:
        """The library asks for this when it gets a collector: before the front has begun there is nothing to collect."""
        return []

    def waiting(self, name: str) -> int:
        return sum(self.front.connections[one].waiting for one in self.front.names[name].connections)


# Values of labels, in their order, and the value that belongs to them.
Row: TypeAlias = tuple[list[str], float]


def gauge(name: str, words: str, labels: Sequence[str], rows: Sequence[Row]) -> GaugeMetricFamily:
    made = GaugeMetricFamily(name, words, labels=labels)
    for values, value in rows:
        made.add_metric(values, float(value))
    return made
