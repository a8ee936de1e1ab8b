"""Judges the output of the program `hpb_test_simulation` on its seeds by docs/RULES.md, and by the answers that its clients got.

Each line is judged by the lines before it: which letters are gathered, what becomes of them, and each answer. After each opening the
auction is judged, too. It has to be the auction of all acknowledged commands, or of these and the batch that was on its way.

The rules are those of the package, which shares nothing with the program.
"""

from __future__ import annotations

import functools
import itertools
import multiprocessing
import subprocess
from collections import Counter, deque
from collections.abc import Callable, Iterable, Iterator, Sequence
from dataclasses import dataclass
from pathlib import Path
from typing import Final

from hpb.lines import Accepted, Bid, Close, Command, Stage, Waive
from hpb.rules import Auction, Bidder, Definition, Node, Terms, apply, begin

TURNS: Final = 4
SEEDS_AT_A_TIME: Final = 50
SECONDS: Final = 600
# The parent of each node on the devices in crates/hpb_test_engine, and the units and the opening of a licence.
NODES: Final = (None, None, None), (0, None, None), (1, 10, 100), (1, 10, 100), (0, 20, 100), (None, 5, 100)
UNITS: Final = (10, 10, 40, 25)
LINES_OF_AN_AUCTION: Final = 1 + len(NODES) + len(UNITS)

Words = Sequence[str]


class Wrong(Exception):
    """A line doesn't follow from the rules and the lines before it."""


def want(found: object, wanted: object) -> None:
    """Raises `Wrong` if these differ."""
    if found != wanted:
        raise Wrong(f"it should be {wanted}")


def definition_of(waivers: int) -> Definition:
    """The definition on the devices. Nodes and bidders are called by their places."""
    nodes = []
    for place, (parent, units, opening) in enumerate(NODES):
        terms = None if units is None or opening is None else Terms(units, opening)
        nodes.append(Node(f"n{place}", None if parent is None else f"n{parent}", terms))
    bidders = [Bidder(f"b{place}", units) for place, units in enumerate(UNITS)]
    return Definition(10, 10, (80, 95), tuple(nodes), tuple(bidders), waivers)


def command_of(words: Words) -> Command:
    """The command that a line names."""
    match words:
        case ["bid", bidder, ticket, node, amount]:
            return Bid(f"b{bidder}", f"n{node}", int(amount), int(ticket))
        case ["waive", bidder, ticket]:
            return Waive(f"b{bidder}", int(ticket))
        case ["close", ticket]:
            return Close(int(ticket))
        case ["stage", ticket]:
            return Stage(int(ticket))
    raise Wrong("no such command")


def answered(auction: Auction, seat: str, words: Words) -> tuple[Auction, Words]:
    """The auction after a command, and the words of its answer."""
    after, answer = apply(auction, command_of(words))
    told = ["ok", str(answer.number)] if isinstance(answer, Accepted) else ["err", str(answer.number)]
    return after, [seat, *words, str(auction.count), *told]


def yes(flag: bool) -> str:
    """A flag as the program writes it."""
    return "true" if flag else "false"


def shown(auction: Auction) -> list[str]:
    """The lines that show everything of an auction."""
    standing, last = auction.standing, auction.auctioneer
    lines = [f"state {auction.round} {auction.stage} {yes(auction.is_over)} {auction.count} {standing.revenue} {last.number if last else 0}"]
    for place in range(len(NODES)):
        name = f"n{place}"
        offers = []
        for bids in (auction.high, auction.incoming):
            bid = bids.get(name)
            offers.append(f"{bid.amount} {bid.bidder[1:]}" if bid else "0 0")
        lines.append(f"node {place} {standing.prices[name]} {standing.minima[name]} {yes(name in standing.winners)} {' '.join(offers)}")
    for place in range(len(UNITS)):
        name = f"b{place}"
        state = auction.bidders[name]
        ticket, number = (state.last.command.ticket, state.last.number) if state.last else (0, 0)
        bits = sum(1 << int(node[1:]) for node in state.bid_on)
        waived = f"{state.waivers} {yes(state.has_waived)}"
        lines.append(f"bidder {place} {state.eligibility} {auction.activity(name)} {ticket} {number} {waived} {bits}")
    return lines


@dataclass
class Flight:
    """Letters on their way, their answers, and the auction after them. It lands at the fourth turn at the latest, and may do so at the
    third."""

    answers: list[Words]
    auction: Auction
    turns: int = 0

    def may_stand(self) -> bool:
        """Whether a device may keep it already."""
        return self.turns >= TURNS - 1


class Seed:
    """One seed, read line by line."""

    def __init__(self, words: Words) -> None:
        number, _, frames, waivers = map(int, words)
        self.number, self.frames, self.has_ended = number, frames, False
        self.counts: Counter[str] = Counter(seeds=1)
        self.auction = begin(definition_of(waivers))
        # For each seat, its commands without an answer yet, and how many of them it has posted since the opening.
        self.unanswered: dict[str, deque[Command]] = {}
        self.posted: Counter[str] = Counter()
        self.flight: Flight | None = None
        self.is_stopped = False
        self.begin()

    def begin(self) -> None:
        """Nothing waits in a house that was just started."""
        self.posted.clear()
        self.rings: dict[str, deque[Command]] = {}
        self.owed: dict[str, deque[Words]] = {}
        self.leaving: deque[Words] = deque()
        self.held: list[tuple[str, Words]] = []
        self.has_failed, self.is_roomy = False, False

    def take(self, kind: str, words: Words) -> None:
        """Judges a line of this kind."""
        act: Callable[[Words], None] | None = getattr(self, f"take_{kind}", None)
        if act is None or self.has_ended:
            raise Wrong("nothing like that can be told here")
        if self.leaving and kind != "leave":
            raise Wrong(f"{len(self.leaving)} answers should leave before")
        act(words)

    # Openings.

    def take_stop(self, words: Words) -> None:
        """The process stops, and its device keeps, loses or tears the writes since the last sync."""
        self.counts[f"stops, {words[0]}"] += 1
        self.is_stopped = True

    def take_open(self, words: Words) -> None:
        """An opening failed, and the next one has the same device."""
        want(words, ["device"])
        self.counts["faults of openings"] += 1

    def take_lines(self, lines: list[str]) -> None:
        """An opening found this auction on the device."""
        if self.counts["openings"] and not self.is_stopped:
            raise Wrong("an opening without a stop")
        self.counts["openings"] += 1
        if lines != shown(self.auction):
            if not (self.flight and self.flight.may_stand() and lines == shown(self.flight.auction)):
                raise Wrong(f"the auction is another one than that of {self.auction.count} acknowledged commands")
            self.auction = self.flight.auction
            self.counts["batches that landed unanswered"] += 1
        self.flight, self.is_stopped = None, False
        self.begin()

    def take_end(self, _words: Words) -> None:
        """The seed ends."""
        if any(self.unanswered.values()) or self.flight:
            raise Wrong("not all is answered")
        self.has_ended = True

    # Clients.

    def take_post(self, words: Words) -> None:
        """A client posts a command."""
        seat, command = words[0], command_of(words[1:])
        sent = self.unanswered.setdefault(seat, deque())
        if self.posted[seat] < len(sent):
            want(command, sent[self.posted[seat]])
            self.counts["commands sent again"] += 1
        else:
            sent.append(command)
            self.counts["commands"] += 1
        self.posted[seat] += 1
        self.rings.setdefault(seat, deque()).append(command)

    def take_take(self, words: Words) -> None:
        """A client takes an answer."""
        seat = words[0]
        owed = self.owed.get(seat)
        if not owed:
            raise Wrong("no answer waits")
        want(words, owed.popleft())
        self.unanswered[seat].popleft()
        self.posted[seat] -= 1
        self.counts["answers"] += 1

    def take_view(self, words: Words) -> None:
        """A client views the auction."""
        want(int(words[1]), self.auction.count)

    # The committer.

    def take_gather(self, words: Words) -> None:
        """A letter is taken out of its ring."""
        seat, command = words[0], command_of(words[1:])
        ring = self.rings.get(seat)
        if not ring:
            raise Wrong("nothing was posted")
        want(command, ring.popleft())
        self.held.append((seat, words[1:]))

    def take_offer(self, words: Words) -> None:
        """The letters are offered to the engine."""
        if not self.held:
            raise Wrong("no letters are held")
        if self.has_failed or self.flight:
            want(words[0], "failed" if self.has_failed else "busy")
            return
        after, answers = self.auction, []
        for seat, command in self.held:
            after, answer = answered(after, seat, command)
            answers.append(answer)
        if after.count == self.auction.count:
            want(words[0], "old")
            self.leave(answers)
            self.held = []
        elif words[0] == "full":
            self.counts["full journals"] += 1
            if self.is_roomy or self.counts["batches"] + self.counts["batches that landed unanswered"] < self.frames:
                raise Wrong("a frame is clean")
        else:
            want(words[0], "flight")
            self.flight, self.held = Flight(answers, after), []

    def leave(self, answers: Iterable[Words]) -> None:
        """These answers are to leave."""
        for answer in answers:
            self.leaving.append(answer)
            self.owed.setdefault(answer[0], deque()).append(answer)

    def take_leave(self, words: Words) -> None:
        """An answer leaves."""
        if not self.leaving:
            raise Wrong("no answer is to leave")
        want(words, self.leaving.popleft())

    def take_commit(self, words: Words) -> None:
        """The batch on its way has a turn."""
        if self.has_failed or not self.flight:
            want(words[0], "failed" if self.has_failed else "idle")
            return
        self.flight.turns += 1
        if words[0] == "device":
            self.fail("commits")
        elif self.flight.turns < TURNS:
            want(words[0], "went")
        else:
            want(words[0], "done")
            self.auction, self.is_roomy = self.flight.auction, False
            self.leave(self.flight.answers)
            self.flight = None
            self.counts["batches"] += 1

    def take_checkpoint(self, words: Words) -> None:
        """A checkpoint has a step."""
        if self.has_failed:
            want(words[0], "failed")
        elif words[0] == "device":
            self.fail("checkpoints")
        elif words[0] == "whole":
            self.is_roomy = True
            self.counts["checkpoints"] += 1
        elif words[0] not in ("went", "idle"):
            raise Wrong("no step ends so")

    def fail(self, of: str) -> None:
        """A call of the device failed."""
        self.has_failed = True
        self.counts[f"faults of {of}"] += 1


class Judge:
    """Judges all seeds of an output: its counts, and what it found wrong."""

    def __init__(self) -> None:
        self.counts: Counter[str] = Counter()
        self.wrong: list[str] = []
        self.seed: Seed | None = None
        self.is_wrong = False

    def judge(self, lines: Iterable[str]) -> None:
        """Judges these lines, from a first line of a seed on."""
        rest = iter(lines)
        for line in rest:
            kind, *words = line.split()
            if kind == "seed":
                self.end()
                self.seed, self.is_wrong = Seed(words), False
            elif self.seed is None:
                self.wrong.append(line)
            elif not self.is_wrong:
                self.take(self.seed, line, kind, words, rest)
        self.end()

    def take(self, seed: Seed, line: str, kind: str, words: Words, rest: Iterator[str]) -> None:
        """Judges one line, with those behind it that belong to it."""
        try:
            if kind == "state":
                seed.take_lines([line, *itertools.islice(rest, LINES_OF_AN_AUCTION - 1)])
            else:
                seed.take(kind, words)
        except Wrong as wrong:
            self.is_wrong = True
            self.wrong.append(f"seed {seed.number}: {line!r}: {wrong}")

    def end(self) -> None:
        """The seed that is judged is over."""
        if self.seed is None:
            return
        if not self.is_wrong and not self.seed.has_ended:
            self.wrong.append(f"seed {self.seed.number}: it doesn't end")
        self.counts += self.seed.counts
        self.seed = None


def tell(program: Path, first: int, count: int) -> list[str]:
    """The lines that the program writes about so many seeds."""
    told = subprocess.run([program, str(first), str(count)], capture_output=True, text=True, timeout=SECONDS)
    lines = told.stdout.splitlines()
    return lines if told.returncode == 0 else [*lines, f"ended {told.returncode} {told.stderr.strip()}"]


def judged(lines: Iterable[str]) -> tuple[Counter[str], list[str]]:
    """The counts, and the faults that were found."""
    judge = Judge()
    judge.judge(lines)
    return judge.counts, judge.wrong


def _try_part(program: Path, part: tuple[int, int]) -> tuple[Counter[str], list[str]]:
    return judged(tell(program, *part))


def try_seeds(program: Path, first: int, count: int, jobs: int) -> tuple[Counter[str], list[str]]:
    """The counts and faults of so many seeds, some of them at a time."""
    parts = [(seed, min(SEEDS_AT_A_TIME, first + count - seed)) for seed in range(first, first + count, SEEDS_AT_A_TIME)]
    counts: Counter[str] = Counter()
    wrong: list[str] = []
    with multiprocessing.Pool(jobs) as pool:
        for counted, found in pool.imap(functools.partial(_try_part, program), parts):
            counts += counted
            wrong += found
    return counts, wrong
