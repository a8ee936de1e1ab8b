"""Callers of a whole day by the clock (test_day_by_clock.py), and what the day has to come to: found by trying all choices, from the bids alone."""

from __future__ import annotations

import itertools
import json
import random
import threading
import time
from collections.abc import Callable, Sequence
from dataclasses import dataclass, field

from fronts import ADDRESS, token_of

from hpb import Client, FrontRefused, Refused
from hpb.front.times import read_exact_time, text_of_time
from hpb.lines import NodeShown
from hpb.rounds import Schedule

SECONDS = 240
LICENCES_OF_REGION, REGIONS = 5, 6
ALL = "all"
# The licences of each region.
TREE = {f"r{region}": [f"l{region}{place}" for place in range(LICENCES_OF_REGION)] for region in range(REGIONS)}
NODES = [ALL, *(name for region, licences in TREE.items() for name in (region, *licences))]
BIDDERS = [f"b{number}" for number in range(12)]
NAMES = {f"n{number}": [bidder] for number, bidder in enumerate(BIDDERS)}
WAIVERS = 2
# The last round in which bidders bid. Then the rounds in which something happens: the front is killed, the server is, and somebody waives.
# Or the stage moves on, the round is extended, and the clock is paused.
LAST_BIDS, FRONT_KILLED, SERVER_KILLED, WAIVED, STAGED, EXTENDED, PAUSED = 6, 2, 3, 3, 4, 4, 5
WAIVES = 11
LONGER = 3.0


def day_definition() -> bytes:
    """30 licences in six regions of five, under one package of all; twelve bidders of one name each, two of them for all."""
    nodes: list[dict[str, object]] = [{"name": ALL, "parent": None}]
    for region, licences in TREE.items():
        nodes.append({"name": region, "parent": ALL})
        nodes += [{"name": name, "parent": region, "units": 2 + place, "opening": 100} for place, name in enumerate(licences)]
    bidders = [{"name": name, "units": 120 if number < 2 else 24} for number, name in enumerate(BIDDERS)]
    return json.dumps({"step": 10, "percent": 25, "stages": [80, 95], "waivers": WAIVERS, "nodes": nodes, "bidders": bidders}).encode() + b"\n"


@dataclass
class Caller:
    """A name that follows the clock in a thread of its own, until the auction is over or the test stops it."""

    name: str
    port: int
    is_mock: bool = False
    stops: threading.Event = field(default_factory=threading.Event)
    fault: BaseException | None = None

    def run(self) -> None:
        try:
            with Client(ADDRESS, self.port, token=token_of(self.name), plain=True, timeout=SECONDS, mock=self.is_mock) as client:
                self.follow(client)
                assert client.is_mock() is self.is_mock
        except BaseException as fault:  # The test raises it.
            self.fault = fault

    def follow(self, client: Client) -> None:
        self.begin(client)
        while not self.stops.is_set() and (known := client.schedule()).state != "over":
            self.move(client, known)
            time.sleep(0.1)

    def begin(self, client: Client) -> None:
        """Before the first look at the clock."""

    def move(self, client: Client, known: Schedule) -> None:
        """After each look at the clock."""
        raise NotImplementedError


@dataclass
class Bidder(Caller):
    """A bidder with a value for each node. It bids in each round for nodes whose minimum is below that, or waives.

    `accepted` has its bids by number, each with its round and node. `closed` counts bids that came while no round was open. By the number of
    closes, `seen` has the nodes that it was shown, and `counts` the count and the revenue.
    """

    accepted: dict[int, tuple[int, str]] = field(default_factory=dict)
    waived: list[int] = field(default_factory=list)
    closed: int = 0
    seen: dict[int, list[NodeShown]] = field(default_factory=dict)
    counts: dict[int, tuple[int, int]] = field(default_factory=dict)
    done: int = 0

    @property
    def number(self) -> int:
        return int(self.name[1:])

    @property
    def bidder(self) -> str:
        return BIDDERS[self.number]

    def begin(self, client: Client) -> None:
        self.dice = random.Random(self.number)
        self.values = {node: self.dice.randint(200, 900) * (4 if node in TREE else 14 if node == ALL else 1) for node in NODES}

    def move(self, client: Client, known: Schedule) -> None:
        if known.state == "paused" and known.round == PAUSED and not self.is_mock:
            self.is_refused(client, known.round)
        if known.state != "open" or known.round <= self.done or known.round > LAST_BIDS:
            return
        self.done = known.round
        self.look(client)
        if self.number == WAIVES and known.round == WAIVED:
            self.waived.append(client.waive(self.bidder, round=known.round).number or 0)
        else:
            self.bid(client, known.round)

    def look(self, client: Client) -> None:
        """What it may know of the last close: high bids, revenue and count."""
        shown = client.show()
        nodes = [client.node(node) for node in self.dice.sample(NODES, 4)]
        if client.show().round == shown.round:
            self.seen.setdefault(shown.round - 1, []).extend(nodes)
            self.counts[shown.round - 1] = shown.count, shown.revenue

    def bid(self, client: Client, number: int) -> None:
        """Bids for up to three nodes, each in this round alone."""
        wanted = [ALL] if self.number < 2 else self.dice.sample(NODES[1:], 3)
        for node in wanted:
            shown = client.node(node)
            if shown.minimum > self.values[node] or (shown.wins and shown.bidder == self.bidder):
                continue
            try:
                told = client.bid(self.bidder, node, shown.minimum + 10 * self.dice.randint(0, 2), round=number)
                self.accepted[told.number or 0] = number, node
            except FrontRefused as refused:
                assert refused.word in ("closed", "round"), refused
            except Refused as refused:
                # The minimum rose, or it is more than its units allow, or it bid on this before.
                assert refused.number in (22, 24, 25), refused

    def is_refused(self, client: Client, number: int) -> None:
        """While the clock is paused, no bid is taken. If it went on meanwhile, the server refuses this one: it is below the opening."""
        try:
            client.bid(self.bidder, TREE["r0"][0], 10, round=number)
        except FrontRefused as refused:
            assert refused.word == "closed", refused
            self.closed += 1
        except Refused as refused:
            assert refused.number in (22, 24), refused


@dataclass
class Auctioneer(Caller):
    """The auctioneer: looks what each close would do, moves the stage on, extends a round, pauses and resumes, ends the auction with a second
    name, and unveils all."""

    previews: dict[int, bool] = field(default_factory=dict)
    why: str = ""
    known: int = 0
    pauses: list[str] = field(default_factory=list)
    done: set[str] = field(default_factory=set)
    notary: Client | None = None

    def follow(self, client: Client) -> None:
        client.tell("SAY all good morning")
        with Client(ADDRESS, self.port, token=token_of("notary"), plain=True, timeout=SECONDS) as self.notary:
            super().follow(client)
        if not self.stops.is_set():
            assert client.tell("UNVEIL").text == f"UNVEIL {client.show().round}"

    def move(self, client: Client, known: Schedule) -> None:
        while told := client.news(self.known):
            self.known = told.number
            self.why = told.text.split(" ")[2] if told.text.startswith("PAUSE ") else self.why
        try:
            if known.state == "paused":
                self.go_on(client, known)
            elif known.state == "open":
                self.look(client, known)
            self.once("stage", known.round >= STAGED and not self.is_mock, client.stage)
        except FrontRefused as refused:
            # The round may have ended meanwhile.
            assert refused.word in ("clock", "round", "unknown"), refused
        except Refused as refused:
            # The clock has taken the ticket meanwhile.
            assert refused.number in (13, 14, 15), refused

    def go_on(self, client: Client, known: Schedule) -> None:
        """The clock is paused: by the auctioneer for a while, by a round without bids, or by an absence of the front."""
        self.pauses.append(self.why)
        if self.why == "auctioneer":
            time.sleep(2.0)
        if self.why == "end" and known.round > LAST_BIDS:
            self.end(client)
        else:
            client.tell("RESUME")

    def end(self, client: Client) -> None:
        """A slip doesn't end the auction, nor does one name alone."""
        assert self.notary
        ticket = client.show().next_ticket
        for ending, word in ((False, "end"), (True, "second")):
            try:
                client.close(ending=ending)
                raise AssertionError(f"it is closed, and should be refused by {word}")
            except FrontRefused as refused:
                assert refused.word == word, refused
        assert self.notary.agree(ticket).ticket == ticket
        client.close(ending=True)

    def look(self, client: Client, known: Schedule) -> None:
        if known.left <= 2:
            self.previews[known.round] = client.preview().ends
            client.prospect(BIDDERS[0])
        if self.is_mock or known.left < 1:
            return
        until = known.until or ""
        self.once("extended", known.round == EXTENDED, lambda: client.tell(f"EXTEND {EXTENDED} {later(until)}"))
        self.once("paused", known.round == PAUSED, lambda: client.tell("PAUSE"))

    def once(self, word: str, is_time: bool, act: Callable[[], object]) -> None:
        """Does something that the day wants once. If it is refused, it is tried again."""
        if is_time and word not in self.done:
            act()
            self.done.add(word)


def later(time_: str) -> str:
    """A time some seconds behind another one."""
    return text_of_time(read_exact_time(time_) + LONGER)


def started(callers: Sequence[Caller]) -> list[threading.Thread]:
    threads = [threading.Thread(target=one.run, daemon=True) for one in callers]
    for thread in threads:
        thread.start()
    return threads


def joined(callers: Sequence[Caller], threads: Sequence[threading.Thread], seconds: float) -> None:
    """Waits for the ends of all. What failed in one of them is raised."""
    end = time.monotonic() + seconds
    for thread in threads:
        thread.join(max(0.0, end - time.monotonic()))
    faults = {one.name: one.fault for one in callers if one.fault}
    late = [one.name for one, thread in zip(callers, threads) if thread.is_alive()]
    assert not faults and not late, (faults, late)


# What the day has to come to.


@dataclass(frozen=True)
class High:
    """A high bid."""

    amount: int
    bidder: str


@dataclass
class Result:
    """The result of a close: the winning nodes, the revenue, and each node's price."""

    winners: set[str]
    revenue: int
    prices: dict[str, int]
    high: dict[str, High]


def results_of(lines: Sequence[str]) -> list[Result]:
    """The result of each close, from the accepted lines alone. A bid counts if it is above the high bid before; of equal ones the first."""
    high, found = dict[str, High](), list[Result]()
    for line in lines:
        match line.split(" "):
            case ["BID", bidder, _, node, amount] if int(amount) > (high[node].amount if node in high else 0):
                high[node] = High(int(amount), bidder)
            case ["CLOSE", _]:
                found.append(result_of(dict(high)))
    return found


def result_of(high: dict[str, High]) -> Result:
    """Tries all choices of bids that sell no licence twice. If a package brings no more than its parts, the parts win."""
    amounts = {node: bid.amount for node, bid in high.items()}
    regions = {region: best_in(region, amounts) for region in TREE}
    revenue = sum(sum(amounts[node] for node in chosen) for chosen in regions.values())
    winners = {node for chosen in regions.values() for node in chosen}
    more = amounts.get(ALL, 0) - revenue
    if more > 0:
        winners, revenue = {ALL}, amounts[ALL]
    return Result(winners, revenue, prices_of(amounts, max(more, 0)), high)


def best_in(region: str, amounts: dict[str, int]) -> list[str]:
    """The best choice in a region: each set of its licences with bids, and the region as a whole."""
    bidden = [name for name in TREE[region] if name in amounts]
    sets = [list(chosen) for count in range(len(bidden) + 1) for chosen in itertools.combinations(bidden, count)]
    if region in amounts:
        sets.append([region])
    return max(sets, key=lambda chosen: (sum(amounts[name] for name in chosen), chosen != [region]))


def prices_of(amounts: dict[str, int], more: int) -> dict[str, int]:
    """A licence's price is its high bid, and its share of what the packages above it bring more than their parts. A dollar that is left over
    goes to the first ones."""
    prices = dict[str, int]()
    for (region, licences), share in zip(TREE.items(), shared(more, REGIONS)):
        parts = {name: amounts.get(name, 0) for name in licences}
        own = max(0, amounts.get(region, 0) - sum(parts.values())) + share
        for name, part in zip(licences, shared(own, LICENCES_OF_REGION)):
            prices[name] = parts[name] + part
        prices[region] = sum(prices[name] for name in licences)
    prices[ALL] = sum(prices[region] for region in TREE)
    return prices


def shared(dollars: int, count: int) -> list[int]:
    return [dollars // count + (place < dollars % count) for place in range(count)]
