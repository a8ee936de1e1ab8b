"""A whole day's auction by the clock, from the definition to the unveiled results, on the real program behind the real front. There are twelve
bidders, 30 licences, and a mock the evening before. An hour takes seconds, and the results have to follow from the bids alone (`days`)."""

from __future__ import annotations

import os
import signal
import time
from dataclasses import dataclass, field
from pathlib import Path

import pytest
from boards import Site
from days import (
    BIDDERS, EXTENDED, FRONT_KILLED, LAST_BIDS, LONGER, NAMES, NODES, PAUSED, SERVER_KILLED, STAGED, TREE, WAIVED, WAIVERS, WAIVES, Auctioneer, Bidder,
    Caller, High, Result, day_definition, joined, result_of, results_of, started,
)
from fronts import ADDRESS, Front, token_of
from harness.fronts import run_tool
from harness.programs import Program, Ran
from harness.serving import free_port, read_line, wait_until

from hpb.front.times import read_exact_time, text_of_time
from hpb.lines import Accepted, NodeShown, parse_answer, parse_line
from hpb.record import Entry, read_record
from hpb.rules import Auction, apply, begin, read_definition, show_bidder, show_node

SECONDS = 240
# A day of rounds, an hour of which takes seconds. A front that is stopped for longer than five finds its round paused.
LENGTH, GAP, FIRST = 7, 1, 4
MOCK_ROUNDS = 2
RULE = {"identities": "own", "count": "closes", "revenue": False}


@pytest.fixture
def front(program: Program, room: Path) -> Front:
    """A front of the day's auction, whose first round opens tomorrow."""
    rounds: dict[str, object] = {
        "zone": "Europe/Berlin", "first": text_of_time(time.time() + 86_400), "length_seconds": LENGTH, "gap_seconds": GAP, "warn_seconds": [3, 2, 1],
        "unsynchronised": True,
    }
    tables: dict[str, dict[str, object]] = {
        "rounds": rounds, "closing": {"second": ["notary"]}, "information.running": RULE, "board": {"listen": f"{ADDRESS}:{free_port()}"},
    }
    names: dict[str, object] = {"desk": "auctioneer", **NAMES, "public": "observer", "notary": "observer"}
    limits = {"after_end_seconds": 600, "lines_per_second": 1000}
    front = Front(program, room, names, limits, {"listen": f"{ADDRESS}:{free_port()}"}, tables, has_board=True)
    program.keep(front.file, text=day_definition())
    return front


@pytest.mark.timeout(10 * 60)
def test_a_day_of_twelve_bidders_and_thirty_licences_on_a_schedule_and_its_mock_the_evening_before(front: Front, program: Program) -> None:
    rehearse(front, program)
    assert program.count(front.file) == 0 and not front.record.exists()
    front.tables = {**front.tables, "rounds": {**front.tables["rounds"], "first": text_of_time(time.time() + FIRST)}}
    front.write_config()
    with front:
        front.start()
        day = Day(front)
        day.run()
        look_at_page(front)
        ran = front.stop()
    assert ran.status == 0, ran
    entries = read_record(front.record)[0]
    lines = [entry["line"] for entry in entries if entry["kind"] == "accepted"]
    results = results_of(lines)
    look_at_clock(entries, len(results))
    look_at_bids(entries, day.bidders)
    look_at_results(lines, results, day.unveiled)
    look_at_closes(ran, results)
    for bidder in day.bidders:
        look_at_information(bidder, results, lines)
    look_at_tools(program, front, results[-1])


# The evening before.


def rehearse(front: Front, program: Program) -> None:
    """The mock has the same names, tokens and rules. It is stopped after some rounds."""
    made = front.run("--make-mock", str(front.folder / "M"), "--first", text_of_time(time.time() + FIRST + 6))
    assert made.status == 0, made
    mock = Mock(front)
    with mock:
        mock.start()
        callers: list[Caller] = [*(Bidder(name, mock.port, is_mock=True) for name in NAMES), Auctioneer("desk", mock.port, is_mock=True)]
        threads = started(callers)
        wait_until(lambda: closes_in(mock) >= MOCK_ROUNDS, SECONDS, "the rounds of the mock aren't closed")
        for caller in callers:
            caller.stops.set()
        joined(callers, threads, SECONDS)
        ran = mock.stop()
    assert ran.status == 0 and all(line.endswith(" MOCK") for line in ran.lines()), ran
    lines = [line for line, _ in mock.accepted()]
    assert sum(line.startswith("BID ") for line in lines) >= 12 and program.count(mock.file) == len(lines)
    reported = run_tool("report", mock.file, "--program", program.path)
    assert reported.status == 0 and "<h1>MOCK auction, round " in reported.output


class Mock(Front):
    """The front of the mock that was made."""

    def __init__(self, real: Front) -> None:
        super().__init__(real.program, real.folder, real.names, real.limits, {"file": "mock-F", "record": "mock-R"}, has_board=True)

    @property
    def config(self) -> Path:
        return self.folder / "M"

    def write_config(self, **more: object) -> None:
        """It was made by the front."""

    def listens(self) -> Front:
        """Returns once it listens: its lines say MOCK."""
        assert self.process
        lines = read_line(self.process, SECONDS), read_line(self.process, SECONDS)
        assert all(line.endswith(" MOCK") for line in lines), (lines, self.words_said())
        self.port = int(lines[0].split(" ")[2])
        return self


def closes_in(front: Front) -> int:
    return sum(line.startswith("CLOSE ") for line, _ in front.accepted())


# The day.


@dataclass
class Day:
    """The callers of a day, and what the auctioneer is answered at its end."""

    front: Front
    bidders: list[Bidder] = field(default_factory=list)
    unveiled: list[str] = field(default_factory=list)

    def run(self) -> None:
        port = int(str(self.front.fields["listen"]).split(":")[1])
        self.bidders = [Bidder(name, port) for name in NAMES]
        desk = Auctioneer("desk", port)
        callers: list[Caller] = [*self.bidders, desk]
        threads = started(callers)
        wait_until(lambda: self.has("warned", FRONT_KILLED, seconds=1), SECONDS, "no warning came")
        self.front.kill()
        self.front.start()
        wait_until(lambda: self.has("opened", SERVER_KILLED), SECONDS, "the round doesn't open")
        os.kill(self.front.child("serve"), signal.SIGKILL)
        joined(callers, threads, SECONDS)
        assert desk.done == {"stage", "extended", "paused"} and "auctioneer" in desk.pauses and desk.pauses[-1] == "end", desk
        # A look at the last round says that its close ends the auction; at one of the others, that its close doesn't.
        assert desk.previews[LAST_BIDS + 1] and not all(desk.previews[round_] for round_ in desk.previews if round_ <= LAST_BIDS), desk.previews
        self.front.wait_until_said("the server is gone")
        self.unveiled = [self.front.ask("n0", line) for line in ("SHOW", "INFORMATION", *(f"NODE {node}" for node in NODES))]
        self.unveiled += [self.front.ask("desk", f"WHO {bidder}") for bidder in BIDDERS]

    def has(self, what: str, round_: int, **fields: int) -> bool:
        """Whether the record has this change of the clock."""
        wanted = {"what": what, "round": round_, **fields}
        return any(wanted.items() <= entry.items() for entry in self.front.entries("clock"))


def look_at_page(front: Front) -> None:
    """The page of a name shows all once that is unveiled."""
    high = front.ask("desk", f"NODE {NODES[2]}").split(" ")
    site = Site(front.board_port, "n3", token_of("n3"), front.context)
    wait_until(lambda: site.shows(**{f"node-{NODES[2]}-bid": f"{int(high[3]):,} of {high[4]}" if high[4] != "-" else "no bid"}), SECONDS, "the page isn't unveiled")


# What has to hold.


def look_at_clock(entries: list[Entry], closes: int) -> None:
    """Each round was opened once, and closed once, not before its time. All that the day wanted has happened."""
    clock = [entry for entry in entries if entry["kind"] == "clock"]
    of = {what: [entry for entry in clock if entry["what"] == what] for what in ("opened", "ended", "closed", "extended", "paused", "resumed", "back")}
    assert [entry["closed"] for entry in of["closed"]] == [entry["round"] for entry in of["opened"]] == list(range(1, closes + 1))
    assert closes == LAST_BIDS + 1 and all(read_exact_time(entry["time"]) >= read_exact_time(entry["until"]) for entry in of["ended"])
    assert [entry["round"] for entry in of["extended"]] == [EXTENDED]
    opened, extended = of["opened"][EXTENDED - 1], of["extended"][0]
    assert read_exact_time(extended["until"]) - read_exact_time(opened["until"]) == LONGER
    assert (PAUSED, "auctioneer") in [(entry["round"], entry["paused"]) for entry in of["paused"]]
    assert (of["paused"][-1]["round"], of["paused"][-1]["paused"]) == (LAST_BIDS + 1, "end")
    # The kill of the front was noticed.
    assert of["back"] or any(entry["paused"] == "away" for entry in of["paused"])
    assert sum(entry["kind"] == "started" for entry in entries) == 2 and [entry["round"] for entry in entries if entry["kind"] == "unveiled"] == [closes]
    assert any(entry["kind"] == "said" and entry["name"] == "notary" and "agrees that" in entry["text"] for entry in entries)


def look_at_bids(entries: list[Entry], bidders: list[Bidder]) -> None:
    """Each command that was answered OK is in the record under its number, and in the round that its bidder meant; and no others are there."""
    found, number = dict[int, tuple[int, str]](), 1
    for entry in entries:
        if entry["kind"] == "accepted":
            words = entry["line"].split(" ")
            if words[0] in ("BID", "WAIVE"):
                found[int(entry["answer"].removeprefix("OK "))] = number, " ".join((words[1], *words[3:4]))
            number += words[0] == "CLOSE"
    accepted = {told: (round_, f"{bidder.bidder} {node}") for bidder in bidders for told, (round_, node) in bidder.accepted.items()}
    waived = {told: (WAIVED, bidder.bidder) for bidder in bidders for told in bidder.waived}
    assert found == accepted | waived and len(accepted) >= 60 and list(waived.values()) == [(WAIVED, BIDDERS[WAIVES])]
    assert sum(bidder.closed for bidder in bidders) > 0


def look_at_results(lines: list[str], results: list[Result], unveiled: list[str]) -> None:
    """The unveiled answers have the winners, the revenue and the prices that follow from the bids, and the package's rules say the same; so do
    they of eligibility and waivers."""
    last = results[-1]
    assert sum(len(result.winners) > 0 for result in results) == len(results) and any(result.winners != last.winners for result in results)
    assert unveiled[0] == f"ROUND {len(results)} STAGE 2 CLOSED REVENUE {last.revenue} COUNT {len(lines)}"
    assert unveiled[1] == "INFORMATION unveiled IDENTITIES all COUNT exact REVENUE yes"
    auction = replayed(lines)
    for answer in unveiled[2:]:
        match parse_answer(answer):
            case NodeShown(name, high, bidder, price, _, wins) as node:
                wanted = last.high.get(name, High(0, ""))
                assert (high, bidder or "", price, wins) == (wanted.amount, wanted.bidder, last.prices[name], name in last.winners), answer
                assert node == show_node(auction, name)
            case who:
                assert who == show_bidder(auction, answer.split(" ")[1])
    assert sum(last.prices[name] for licences in TREE.values() for name in licences) == last.revenue
    # Waivers were used: one by its bidder, others by closes.
    assert sum(WAIVERS - auction.bidders[bidder].waivers for bidder in BIDDERS) > 1
    assert sum(line.startswith("STAGE ") for line in lines) == 1 and closes_before(lines, "STAGE ") >= STAGED - 1


def replayed(lines: list[str]) -> Auction:
    """The auction by the package's rules, of which each line is accepted."""
    auction = begin(read_definition(day_definition()))
    for line in lines:
        command = parse_line(line)
        auction, answer = apply(auction, command)  # type: ignore[arg-type]
        assert isinstance(answer, Accepted), (line, answer)
    return auction


def closes_before(lines: list[str], word: str) -> int:
    first = next(place for place, line in enumerate(lines) if line.startswith(word))
    return sum(line.startswith("CLOSE ") for line in lines[:first])


def look_at_closes(ran: Ran, results: list[Result]) -> None:
    """The front printed each close since it was started again, with its revenue."""
    printed = [line.split(" ") for line in ran.lines() if line.startswith("ROUND ")]
    revenues = [int(words[words.index("REVENUE") + 1]) for words in printed]
    assert revenues == [result.revenue for result in results[-len(revenues) :]] and len(revenues) >= LAST_BIDS - SERVER_KILLED


def look_at_information(bidder: Bidder, results: list[Result], lines: list[str]) -> None:
    """A name saw high bids and prices, its own bidder by name, and any other by a pseudonym that stayed the same, over the kill too. It saw no
    revenue, and the count of the last close alone."""
    counts = [0, *(number for number, line in enumerate(lines, 1) if line.startswith("CLOSE "))]
    names = dict[str, str]()
    for closes, nodes in bidder.seen.items():
        result = results[closes - 1] if closes else result_of({})
        for node in nodes:
            wanted = result.high.get(node.name, High(0, ""))
            assert (node.high, node.price, node.wins) == (wanted.amount, result.prices[node.name], node.name in result.winners), (closes, node)
            if wanted.bidder in ("", bidder.bidder):
                assert (node.bidder or "") == wanted.bidder
            else:
                assert node.bidder and node.bidder.startswith("other") and names.setdefault(wanted.bidder, node.bidder) == node.bidder, (names, node)
    assert len(set(names.values())) == len(names) and len(bidder.seen) >= LAST_BIDS - 1
    assert bidder.counts == {closes: (counts[closes], 0) for closes in bidder.counts}


def look_at_tools(program: Program, front: Front, last: Result) -> None:
    """The record tells the file, the result can be checked by adding up, and the report has it."""
    replayed = run_tool("replay", front.record, "--file", front.file, "--program", program.path)
    assert (replayed.errors, replayed.status) == ("", 0) and "one chain of hashes" in replayed.output
    text = front.folder / "definition.json"
    text.write_bytes(day_definition())
    verified = run_tool("verify", text, text=program.check(front.file).output.encode())
    assert verified.status == 0 and f"brings more than {last.revenue}." in verified.output, verified
    reported = run_tool("report", front.file, "--program", program.path)
    assert reported.status == 0 and "MOCK" not in reported.output and f"{last.revenue:,} dollars" in reported.output
    for node in last.winners:
        assert f">{node}</th>" in reported.output and last.high[node].bidder in reported.output
