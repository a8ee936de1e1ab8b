"""Records that a front goes on with: torn, cut, of another auction, of the form before, beside files of other ways; and disks that are full."""

from __future__ import annotations

import os
import resource
from collections.abc import Callable, Iterator
from concurrent.futures import ThreadPoolExecutor
from contextlib import ExitStack
from dataclasses import dataclass, field
from pathlib import Path
from signal import SIGKILL
from threading import Lock

import pytest
from faults import FRONT, Faults
from fronts import Caller, Front, rest_of, token_of
from harness.auctions import definition, text_of
from harness.bidding import bidders_definition
from harness.conditions import NORMAL
from harness.fronts import run_tool
from harness.programs import Program, Ran
from harness.serving import free_port, wait_until

from hpb.record.asked import Asked, AskedFile

SECONDS = 60
BOTH = [("BID x 1 a 100", "OK 1"), ("BID z 1 all 500", "OK 2")]
# What the front of 28 November 2026 left of an auction, when it was killed.
FORM_BEFORE = Path(__file__).parent / "record" / "form-1.record"


def left_by_a_crash(front: Front, record: bytes, *asked: tuple[str, bytes]) -> None:
    """A record as a crash leaves it, and what stands beside it then: these commands."""
    front.record.write_bytes(record)
    (front.folder / "R.asked").unlink(missing_ok=True)
    beside = AskedFile(str(front.record))
    beside.put({place: Asked(*one) for place, one in enumerate(asked)})
    beside.close()


def refused(ran: Ran, *words: str) -> bool:
    """Whether a front ended with 1, before it let anybody in, and said these words in this order."""
    places = [ran.errors.find(word) for word in words]
    return (ran.output, ran.status) == ("", 1) and -1 not in places and places == sorted(places)


# The right record is named first, then its newest backup, and last what ends the audit, by one of two words.
ADVICE = ("right record", "newest backup")


@pytest.fixture
def told(front: Front) -> Front:
    """A front that accepted two bids, and has stopped."""
    front.start()
    assert [front.ask(name, line) for name, (line, _) in zip(("ann", "bob"), BOTH)] == ["OK 1", "OK 2"]
    front.stop()
    return front


# What a crash leaves.


@pytest.mark.parametrize("torn", ["an entry's beginning", "an end of a line", "zeros"])
def test_what_a_crash_tore_is_set_aside(told: Front, torn: str) -> None:
    whole = told.record.read_bytes()
    left = {"an entry's beginning": whole.splitlines()[-1][:100], "an end of a line": b"\n", "zeros": bytes(5000)}[torn]
    left_by_a_crash(told, whole + left)
    said = told.start().stop().errors
    aside = told.folder / "R.torn-1"
    assert (aside.read_bytes(), aside.stat().st_mode & 0o777, aside.name in said) == (left, 0o600, True)
    mended = told.entries("mended")[-1]
    assert (mended["bytes"], mended["aside"], told.accepted()) == (len(left), aside.name, BOTH)


def test_whole_entries_behind_a_torn_one_are_set_aside_by_a_word_alone(told: Front) -> None:
    whole = told.record.read_bytes()
    for behind in (whole.splitlines(keepends=True)[1], b"\n" + whole):
        left_by_a_crash(told, whole + behind)
        assert refused(told.run(), "the record is damaged") and told.record.read_bytes() == whole + behind
    told.start("--set-aside").stop()
    assert ((told.folder / "R.torn-1").read_bytes(), told.accepted()) == (b"\n" + whole, BOTH)


def test_a_command_whose_answer_was_torn_is_found_in_the_file(told: Front) -> None:
    """By what stands beside the record. If that says that the answer was on the disk, or knows nothing, the record isn't the right one."""
    lines = told.record.read_bytes().splitlines(keepends=True)
    place = next(number for number, line in enumerate(lines) if b'"OK 2"' in line)
    before = b"".join(lines[:place])
    cut = before + lines[place][:-9]
    told.record.write_bytes(cut)
    ran = told.run()
    assert refused(ran, "was on the disk, and R ends behind entry")
    assert refused(ran, *ADVICE, "--set-aside", "the audit ends there")
    left_by_a_crash(told, cut, ("bob", b"BID z 1 all 500"))
    said = told.start().stop().errors
    assert told.accepted() == BOTH and "1 commands that the last front told" in said
    left_by_a_crash(told, before)
    assert refused(told.run(), "the file has 1 commands of z, and R has 0")


@pytest.mark.parametrize("at", [0.1, 0.5, 0.9])
def test_a_record_that_was_changed_is_refused(told: Front, at: float) -> None:
    """`test_record_cuts.py` changes each byte."""
    whole = told.record.read_bytes()
    place = int(len(whole) * at)
    told.record.write_bytes(whole[:place] + bytes([whole[place] ^ 1]) + whole[place + 1 :])
    assert refused(told.run(), "the record is damaged") and told.record.stat().st_size == len(whole)


# Files that are no record.


@pytest.mark.parametrize("text", [b"a text\nof two lines\n", b"", b"0" * 64 + b" {}\n", b"f" * 65], ids=["text", "file", "entry", "line"])
def test_another_file_is_no_record(front: Front, text: bytes) -> None:
    """It isn't set aside without a word, nor emptied."""
    text = text or front.file.read_bytes()
    front.record.write_bytes(text)
    assert refused(front.run(), "is it another file?") and front.record.read_bytes() == text
    front.start("--set-aside").stop()
    assert (front.folder / "R.torn-1").read_bytes() == text


def test_a_first_entry_that_was_torn_is_set_aside(front: Front) -> None:
    front.start().stop()
    first = front.record.read_bytes().splitlines(keepends=True)[0]
    for torn in (first[:10], first[:100], first[:-1], bytes(4096), first[:70] + bytes(100)):
        left_by_a_crash(front, torn)
        assert front.start().stop().status == 0


def test_a_torn_end_for_which_there_is_no_room_stays(front: Front) -> None:
    front.start().stop()
    torn = front.record.read_bytes() + bytes(50_000)
    front.record.write_bytes(torn)
    ran = front.run(conditions=NORMAL.with_limit(resource.RLIMIT_FSIZE, 20_000))
    assert refused(ran, f"front: {front.record}: ")
    assert (front.record.read_bytes(), list(front.folder.glob("R.torn-*"))) == (torn, [])


@pytest.mark.parametrize("make", [Path.mkdir, os.mkfifo, lambda path: path.symlink_to("/dev/null")], ids=["folder", "pipe", "link"])
def test_what_is_no_file_is_no_record(front: Front, make: Callable[[Path], None]) -> None:
    make(front.record)
    assert refused(front.run())


def test_a_record_of_the_form_before_is_gone_on_with(front: Front) -> None:
    """In a segment behind it. The command that was open at its end is found in the file."""
    front.record.write_bytes(FORM_BEFORE.read_bytes())
    known = front.accepted()
    assert [answer for _, answer in known] == [f"OK {number}" for number in range(1, 7)]
    assert front.program.run_lines(front.file, text_of([*(line for line, _ in known), "BID x 2 a 160"])).status == 0
    front.start()
    assert front.accepted() == [*known, ("BID x 2 a 160", "OK 7")]
    assert front.ask("bob", "BID y 2 b 210") == "OK 8"
    assert "1 commands that the last front told" in front.stop().errors
    assert front.record.read_bytes() == FORM_BEFORE.read_bytes()
    front.start()
    assert front.ask("bob", "BID y 2 b 210") == "OK 8"
    front.stop()
    ran = run_tool("replay", front.record, "--file", front.file, "--log", front.log, "--program", front.program.path)
    assert (ran.status, "in 2 segments, 8 commands" in ran.output) == (0, True), ran


# Commands that stand in the file or in the record alone.


def test_lines_without_an_answer_are_found_or_never_told(front: Front) -> None:
    """By a front after one that was killed: those that the file has are found, the others are never told to it."""
    older = front.file.read_bytes()
    front.start()
    assert front.ask("ann", "BID x 1 a 100") == "OK 1"
    front.stop()
    assert front.program.run_lines(front.file, b"BID z 1 all 500\nBID w 1 c 100\nCLOSE 1\n").output == "OK 2\nOK 3\nOK 4\n"
    asked = [("carl", b"BID w 1 c 100"), ("desk", b"CLOSE 1"), ("bob", b"BID z 1 all 500"), ("ann", b"BID x 2 b 110"), ("ann", b"BID x 1 a 100")]
    left_by_a_crash(front, front.record.read_bytes(), *asked)
    newest, before = front.file.read_bytes(), front.record.read_bytes()
    front.file.write_bytes(older)
    assert refused(front.run()) and front.record.read_bytes() == before
    front.file.write_bytes(newest)
    front.start()
    assert front.accepted() == [("BID x 1 a 100", "OK 1"), ("BID z 1 all 500", "OK 2"), ("BID w 1 c 100", "OK 3"), ("CLOSE 1", "OK 4")]
    assert [(entry["name"], entry["line"]) for entry in front.entries("lapsed")] == [("ann", "BID x 2 b 110")]
    assert front.ask("ann", "WHO x") == "WHO x ELIGIBILITY 10 ACTIVITY 0 TICKET 1"


def test_a_file_that_was_told_commands_by_another_way(front: Front) -> None:
    """They are foreign, by a word; an older copy is refused all the same."""
    front.start()
    assert front.ask("ann", "BID x 1 a 100") == "OK 1"
    front.stop()
    older = front.file.read_bytes()
    front.program.run_lines(front.file, b"BID y 1 b 150\n")
    ran = front.run()
    assert refused(ran, "by another way") and refused(ran, *ADVICE, "--foreign", "the audit ends there")
    front.start("--foreign")
    assert front.ask("bob", "BID z 1 all 500") == "OK 3"
    said = front.stop().errors
    assert ("commands 2 to 2 of the auction stand in no record" in said, "put into the record" in said) == (True, False)
    assert [(entry["from"], entry["to"]) for entry in front.entries("foreign")] == [(2, 2)]
    front.start().stop()
    front.file.write_bytes(older)
    ran = front.run("--foreign")
    assert refused(ran) and ("older copy" in ran.errors or "lost commands" in ran.errors)


def test_the_record_of_another_auction_is_refused(told: Front, program: Program) -> None:
    told.file.unlink()
    program.keep(told.file, (), definition(waivers=1))
    assert refused(told.run(), "another definition")


def test_a_record_has_one_front(front: Front) -> None:
    front.start()
    first = front.process
    assert refused(front.run(), "another front has the record")
    front.process = first
    assert front.stop().status == 0


# Disks.


def test_questions_and_refusals_are_not_in_the_record(told: Front) -> None:
    told.configure({"lines_per_second": 1_000_000}).start()
    size, client = told.record.stat().st_size, told.client("bob")
    for line, answer in [("NODE a", "NODE a HIGH 0 - PRICE 0 MIN 100 WIN no"), ("BID z 2 a 10", "ERR 22 low")]:
        assert {client.ask(line) for _ in range(300)} == {answer}
    for _ in range(300):
        client.send(b"\xff" * 128 + b"\n")
        assert client.line() == "ERR front line"
    assert told.record.stat().st_size == size


def test_what_the_record_has_no_room_for_is_answered_to_nobody(told: Front) -> None:
    """The server has the command, and the next front finds it."""
    told.start()
    for name, line, number in [("bob", "BID y 1 b 150", 3), ("carl", "BID w 1 c 100", 4), ("carl", "BID w 2 d 100", 5)]:
        # So the record is longer than what stands beside it.
        assert told.ask(name, line) == f"OK {number}"
    assert told.process
    client, size = told.client("bob"), told.record.stat().st_size + 10
    resource.prlimit(told.process.pid, resource.RLIMIT_FSIZE, (size, size))
    client.send(b"BID z 2 b 200\n")
    assert rest_of(client) == []
    ran = told.ended()
    assert ("STOPPED" in ran.output, "the record can't be written" in ran.errors, ran.status) == (False, True, 1)
    assert told.program.count(told.file) == 6
    said = told.start().stop().errors
    assert ("10 bytes are set aside" in said, "1 commands that the last" in said) == (True, True)
    assert told.accepted()[-1] == ("BID z 2 b 200", "OK 6") and len(told.accepted()) == 6


def test_what_has_no_room_beside_the_record_is_not_told_to_the_server(told: Front) -> None:
    told.start()
    assert told.process
    client = told.client("bob")
    resource.prlimit(told.process.pid, resource.RLIMIT_FSIZE, (1_500, 1_500))
    client.send(b"BID z 2 c 200\n")
    assert rest_of(client) == []
    assert told.ended().status == 1 and told.program.count(told.file) == 2


@pytest.mark.parametrize(("behind", "count"), [(1, 0), (2, 1)], ids=["beside the record", "into the record"])
def test_nothing_goes_on_before_a_write_is_on_the_disk(
    front: Front, program: Program, room: Path, library: Callable[[Path], Path], behind: int, count: int, cleanup: ExitStack
) -> None:
    """No command reaches the server before the file beside the record is synced, and none is answered before the record is. By hand: if
    the first of these two syncs hangs, the file keeps nothing; if the second does, it keeps the command. Neither way it is answered."""
    faults = Faults.built(library, room)
    (room / "counted").mkdir()
    counted = Front(program, room / "counted")
    program.keep(counted.file)
    cleanup.callback(counted.kill)
    counted.start(conditions=faults.of(FRONT, counted.config))
    number = faults.counts()["fdatasync"] + behind
    counted.kill()
    front.start(conditions=faults.of(FRONT, front.config, "fdatasync", number, 0))
    client = front.client("ann")
    client.send(b"BID x 1 a 100\n")
    wait_until(lambda: faults.failed() == 1, SECONDS, "a sync that hangs")
    front.kill()
    assert rest_of(client) == []
    wait_until(lambda: program.check(front.file).status == 0, SECONDS, "the server has ended, too")
    assert program.count(front.file) == count


# Kills.

COMMANDS, CONNECTIONS, BIDDERS, LICENCES, NAMED = 5_000, 200, 64, 64, 20
# After so many answers the server is killed, or the front. A bidder gives its connection up after so many lines.
KILLS = {700: "server", 1_700: "server", 2_600: "front", 3_600: "server"}
LINES = 20


@dataclass
class Bidders:
    """64 bidders of 20 names, each of which bids on one licence after another, and the kills under them."""

    front: Front
    lock: Lock = field(default_factory=Lock)
    count: int = 0
    killed: list[str] = field(default_factory=list)
    answers: list[tuple[str, str]] = field(default_factory=list)

    def __post_init__(self) -> None:
        self.callers = [Caller(self.front, f"n{place % NAMED}", seconds=300) for place in range(BIDDERS)]
        self.tickets = [0] * BIDDERS

    def bid(self, licences: range, amount: int) -> None:
        """Returns once all have bid on these."""
        with ThreadPoolExecutor(BIDDERS) as threads:
            list(threads.map(lambda place: self._bid_on_each(place, licences, amount), range(BIDDERS)))

    def _bid_on_each(self, place: int, licences: range, amount: int) -> None:
        for licence in licences:
            self.tickets[place] += 1
            line = f"BID b{place} {self.tickets[place]} l{licence} {amount}"
            self._note(line, self.callers[place].ask(line))
            if self.tickets[place] % LINES == 0:
                self.callers[place].hang_up()

    def _note(self, line: str, answer: str) -> None:
        with self.lock:
            self.answers.append((line, answer))
            self.count += 1
            if what := KILLS.get(self.count):
                self._kill(what)
                self.killed.append(what)

    def _kill(self, what: str) -> None:
        if what == "front":
            self.front.kill()
            self.front.start()
            return
        wait_until(lambda: self.front.child("serve") != 0, SECONDS, "a server")
        os.kill(self.front.child("serve"), SIGKILL)


@pytest.fixture
def crowded(front: Front) -> Iterator[Front]:
    """The front of an auction with 64 bidders of 20 names, and 64 licences on which each may bid."""
    front.file.unlink()
    front.program.keep(front.file, (), bidders_definition(BIDDERS), journal=64)
    front.names = {"desk": "auctioneer", **{f"n{name}": [f"b{place}" for place in range(name, BIDDERS, NAMED)] for name in range(NAMED)}}
    front.write_tokens({name: token_of(name) for name in front.names})
    yield front.configure({"lines_per_second": 1_000_000}, listen=f"127.0.0.1:{free_port()}").start()


@pytest.mark.timeout(600)
def test_kills_of_server_and_front_lose_and_double_no_command(crowded: Front) -> None:
    """Each `OK` that a client read is in the file and in the record, in order, once."""
    bidders, desk = Bidders(crowded), Caller(crowded, "desk")
    left = COMMANDS - BIDDERS * LICENCES
    for number, licences in enumerate([range(LICENCES), range(-(-left // BIDDERS))], 1):
        bidders.bid(licences, 100 * number)
        bidders.answers.append((f"CLOSE {number}", desk.ask(f"CLOSE {number}")))
    assert bidders.killed == list(KILLS.values())
    total = len(bidders.answers)
    assert total >= COMMANDS and sum(caller.connections for caller in bidders.callers) >= CONNECTIONS
    assert crowded.stop().status == 0
    numbers = {int(answer.split()[1]): line for line, answer in bidders.answers if answer.startswith("OK ")}
    assert sorted(numbers) == list(range(1, total + 1)), "each line's OK has a number of its own"
    in_order = [numbers[number] for number in range(1, total + 1)]
    assert crowded.accepted() == [(line, f"OK {number}") for number, line in enumerate(in_order, 1)]
    assert {entry["name"] for entry in crowded.entries("accepted")} == set(crowded.names)
    questions = ["SHOW", *(f"NODE l{place}" for place in range(LICENCES)), *(f"WHO b{place}" for place in range(BIDDERS))]
    kept = crowded.program.run_lines(crowded.file, text_of(questions)).lines()
    in_memory = crowded.program.run(text=bidders_definition(BIDDERS) + text_of([*in_order, *questions])).lines()
    assert kept == in_memory[-len(questions) :] and crowded.program.count(crowded.file) == total
