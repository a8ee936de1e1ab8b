"""Definitions, names, numbers, journals, batches, commands and sessions of the least and the greatest sizes. All answers are known by hand,
and a script in memory gives the same. Each test has to fail if a program does a little less (`outside.liar`).

Files are in memory (/dev/shm) if there is such a file system, since a sync takes no time there. Needs 0.5 GB of memory.
"""

from __future__ import annotations

import os
import shutil
import tempfile
import time
from collections.abc import Callable, Iterator
from concurrent.futures import ThreadPoolExecutor
from contextlib import suppress
from dataclasses import replace
from pathlib import Path

import pytest

from harness.auctions import Layout, text_of
from harness.notices import closes
from harness.programs import Program
from harness.serving import Client, Server
from outside.answering import Lines, same
from outside.lies import Liar
from outside.sized import Sized, Terms, Tree, deep, flat, halves, numbers, package
from outside.sizes import GREATEST, SERVED, SizedFile

MOST_COMMANDS = 1_000_000
MOST_AMOUNT = 1_000_000_000_000
MOST_WAIVERS = 20
# The greatest numbers of a definition with the most licences.
MOST = Terms(letters=16, step=1_000_000, percent=50, opening=10_000_000_000, units=1_000_000)
MOST_SESSIONS = 32
LATEST = 2**32 - 1
# A program may hold these too small: the number of batches in a file, and in a house.
BATCHES, HOUSE = 100_000, 65_536
FRAMES = 64
# After so many seconds no more is sent to a house.
BUSY, LONG = 60, 3600

TREES: dict[str, Tree] = {
    "127 nodes": halves(127),
    "65 nodes": package(65),
    "65 nodes on eight levels": deep(65),
    "64 nodes": flat(64),
    "64 nodes in packages": halves(64),
    "2 nodes": flat(2),
    "1 node": flat(1),
}
BIDDERS = (64, 63, 1)
JOURNALS = [(Layout.PAGES, frames) for frames in (5, 4, 64, 1024)] + [(Layout.CELLS, frames) for frames in (24, 16, 64, 1024)]
BATCH_SIZES = (64, 63, 1)
EVERIES = (0, 1, LATEST)


@pytest.fixture
def file(place: Path) -> Iterator[Path]:
    """The name of a file in memory, if there is such a file system."""
    memory = Path("/dev/shm")
    folder = Path(tempfile.mkdtemp(prefix="hpb-sizes-", dir=memory if memory.is_dir() else place))
    folder.chmod(0o711)
    yield folder / "F"
    shutil.rmtree(folder, ignore_errors=True)


def works_with(program: Program, file: Path, layout: Layout, tree: str, bidders: int) -> None:
    """The file of a definition is run for two rounds and a half."""
    auction = Sized(TREES[tree], bidders)
    SizedFile(program, file, layout, auction).works(auction.round * 5 // 2)


@pytest.mark.parametrize("bidders", BIDDERS)
@pytest.mark.parametrize("tree", list(TREES))
def test_definitions(program: Program, file: Path, layout: Layout, tree: str, bidders: int) -> None:
    works_with(program, file, layout, tree, bidders)


# Names as long and as short as they can be; and numbers of a definition as great and as small.
AUCTIONS = {
    "names of 16": (halves(127), 64, Terms(letters=16)),
    "names of 1": (flat(37), 37, Terms(letters=1)),
    "great numbers": (halves(127), 64, replace(MOST, stages=(100,) * 4, waivers=MOST_WAIVERS)),
    "small numbers": (flat(2), 2, Terms(opening=1)),
}


def works_named(program: Program, file: Path, layout: Layout, what: str) -> None:
    """The third round of great numbers would have bids that are too high."""
    tree, bidders, terms = AUCTIONS[what]
    auction = Sized(tree, bidders, terms)
    SizedFile(program, file, layout, auction).works(2 * auction.round - SERVED)


@pytest.mark.parametrize("what", list(AUCTIONS))
def test_names_and_numbers(program: Program, file: Path, layout: Layout, what: str) -> None:
    works_named(program, file, layout, what)


def wraps(program: Program, file: Path, journal: tuple[Layout, int], batch: int, every: int) -> None:
    """A journal is filled more than once."""
    layout, frames = journal
    SizedFile(program, file, layout, frames=frames).works(batch * (frames + 3), batch, every)


@pytest.mark.parametrize("every", EVERIES, ids=["never", "always", "late"])
@pytest.mark.parametrize("batch", BATCH_SIZES)
@pytest.mark.parametrize("journal", JOURNALS, ids=[f"{layout.name.lower()}-{frames}" for layout, frames in JOURNALS])
def test_journals(program: Program, file: Path, journal: tuple[Layout, int], batch: int, every: int) -> None:
    wraps(program, file, journal, batch, every)


@pytest.mark.parametrize("batch", BATCH_SIZES)
@pytest.mark.parametrize("count", [65_536, 1, 0])
def test_commands(program: Program, file: Path, layout: Layout, count: int, batch: int) -> None:
    SizedFile(program, file, layout).works(count, batch)


def has_many_batches(program: Program, file: Path, layout: Layout) -> None:
    """More than so many in one file, and checkpoints that cover more of them; it is opened again and again."""
    end = BATCHES + 2 * FRAMES
    sized = SizedFile(program, file, layout, frames=FRAMES)
    sized.runs(0, end, 1)
    assert sized.covered() > BATCHES
    sized.runs(end, end + 5, 1, 1)
    assert (sized.covered(), sized.batches()) == (end + 5, end + 5)
    sized.serves(end + 5)


def test_many_batches(program: Program, file: Path, layout: Layout) -> None:
    has_many_batches(program, file, layout)


def takes_most(program: Program, file: Path, layout: Layout, batch: int) -> None:
    """All that an auction accepts. Then nothing more is, and the last one is a repeat still."""
    sized = SizedFile(program, file, layout, frames=1024)
    sized.runs(0, MOST_COMMANDS, batch)
    shown = GREATEST.shown(MOST_COMMANDS)
    last, more = GREATEST.lines(MOST_COMMANDS - 1, MOST_COMMANDS + 1)
    closed = MOST_COMMANDS // GREATEST.round
    text = text_of([more, f"CLOSE {closed + 1}", f"CLOSE {closed}", f"CLOSE {closed - 1}", last, "SHOW"])
    repeats = f"OK {closed * GREATEST.round}\nERR 13 old\nOK {MOST_COMMANDS}\n"
    answers = "ERR 26 limit\n" * 2 + repeats + shown.split("\n")[0] + "\n"
    same(program.run_lines(file, text).output, answers)
    with Server(program, file) as server:
        same(server.connect().tell(text), answers)
        closes(server, MOST_COMMANDS)
    sized.shows(MOST_COMMANDS)


def test_most_commands(program: Program, file: Path, layout: Layout) -> None:
    takes_most(program, file, layout, 64)


@pytest.mark.long
@pytest.mark.timeout(600)
def test_a_million_batches(program: Program, file: Path, layout: Layout) -> None:
    takes_most(program, file, layout, 1)


def of_amounts() -> Lines:
    """The greatest bid on each of 64 licences, so that the package of all has the greatest price there may be; and greater bids."""
    auction = Sized(package(65), 2, MOST)
    (first, second), (package_of_all, *licences) = auction.bidders, auction.nodes
    bids = [f"BID {first} {ticket} {licence} {MOST_AMOUNT}" for ticket, licence in enumerate(licences, 1)]
    lines = [*bids, f"BID {second} 1 {package_of_all} {MOST_AMOUNT}", "CLOSE 1"]
    lines += ["SHOW", f"NODE {package_of_all}", f"NODE {licences[-1]}"]
    lines += [f"BID {second} 2 {package_of_all} {amount}" for amount in (MOST_AMOUNT, 96 * MOST_AMOUNT, 2**64 - 1, 2**64)]
    lines += [f"WHO {first}", f"WHO {second}", f"BID {first} {LATEST} {licences[0]} {MOST_AMOUNT}"]
    answers = f"""ROUND 2 STAGE 1 OPEN REVENUE {64 * MOST_AMOUNT} COUNT 66
NODE {package_of_all} HIGH {MOST_AMOUNT} {second} PRICE {64 * MOST_AMOUNT} MIN {96 * MOST_AMOUNT} WIN no
NODE {licences[-1]} HIGH {MOST_AMOUNT} {first} PRICE {MOST_AMOUNT} MIN {MOST_AMOUNT * 3 // 2} WIN yes
ERR 22 low
ERR 23 high
ERR 21 step
ERR 10 line
WHO {first} ELIGIBILITY 64000000 ACTIVITY 64000000 TICKET 64
WHO {second} ELIGIBILITY 64000000 ACTIVITY 0 TICKET 1
ERR 15 gap
"""
    return Lines(auction.definition(), text_of(lines), numbers(0, 66) + answers, 66)


def of_waivers() -> Lines:
    """Each bidder sends all its waivers, one in each round, and keeps its eligibility so long. All stages come one after another."""
    auction = Sized(flat(2), 3, Terms(stages=(50, 60, 70, 100), waivers=MOST_WAIVERS))
    rounds = range(1, MOST_WAIVERS + 1)
    lines = [line for turn in rounds for line in [*(f"WAIVE {bidder} {turn}" for bidder in auction.bidders), f"CLOSE {turn}"]]
    lines += [f"STAGE {ticket}" for ticket in range(21, 24)]
    count, last = len(lines), auction.bidders[-1]
    lines += ["STAGE 24", f"WHO {last}", f"WAIVE {last} 21", "SHOW", "CLOSE 24", f"WHO {last}", "SHOW"]
    answers = f"""ERR 27 stage
WHO {last} ELIGIBILITY 2 ACTIVITY 0 TICKET 20 WAIVERS 0
ERR 28 waiver
ROUND 21 STAGE 4 OPEN REVENUE 0 COUNT {count}
OK {count + 1}
WHO {last} ELIGIBILITY 0 ACTIVITY 0 TICKET 20 WAIVERS 0
ROUND 21 STAGE 4 CLOSED REVENUE 0 COUNT {count + 1}
"""
    return Lines(auction.definition(), text_of(lines), numbers(0, count) + answers, count + 1)


def without_waivers() -> Lines:
    """Nobody has a waiver, and there is no second stage."""
    auction = Sized(flat(2), 64)
    last = auction.bidders[-1]
    answers = f"ERR 28 waiver\nERR 27 stage\nWHO {last} ELIGIBILITY 2 ACTIVITY 0 TICKET 0\n"
    return Lines(auction.definition(), text_of([f"WAIVE {last} 1", "STAGE 1", f"WHO {last}"]), answers, 0)


@pytest.mark.parametrize("make", [of_amounts, of_waivers, without_waivers])
def test_amounts_and_waivers(program: Program, file: Path, layout: Layout, make: Callable[[], Lines]) -> None:
    lines = make()
    lines.script(program)
    lines.run(program, file.with_name("run"), layout)
    lines.session(program, file.with_name("served"), layout)


def talks(program: Program, file: Path, layout: Layout, sessions: int) -> None:
    """All talk at the same time, each for some of the bidders. In the order of their numbers a script gives the same answers."""
    auction = Sized(flat(2), 64)
    bids = auction.lines(0, auction.round - 1)
    # The bids of a bidder are 64 places from each other.
    parts = [[line for at, line in enumerate(bids) if at % 64 % sessions == client] for client in range(sessions)]
    SizedFile(program, file, layout, auction)
    with Server(program, file, sessions) as server:
        clients = [server.connect() for _ in range(sessions)]
        with ThreadPoolExecutor(sessions) as pool:
            answers = pool.map(lambda client, part: [(client.ask(line), line) for line in part], clients, parts)
            answered = sorted((int(answer.removeprefix("OK ")), line) for part in answers for answer, line in part)
        assert [number for number, _ in answered] == list(range(1, len(bids) + 1))
        assert clients[-1].ask("CLOSE 1") == f"OK {auction.round}"
        assert {client.ask("SHOW") for client in clients} == {auction.shown(auction.round).split("\n")[0]}
        assert [client.finish() for client in clients] == [[]] * sessions
        closes(server, auction.round)
    lines = [*(line for _, line in answered), "CLOSE 1", "SHOW", *(f"NODE {node}" for node in auction.nodes)]
    script = program.run(text=auction.definition() + text_of(lines))
    same(numbers(0, auction.round) + program.check(file).output, script.output)


@pytest.mark.parametrize("sessions", [MOST_SESSIONS, MOST_SESSIONS - 1, 2, 1])
def test_sessions(program: Program, file: Path, layout: Layout, sessions: int) -> None:
    talks(program, file, layout, sessions)


@pytest.fixture
def first() -> Iterator[None]:
    """This process, and all that it runs, go before other work, if the system allows it."""
    with suppress(OSError):
        os.sched_setscheduler(0, os.SCHED_RR, os.sched_param(1))
    yield
    os.sched_setscheduler(0, os.SCHED_OTHER, os.sched_param(0))


def ask_each(client: Client, lines: list[str]) -> str:
    """Sends each line when the one before it is answered; fewer of them if the server ends before."""
    answers = []
    with suppress(OSError):
        for line in lines:
            answers.append(f"{client.ask(line)}\n")
        assert client.finish() == []
    return "".join(answers)


def house(program: Program, file: Path, layout: Layout, count: int, seconds: float) -> bool:
    """Each session in turn sends its part of so many commands, each of which is a batch; one is beside them all the time. Gives whether
    all were sent in time."""
    each, end, began = -(-(count + FRAMES) // (MOST_SESSIONS - 1)), 0, time.monotonic()
    sized = SizedFile(program, file, layout, frames=FRAMES)
    with Server(program, file, MOST_SESSIONS) as server:
        *clients, beside = [server.connect() for _ in range(MOST_SESSIONS)]
        for client in clients:
            lines = GREATEST.lines(end, end + each) if time.monotonic() < began + seconds else []
            same(ask_each(client, lines), numbers(end, end + len(lines)))
            end += len(lines)
            same(beside.ask("SHOW"), GREATEST.shown(end).split("\n")[0])
        assert beside.finish() == []
        closes(server, end)
    assert sized.batches() == end
    assert sized.covered() >= end - FRAMES
    sized.shows(end)
    sized.runs(end, end + SERVED)
    return end >= count


@pytest.mark.busy
def test_a_house(program: Program, file: Path, first: None) -> None:
    """A house of 65,536 batches. The rest is left out if the machine has much else to do."""
    if not house(program, file, Layout.PAGES, HOUSE, BUSY):
        pytest.skip(f"a house of {HOUSE} batches takes more than {BUSY} seconds here")


@pytest.mark.long
@pytest.mark.timeout(2 * LONG)
def test_greater_houses(program: Program, file: Path, layout: Layout, first: None) -> None:
    assert house(program, file, layout, BATCHES, LONG)


# Programs that do a little less, each with a check that has to fail.
LIMITED: dict[str, Callable[[Program, Path], None]] = {
    "nodes": lambda program, file: works_with(program, file, Layout.PAGES, "127 nodes", 64),
    "bidders": lambda program, file: works_with(program, file, Layout.PAGES, "127 nodes", 64),
    "shown": lambda program, file: works_with(program, file, Layout.PAGES, "127 nodes", 64),
    "names": lambda program, file: works_named(program, file, Layout.PAGES, "names of 16"),
    "frames": lambda program, file: wraps(program, file, (Layout.PAGES, 5), 64, 0),
    "batches": lambda program, file: wraps(program, file, (Layout.PAGES, 5), 64, 0),
    "commands": lambda program, file: SizedFile(program, file).works(65_536),
    "slots": lambda program, file: has_many_batches(program, file, Layout.PAGES),
    "sessions": lambda program, file: talks(program, file, Layout.PAGES, MOST_SESSIONS),
}


@pytest.mark.parametrize("limit", list(LIMITED))
def test_a_program_that_does_less_is_seen(liar: Liar, file: Path, limit: str) -> None:
    with pytest.raises(AssertionError):
        LIMITED[limit](liar(limit), file)


def test_a_house_that_accepts_less_is_seen(liar: Liar, file: Path) -> None:
    with pytest.raises((AssertionError, OSError)):
        house(liar("accepted:300"), file, Layout.PAGES, 300, BUSY)


@pytest.mark.long
@pytest.mark.timeout(2 * LONG)
def test_a_house_that_stops_after_65536_batches_is_seen(liar: Liar, file: Path, first: None) -> None:
    with pytest.raises((AssertionError, OSError)):
        house(liar(f"accepted:{HOUSE}"), file, Layout.PAGES, HOUSE, LONG)
