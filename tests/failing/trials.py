"""A file that is served to bidders while calls of the program fail, and all that has to hold then and afterwards."""

from __future__ import annotations

import functools
import resource
import tempfile
from collections.abc import Callable, Iterable, Sequence
from contextlib import ExitStack
from pathlib import Path

from calls.promises import Durable, broken_promises, last_number
from failing.bidders import FacedBidder, attend, wrong_of
from harness.auctions import PAGE, Layout, text_of
from harness.bidding import LICENCES, bidders_definition
from harness.conditions import Conditions
from harness.failing_calls import FailingCalls, Rule
from harness.file_calls import Call, Recorder
from harness.full_disks import SIZE
from harness.notices import without_places
from harness.programs import Program, Ran
from harness.serving import Client, Server, free_port
from outside.answering import same
from outside.encoder import CHUNKS, OPEN, SLOTS

DEFINITION = bidders_definition(64)
# Before it is served a file keeps these, in a batch and a checkpoint each.
FIRST = ["BID b63 1 l0 100", "BID b62 1 l0 100"]
QUESTIONS = ["CLOSE 1", "SHOW", *(f"NODE l{place}" for place in range(LICENCES))]
# How long an answer may take, in seconds.
BOUND = 10
MOST_SESSIONS = 32
# How long each sync takes, in microseconds. Bids gather meanwhile.
DELAY = 300
# The program writes the first of these when a call fails, and the second at its end.
DISK_FAILS = "hpb: 91 device: a call of the disk of "
DISK = "hpb: 91 device: the disk of "
# The calls of the device, by their purpose.
COMMIT = ("batch", "sync behind batch", "frame opened", "sync behind frame opened")
CHECKPOINT = {
    *("slot closed", "sync behind slot closed", "page 0", "page 1", "page 2", "page 3", "sync behind page 3"),
    *("slot opened", "sync behind slot opened", "frame closed", "sync behind frame closed"),
}
# How many times in a row all threads have to be seen asleep.
CALM = 3


@functools.cache
def template(program: Program, layout: Layout) -> bytes:
    """The bytes of a file that keeps FIRST, each command in a batch and a checkpoint of its own."""
    with tempfile.TemporaryDirectory() as folder:
        file = Path(folder) / "F"
        assert program.format(file, layout, text=DEFINITION).status == 0
        assert program.run_lines(file, text_of(FIRST), "--every", 1).status == 0
        return file.read_bytes()


def fronts_of(said: str) -> list[str]:
    """The fronts of the lines, as far as a failed disk has such."""
    return [line[: len(front)] for line, front in zip(said.splitlines(), (DISK_FAILS, DISK))]


class Trial:
    """A file of one layout in a folder, and a program whose calls fail. Servers end with it."""

    def __init__(self, program: Program, layout: Layout, folder: Path, faults: FailingCalls, recorder: Recorder) -> None:
        self.program, self.layout, self.folder, self.faults, self.recorder = program, layout, folder, faults, recorder
        self.file, self.before = folder / "F", template(program, layout)
        # How long an answer or the end may take, in seconds.
        self.bound: float = BOUND
        self._stack = ExitStack()
        self.begin()

    def begin(self, *, is_traced: bool = False, is_harmless: bool = False) -> Trial:
        """Begins anew, with the first file. If the trial is traced, its calls are held against the promises, too. If what fails is harmless,
        the server ends well.
        """
        self.close()
        self.is_traced, self.is_harmless, self.is_limited, self.is_met = is_traced, is_harmless, False, False
        self._is_refused = False
        self.stage: str | None = None
        self.bidders: list[FacedBidder] = []
        self.file.write_bytes(self.before)
        self.faults.forget()
        return self

    def close(self) -> None:
        """Ends servers and connections."""
        self._stack.close()

    # A server, and its sessions.

    def serve(self, sessions: int, lie: str = "") -> Trial:
        """Begins to serve the file. No call fails until one is set to."""
        self.faults.forget(DELAY)
        beside = self.recorder.conditions(lie) if self.is_traced else Conditions()
        return self.start(sessions, self.faults.conditions(beside))

    def start(self, sessions: int, conditions: Conditions | None = None) -> Trial:
        """Begins to serve the file under the faults that are set, or under other conditions."""
        given = self.faults.conditions() if conditions is None else conditions
        # If a call is refused at the start, that has to be seen: with a port of its own, nothing is tried once more.
        port = free_port() if self._is_refused else None
        self.server = self._stack.enter_context(Server(self.program, self.file, sessions, port, conditions=given))
        return self

    def refuse(self, *rules: Rule) -> Trial:
        """Sets calls to fail before the file is served."""
        self.faults.forget(DELAY)
        self.faults.set(*rules)
        self._is_refused = True
        return self

    def served(self, sessions: int = 1, conditions: Conditions | None = None) -> tuple[int, Ran]:
        """Serves without a client: the port, and how the program ended."""
        port, given = free_port(), self.faults.conditions() if conditions is None else conditions
        words = ("serve", "--file", self.file, "--port", port, "--sessions", sessions)
        ran = self.program.run(*words, seconds=self.bound, conditions=given)
        return port, Ran(ran.output, without_places(ran.errors, sessions), ran.status, ran.seconds)

    def connect(self, count: int) -> list[Client]:
        """So many sessions, which wait as long for their answers as the trial allows."""
        return [self._stack.enter_context(self.server.connect(self.bound)) for _ in range(count)]

    def join(self, places: Iterable[int], bids: int = LICENCES) -> list[FacedBidder]:
        """These bidders connect."""
        joined = [FacedBidder(place, client=self.connect(1)[0], bids=bids) for place in places]
        self.bidders += joined
        return joined

    def bid(self, places: Iterable[int], bids: int = LICENCES) -> Trial:
        """These bidders connect, and bid to the end."""
        self.attend(self.join(places, bids))
        return self

    def attend(self, bidders: Sequence[FacedBidder], after: int = 0, action: Callable[[], None] = lambda: None) -> None:
        """These bidders bid to the end. After so many answers to them something is done."""
        attend(bidders, after, action)

    def limit(self) -> None:
        """From now on the server may write nothing after the first pages."""
        self.is_limited = True
        resource.prlimit(self.server.process.pid, resource.RLIMIT_FSIZE, (SIZE, SIZE))

    def sleeps(self) -> None:
        """Returns once all threads of the server sleep."""
        self.server.sleeps(CALM)

    def ended(self, tells_ends: bool = True) -> tuple[str, int, str]:
        """Waits for the server's end: the rest of its output, its status, and its messages but for places."""
        ran = self.server.ended(self.bound)
        return ran.output, ran.status, without_places(ran.errors, self.server.sessions, tells_ends)

    def end_all(self, sessions: Sequence[Client], end: str, is_of_disk: bool = False) -> None:
        """AssertionError unless all sessions end well, connections take the places that are left, and then the server ends so."""
        same([session.finish() for session in sessions], [[]] * len(sessions), "the ends of sessions")
        for _ in range(self.server.sessions - len(sessions)):
            self.server.connect().close()
        written, status, said = self.ended()
        found = written, status, said.startswith(DISK_FAILS), DISK in said
        same(found, (end, int(is_of_disk), is_of_disk, is_of_disk), f"the end: {said}")

    # What has to hold.

    def holds(self, tells_ends: bool = True) -> None:
        """AssertionError unless everything holds that has to at the end and after it."""
        self.is_answered()
        self._ends(tells_ends)
        pictures = [self.file, self._holds_calls()] if self.is_traced else [self.file]
        for picture in pictures:
            self.goes_on(picture)

    def is_answered(self) -> None:
        """AssertionError unless every bidder was answered as it should be, and the accepted commands have the next numbers, each once."""
        same(wrong_of(self.bidders)[:3], [], "answers")
        numbers = sorted(number for bidder in self.bidders for number in bidder.numbers.values())
        self.count = len(FIRST) + len(numbers)
        same(numbers, [*range(len(FIRST) + 1, self.count + 1)], "the numbers of those that were accepted")
        self.may_keep = {*range(self.count, self.count + sum(bool(bidder.failed) for bidder in self.bidders) + 1)}

    def _ends(self, tells_ends: bool) -> None:
        """It ends by itself, with the status that the documents give, and says why."""
        written, status, said = self.ended(tells_ends)
        self.is_met = self.is_limited or self.faults.met() > 0
        has_failed = self.is_met and not self.is_harmless
        same((written, status), (f"CLOSED {self.count}\n", int(has_failed)), "the end")
        same(fronts_of(said), [DISK_FAILS, DISK] if has_failed else [], f"the lines of the disk: {said}")
        same(said.count("\n"), 2 * int(has_failed), f"how many lines are said: {said}")
        shown = {count for bidder in self.bidders for count in bidder.counts}
        same(shown - {self.count}, set(), "what is shown after a fault")

    def _holds_calls(self) -> Path:
        """No promise is broken, and nothing is written or synced after the call that failed. Gives the image that a power cut may leave
        then.
        """
        by_threads = self.recorder.by_threads(self.file)
        calls = [call for _, call in by_threads]
        broken = broken_promises(calls, self.before, self.layout, self.layout.least_journal, len(FIRST))
        same([*broken][:3], [], "promises")
        places = [place for place, call in enumerate(calls) if call.is_write or call.is_sync]
        failed = next((place for place in places if calls[place].fault), None)
        if failed is not None and not self.is_harmless:
            self.stage = stage_of(by_threads, failed)
            same([str(calls[place]) for place in places if place > failed], [], "what is asked of the device after that")
        batches = [call for call in calls if call.is_write and written(call) == "batch"]
        self.may_keep = {self.count, *(last_number(call.data) for call in batches[-1:])}
        durable = Durable(self.before)
        for call in calls:
            durable.take(call)
        picture = self.folder / "durable"
        picture.write_bytes(durable.image)
        return picture

    def goes_on(self, picture: Path) -> None:
        """Every command answered by OK is in the file. Of those answered by 93 it has at most one batch, whole or not at all. They are
        sent again.
        """
        kept = self.program.count(picture)
        same(kept in self.may_keep, True, f"whether {picture.name} keeps {kept} commands of {self.count}")
        lines = [line for bidder in self.bidders for line in bidder.lines()[max(0, len(bidder.numbers) - 1) :]]
        again = [line for bidder in self.bidders for line in bidder.lines()[-1:]]
        ran = self.program.run_lines(picture, text_of([*lines, *again, *QUESTIONS]), "--batch", 64)
        same((ran.errors, ran.status), ("", 0), "the run after it")
        answers = ran.lines()
        given, repeated = dict(zip(lines, answers)), dict(zip(again, answers[len(lines) :]))
        for bidder in self.bidders:
            is_repeated(bidder, given, repeated, kept)
        self._is_whole(given, answers[len(lines) + len(again) :])

    def _is_whole(self, given: dict[str, str], shown: Sequence[str]) -> None:
        """Each number belongs to one command. In the order of their numbers they give the auction that is shown."""
        story = dict(enumerate(FIRST, 1))
        for bidder in self.bidders:
            story.update((number, bidder.bid(ticket)) for ticket, number in bidder.numbers.items())
            story.update((number_in(given[line]), line) for line in map(bidder.bid, bidder.failed))
        commands = sum(len(bidder.lines()) for bidder in self.bidders) + len(FIRST)
        same(sorted(story), [*range(1, commands + 1)], "the numbers of all commands")
        ordered = [story[number] for number in sorted(story)]
        told_in_memory = self.program.run(text=DEFINITION + text_of([*ordered, *QUESTIONS])).lines()[len(ordered) :]
        same(shown, told_in_memory, "the auction")


def is_repeated(bidder: FacedBidder, given: dict[str, str], repeated: dict[str, str], kept: int) -> None:
    """The first bid that was answered by 93 may have been kept, and then the one before it is old. The next one was not kept."""
    failed = [bidder.bid(ticket) for ticket in bidder.failed]
    found = [number_in(given[line]) for line in failed]
    is_kept = bool(found) and found[0] <= kept
    if bidder.ticket:
        wanted = "ERR 13 old" if is_kept else f"OK {bidder.numbers[bidder.ticket]}"
        same(given[bidder.bid(bidder.ticket)], wanted, f"{bidder.name}, sent again")
    same([number > kept for number in found[is_kept:]], [True] * len(found[is_kept:]), f"{bidder.name}, what was answered by 93")
    if failed:
        same(repeated[failed[-1]], given[failed[-1]], f"{bidder.name}, sent again and again")


def number_in(answer: str) -> int:
    """The number of an accepted command, or -1."""
    return int(answer[3:]) if answer.startswith("OK ") else -1


def stage_of(calls: Sequence[tuple[int, Call]], failed: int) -> str:
    """The purpose of a call of the device, by the calls of its thread."""
    thread, call = calls[failed]
    behind = ["", *(written(made) for by, made in calls[: failed + 1] if by == thread and made.is_write)]
    return f"sync behind {behind[-1]}" if call.is_sync else behind[-1]


def written(call: Call) -> str:
    """The purpose of a write."""
    for slot in SLOTS:
        if slot < call.at < slot + (1 + CHUNKS) * PAGE:
            return f"page {(call.at - slot) // PAGE - 1}"
    if len(call.data) > 1:
        return "batch"
    return f"{'slot' if call.at in SLOTS else 'frame'} {'opened' if call.data == OPEN else 'closed'}"
