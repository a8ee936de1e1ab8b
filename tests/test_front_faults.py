"""Each call site of a front and of its page fails once with each error: calls to the system, and requests for memory. Nothing hangs, nothing
that was acknowledged is lost, and each failure is reported.

A site is known by the code that leads to it (`sites.h`), so it is the same one however often it is come to. Fronts and pages begin as copies
of a process that has done its imports. At the start and at the end of a front each fault has a front of its own. While it serves, one front
gets many faults, one after the other: the next one comes when all went on behind the last.

A front with a fault waits most of its time. So there are many side by side, each in a lane of its own, and no two try the same fault.

In the gate it is a sample by a seed; the variable SEED chooses another one, and PART one of the parts. With `--long` it is every site.
"""

from __future__ import annotations

import errno
import os
import random
import threading
import time
from collections.abc import Callable, Iterator, Sequence
from dataclasses import dataclass, field
from functools import partial
from pathlib import Path

import pytest
from faults import FRONT, MEMORY, PAGE, SOURCE, calls
from fronts import Front, make_certificate
from harness.conditions import NORMAL
from harness.programs import Program
from page_days import PageDay
from sites import Lane, Nursery, Sweep
from sweeping import Day, Kind, bred, contents, prepared, torn_front

SAMPLE_SECONDS = int(os.environ.get("SAMPLE_SECONDS", 75))
# A sample is one of so many parts of all sites.
SAMPLE_PARTS = int(os.environ.get("SAMPLE_PARTS", 50))
# The seed of the gate is the same each time, so that a change alone makes it fail.
GATE_SEED = 12
# So many fronts or pages run side by side.
SAMPLE_LANES, LONG_LANES = int(os.environ.get("LANES", 7)), int(os.environ.get("LANES", 12))
# A fault of a page behind a front is the first of such a part: so many in a sample, and in the long run.
PAGE_PARTS, SAMPLE_PAGES, LONG_PAGES = 40, 2, 100
# How often a long run says how far it is, in seconds.
REPORT_SECONDS = 60
# So many faults come to one front while it serves, before it is stopped and all it has kept is looked at.
MOST_FAULTS = 25
# After so many that went wrong a sample ends, and the long run.
MOST_WRONG, LONG_WRONG = 12, 200

NETWORK = (errno.ECONNRESET, errno.ENOMEM, errno.EINTR)
DISK = (errno.EIO, errno.ENOSPC)
NAMES = (errno.EACCES, errno.EMFILE)
# The errors with which each call may fail.
ERRORS: dict[str, tuple[int, ...]] = {
    **dict.fromkeys(calls(), (errno.ENOMEM, errno.EINVAL)),
    **dict.fromkeys(("read", "write", "close", "lseek", "lseek64", "pread64", "pwrite64", "ftruncate64", "fsync", "fdatasync"), (*DISK, errno.EINTR)),
    **dict.fromkeys(("recv", "send", "sendto", "shutdown", "connect", "getsockname", "getsockopt", "setsockopt"), NETWORK),
    **dict.fromkeys(("open", "open64", "openat", "openat64", "fopen64", "rename", "unlink", "link", "execve", "opendir"), (*NAMES, errno.EIO)),
    **dict.fromkeys(("accept4",), (errno.EMFILE, errno.ECONNABORTED, errno.ENOMEM)),
    **dict.fromkeys(("fork", "pthread_create"), (errno.EAGAIN, errno.ENOMEM)),
    **dict.fromkeys(MEMORY, (errno.ENOMEM,)),
}


@dataclass
class Shared:
    """What all lanes share. `wrong` are the faults behind which something went wrong. `end` is the time at which no more are tried."""

    program: Program
    room: Path
    library: Path
    sweep: Sweep
    nursery: Nursery
    end: float
    most_wrong: int = MOST_WRONG
    wrong: list[str] = field(default_factory=list)
    # Phases, by their numbers, in which one lane has found nothing left to try.
    over: set[int] = field(default_factory=set)

    @classmethod
    def of(cls, program: Program, room: Path, library: Path, module: str, part: int, parts: int, seconds: float) -> Shared:
        """Of the sites of a front or a page one part is tried, or those alone that the variable SITE names. TRIED names a file that keeps which
        were tried from one run to the next.
        """
        only = [int(key, 16) for key in os.environ.get("SITE", "").split()]
        kept = os.environ.get("TRIED")
        sweep = Sweep(Path(f"{kept}.{module}") if kept else room / "sites", ERRORS, part, parts, only)
        words = ["--config", "C"] if module == FRONT else ["C", "10", "11"]
        make_certificate(room)
        return cls(program, room, library, sweep, Nursery(library, module, words, sweep), time.monotonic() + seconds)


class Sweeper:
    """Days with faults in one lane, one after the other, in folders of their own."""

    def __init__(self, shared: Shared, lane: Lane) -> None:
        self.shared, self.lane, self.count = shared, lane, 0
        self.program, self.nursery, self.wrong = shared.program, shared.nursery, shared.wrong
        self.day: Day | PageDay | None = None

    def has_time(self) -> bool:
        return time.monotonic() < self.shared.end and len(self.wrong) < self.shared.most_wrong

    def folder(self) -> Path:
        self.count += 1
        return self.shared.room / f"{self.lane.number}-{self.count}"

    def new_day(self, kind: Kind) -> Day:
        """A front of its own, which isn't started."""
        self.drop()
        self.day = made = Day(bred(self.program, self.folder(), self.nursery, self.lane, kind), self.lane)
        return made

    def drop(self) -> None:
        """Ends the day, and leaves nothing of it."""
        if self.day:
            self.day.kill()
        self.day = None

    def look(self, work: Callable[[], None], faults: Sequence[str] = ()) -> bool:
        """Whether all went well. If not, it is noted with the faults that led to it."""
        try:
            work()
        except Exception as wrong:
            lane = self.day.lane if self.day else self.lane
            lane.disarm()
            said = self.day.said() if self.day else ""
            self.wrong.append(f"{wrong!r}\nbehind {lane.last()}\nit said {said!r}\nfaults before that: {list(faults)}")
            print(f"{self.wrong[-1]}\n", flush=True)
            self.drop()
            return False
        return True

    # Starts.

    def begin(self, made: Callable[[], Day]) -> None:
        """Faults while a front starts. If it ended and changed no file, the folder is as good as new; else a day follows."""
        has_failed = True
        while has_failed and self.has_time():
            day = made()
            before = contents(day.front.folder)

            def work() -> None:
                nonlocal has_failed
                is_new = True
                while is_new and has_failed and self.has_time():
                    has_failed = day.start_with_fault()
                    is_new = not day.front.is_running() and contents(day.front.folder) == before
                if not is_new:
                    day.pass_by()

            self.look(work)

    # While it serves.

    def serve(self, kind: Kind) -> None:
        """Faults while a front serves."""
        is_done = False
        while not is_done and self.has_time():
            day, faults = self.new_day(kind), list[str]()

            def work() -> None:
                nonlocal is_done
                day.start()
                is_done = self.take_steps(day, faults)
                day.pass_by()

            self.look(work, faults)

    def take_steps(self, day: Day, faults: list[str]) -> bool:
        """Whether nothing failed in any step, each of which was tried until nothing failed in it."""
        is_done = True
        for step in day.steps():
            while self.has_time():
                self.lane.arm()
                step()
                if not self.lane.disarm():
                    break
                is_done = False
                faults.append(self.lane.last().split(";")[0])
                if len(faults) == MOST_FAULTS:
                    return False
        return is_done

    # The end.

    def stop(self, kind: Kind) -> None:
        """Faults while a front ends."""
        has_failed = True
        while has_failed and self.has_time():
            day = self.new_day(kind)

            def work() -> None:
                nonlocal has_failed
                day.start()
                day.hold_round()
                self.lane.arm()
                day.end()
                has_failed = self.lane.disarm()
                day.look_at_rest()

            self.look(work)

    # The page.

    def page(self, phase: Callable[[PageDay], Iterator[bool]]) -> None:
        """Faults of a page in a phase of it."""
        is_done = False
        while not is_done and self.has_time():
            self.drop()
            self.day = day = PageDay(self.nursery, self.lane, self.program, self.folder())

            def work() -> None:
                nonlocal is_done
                before = self.lane.count()
                is_done = all(self.has_time() for _ in phase(day)) and self.lane.count() == before

            self.look(work)

    def page_of_front(self, source: random.Random, most: int) -> int:
        """Faults of a page that a front has started: the front ends, or starts it again. Returns how many there were."""
        found = 0
        for _ in range(most):
            if not self.has_time():
                break
            self.drop()
            folder = self.folder()
            folder.mkdir()
            sweep = Sweep(self.shared.room / "page-sites", ERRORS, source.randrange(PAGE_PARTS), PAGE_PARTS)
            day = self.day = Day(prepared(Front(self.program, folder, has_board=True), Kind.PAGE), sweep.lane())
            conditions = NORMAL.with_library(
                self.shared.library, FAULT_IN=PAGE, FAULT_FROM="", FAULT_SITES=str(sweep.path), PYTHONMALLOC="malloc"
            )

            def work() -> None:
                day.start_with_fault(conditions)
                day.pass_by()

            self.look(work)
            found += sweep.lane().count()
        return found


def phases_of(sweeper: Sweeper, module: str) -> list[Callable[[], None]]:
    """The phases of a front or a page. Most sites of a front need no TLS, and fewer still a page, whose start takes longest. So those are tried
    first that do without.
    """
    if module == PAGE:
        return [partial(sweeper.page, phase) for phase in (PageDay.begin_with_faults, PageDay.serve_with_faults, PageDay.end_with_faults)]
    phases: list[Callable[[], None]] = []
    for kind in Kind:
        phases += [partial(sweeper.begin, partial(sweeper.new_day, kind)), partial(sweeper.serve, kind), partial(sweeper.stop, kind)]
    return [*phases, lambda: sweeper.begin(lambda: torn_front(sweeper.new_day(Kind.CLEAR)))]


Sweeps = Callable[..., None]


@pytest.fixture
def sweep(program: Program, memory: Path, library: Callable[[Path], Path]) -> Sweeps:
    """Sweeps a part of the sites of a front or a page: `sweep(module, part, parts, lanes, pages, seconds, source)`. AssertionError has all that
    went wrong.
    """

    def sweeps(module: str, part: int, parts: int, lanes: int, pages: int, seconds: float, source: random.Random, most_wrong: int) -> None:
        shared = Shared.of(program, memory, library(SOURCE), module, part, parts, seconds)
        shared.most_wrong = most_wrong
        sweepers = [Sweeper(shared, shared.sweep.lane(number)) for number in range(lanes)]
        try:
            count = go_through(sweepers, module, is_sample=parts > 1)
            if module == PAGE:
                count += sweepers[0].page_of_front(source, pages)
        finally:
            for sweeper in sweepers:
                sweeper.drop()
            shared.nursery.end()
        print(f"{count} faults, {len(shared.wrong)} of them wrong", flush=True)
        assert not shared.wrong, f"{len(shared.wrong)} of {count} faults went wrong:\n\n" + "\n\n".join(shared.wrong)
        assert count > 0

    return sweeps


def go_through(sweepers: Sequence[Sweeper], module: str, is_sample: bool) -> int:
    """All phases of all lanes side by side. Returns how many faults there were. Each lane goes through all phases. In a sample most of that
    would be passes without a fault, so each lane begins with another phase, and leaves out those that are over.
    """
    began, failed = time.monotonic(), list[BaseException]()

    def go(number: int, sweeper: Sweeper) -> None:
        try:
            phases = list(enumerate(phases_of(sweeper, module)))
            first = number % len(phases) if is_sample else 0
            for place, phase in phases[first:] + phases[:first]:
                if not is_sample or place not in sweeper.shared.over:
                    phase()
                sweeper.shared.over.add(place)
        except BaseException as fault:
            failed.append(fault)

    threads = [threading.Thread(target=go, args=given, daemon=True) for given in enumerate(sweepers)]
    for thread in threads:
        thread.start()
    while any(thread.is_alive() for thread in threads):
        end = time.monotonic() + REPORT_SECONDS
        for thread in threads:
            thread.join(max(0.0, end - time.monotonic()))
        count = sum(sweeper.lane.count() for sweeper in sweepers)
        print(f"{count} faults within {time.monotonic() - began:.0f} s, {len(sweepers[0].wrong)} of them wrong", flush=True)
    if failed:
        raise failed[0]
    return count


@pytest.mark.timeout(SAMPLE_SECONDS + 180)
@pytest.mark.parametrize("module", [FRONT, PAGE])
def test_a_sample_of_all_faults(sweep: Sweeps, module: str) -> None:
    seed = int(os.environ.get("SEED", GATE_SEED))
    print(f"SEED={seed}")
    source = random.Random(seed)
    chosen = source.randrange(SAMPLE_PARTS)
    sweep(module, int(os.environ.get("PART", chosen)), SAMPLE_PARTS, SAMPLE_LANES, SAMPLE_PAGES, SAMPLE_SECONDS, source, MOST_WRONG)


@pytest.mark.long
@pytest.mark.timeout(0)
@pytest.mark.parametrize("module", [FRONT, PAGE])
def test_all_faults(sweep: Sweeps, module: str) -> None:
    sweep(module, 0, 1, LONG_LANES, LONG_PAGES, float("inf"), random.Random(1), LONG_WRONG)
