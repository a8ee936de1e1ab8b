"""A front ends within ten seconds of SIGTERM, whatever hangs, and no call's failure leaves it hanging without a word."""

from __future__ import annotations

import errno
import os
import signal
import time
from collections.abc import Callable, Iterator
from contextlib import suppress
from pathlib import Path

import pytest
from faults import FRONT, PAGE, Faults
from fronts import STOP_SECONDS, Caller, Front, StartsNot, make_certificate
from harness.programs import Program
from harness.serving import Ended, wait_until

PAGE_CONNECTIONS = 256
# The number of threads that the page has before anybody asks it, and a few more.
BEFORE_REQUESTS = 6


@pytest.fixture
def front(program: Program, room: Path) -> Iterator[Front]:
    """A front with a page, for a new auction, not started yet."""
    made = Front(program, room, has_board=True)
    assert program.format(made.file).status == 0
    yield made
    made.kill()


@pytest.fixture
def faults(library: Callable[[Path], Path], room: Path) -> Faults:
    return Faults.built(library, room)


def ends_on_time(front: Front, status: int) -> str:
    """The messages of a front that is asked to stop."""
    ran = front.stop()
    assert ran.status == status, ran
    return ran.errors


def test_a_program_that_says_nothing_is_given_up(front: Front) -> None:
    silent = front.folder / "silent"
    silent.write_text("#!/bin/sh\nexec sleep 1000\n")
    silent.chmod(0o755)
    front.write_config(program=str(silent))
    front.begin()
    wait_until(lambda: front.child("sleep") != 0, 30, "a program that says nothing")
    assert "stopped before clients were let in" in ends_on_time(front, 0)


@pytest.mark.parametrize("call", ["flock", "fdatasync"])
def test_a_record_whose_disk_hangs_at_the_start(front: Front, faults: Faults, call: str) -> None:
    front.begin(conditions=faults.of(FRONT, front.config, call, 1, 0))
    wait_until(lambda: faults.failed() == 1, 30, f"{call} hangs")
    assert "stopped before clients were let in" in ends_on_time(front, 0)


@pytest.mark.timeout(180)
def test_a_record_whose_disk_hangs_under_a_bid(front: Front, program: Program, room: Path, faults: Faults) -> None:
    """The first sync after the moment at which such a front would listen."""
    folder = room / "counted"
    folder.mkdir()
    counted = Front(program, folder, has_board=True)
    assert program.format(counted.file).status == 0
    counted.start(conditions=faults.of(FRONT, counted.config))
    number = faults.counts()["fdatasync"] + 1
    counted.kill()
    front.start(conditions=faults.of(FRONT, front.config, "fdatasync", number, 0))
    client = front.client("ann", seconds=STOP_SECONDS)
    client.send(b"BID x 1 a 100\n")
    wait_until(lambda: faults.failed() == 1, 30, "fdatasync hangs")
    ran = front.stop()
    assert "1 lines that were taken have no answer" in ran.errors
    with pytest.raises((Ended, ConnectionError)):
        client.line()


def test_a_server_that_is_stopped_holds_up_no_end(front: Front) -> None:
    front.start()
    client = front.client("ann")
    os.kill(front.child("serve"), signal.SIGSTOP)
    client.send(b"BID x 1 a 100\n")
    time.sleep(0.3)
    assert ends_on_time(front, 0)


def test_standard_error_that_nobody_reads_holds_up_no_end(front: Front) -> None:
    """The program's own messages lead elsewhere."""
    quiet = front.folder / "quiet"
    quiet.write_text(f'#!/bin/sh\nexec {front.program.path} "$@" 2>/dev/null\n')
    quiet.chmod(0o755)
    front.write_config(program=str(quiet))
    reader, writer = os.pipe()
    os.set_blocking(writer, False)
    try:
        while True:
            os.write(writer, b"x" * 65_536)
    except BlockingIOError:
        os.set_blocking(writer, True)
    process = front.begin(errors=writer)
    assert process.stdout and process.stdout.readline().startswith(b"LISTENING ")
    began = time.monotonic()
    process.send_signal(signal.SIGTERM)
    process.communicate(timeout=STOP_SECONDS)
    assert time.monotonic() - began < STOP_SECONDS
    os.close(reader)


@pytest.mark.parametrize(
    ("call", "number", "error"),
    [*(("pthread_create", number, errno.EAGAIN) for number in range(1, 8)), *(("mmap64", number, errno.ENOMEM) for number in (2, 7))],
)
def test_a_thread_that_is_refused_is_told(front: Front, faults: Faults, call: str, number: int, error: int) -> None:
    """Each thread that a front starts, or the memory for its first call. If it is refused, the front says so, and ends or tries again and
    serves.
    """
    try:
        front.start(conditions=faults.of(FRONT, front.config, call, number, error))
    except StartsNot as ended:
        assert (ended.ran.status, "thread" in ended.ran.errors) == (1, True), ended.ran
        front.start()
    assert Caller(front, "ann").ask("BID x 1 a 100") == "OK 1"
    front.stop()


def test_the_page_gives_places_back_whose_threads_are_refused(front: Front, faults: Faults) -> None:
    """Once the page is up, one after another more threads are refused than it has places."""
    many = PAGE_CONNECTIONS + 50
    front.start(conditions=faults.of(PAGE, front.file, "pthread_create", BEFORE_REQUESTS, errno.EAGAIN, many))
    for _ in range(BEFORE_REQUESTS + many):
        if faults.failed() == many:
            break
        with suppress(OSError):
            front.page("ann", seconds=20)
    assert faults.failed() == many
    assert front.page("ann") == 200
    front.stop()


def test_a_fault_in_a_library_is_told_and_loses_nothing(front: Front) -> None:
    """As the fault of OpenSSL if memory is refused to it: the process ends by a signal."""
    front.start()
    assert Caller(front, "ann").ask("BID x 1 a 100") == "OK 1"
    front.signal(signal.SIGSEGV)
    ran = front.ended()
    assert ran.status == -signal.SIGSEGV and "Fatal Python error: Segmentation fault" in ran.errors
    front.start()
    assert Caller(front, "ann").ask("BID x 1 a 100") == "OK 1"


# Loses the first step of the first task, as a lack of memory may. Python loads this module at its start.
LOST = """
from asyncio import events
run = events.Handle._run
def lost(self):
    events.Handle._run = run
    self._loop.call_exception_handler({"message": "a step is lost", "exception": MemoryError()})
events.Handle._run = lost
"""


# Loses the first task before its first step. Then asyncio says what happened, and hands over no fault.
LOST_TASK = """
from asyncio import base_events
def create_task(self, work, **more):
    work.close()
    self.call_exception_handler({"message": "a task is lost"})
    raise MemoryError
base_events.BaseEventLoop.create_task = create_task
"""


@pytest.mark.parametrize(("lost", "why"), [(LOST, "MemoryError"), (LOST_TASK, "a task is lost")], ids=["step", "task"])
def test_a_first_step_that_is_lost_ends_the_front(front: Front, room: Path, monkeypatch: pytest.MonkeyPatch, lost: str, why: str) -> None:
    """Nothing would ever go on: asyncio only logs it."""
    (room / "sitecustomize.py").write_text(lost)
    monkeypatch.setenv("PYTHONPATH", str(room))
    ran = front.run()
    assert (ran.status, ran.output, ran.errors) == (1, "", f"front: a fault of the front: {why}\n")


# Two faults in a row: a call in a thread fails, and so does the report of it. Python loads this module at its start.
MUTE = """
import time
from hpb.front.tls import Tls
from hpb.pages.following import Follower
class Mute(Exception):
    def __repr__(self):
        raise MemoryError
def step(self):
    raise Mute
def follow(self):
    time.sleep(3)  # The page comes up meanwhile.
    raise Mute
Tls.step, Follower.follow = step, follow
"""


def test_a_fault_of_handshakes_that_cant_be_reported_ends_the_front(front: Front, room: Path, monkeypatch: pytest.MonkeyPatch) -> None:
    """Nobody would be let in any more."""
    (room / "sitecustomize.py").write_text(MUTE)
    monkeypatch.setenv("PYTHONPATH", str(room))
    front.context, front.has_board = make_certificate(front.folder), False
    front.configure(certificate="S", key="K").start()
    with pytest.raises(OSError):
        front.client("ann", seconds=STOP_SECONDS)
    ran = front.ended()
    assert ran.status == 1 and "front: a fault of the front: RuntimeError: the thread of handshakes has ended\n" in ran.errors, ran


def test_a_page_whose_fault_cant_be_reported_is_started_again(front: Front, room: Path, monkeypatch: pytest.MonkeyPatch) -> None:
    """It would show the same state for ever."""
    (room / "sitecustomize.py").write_text(MUTE)
    monkeypatch.setenv("PYTHONPATH", str(room))
    front.start()
    front.wait_until_said("board: following ended, and there was no memory to say why")
    front.wait_until_said("front: the board is gone; it is started again in ")
    assert front.stop().status == 0


def test_two_signals_and_more_end_it_once(front: Front) -> None:
    front.start()
    assert front.process
    for _ in range(3):
        front.signal(signal.SIGTERM)
        front.signal(signal.SIGINT)
    ran = front.ended()
    assert ran.status == 0 and ran.output.splitlines()[-1].startswith("STOPPED 0 ")
