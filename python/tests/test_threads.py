"""Threads, and what they share, with memory that is refused at any step."""
from __future__ import annotations

import _thread
import asyncio
import os
import sys
import threading
import time
from collections.abc import Callable

import pytest

from hpb import threads
from hpb.front import words
from hpb.front.log import Log, Stream
from hpb.front.words import Writer
from hpb.threads import Keeper, Lines, Places, Signal, Thread, Worker, in_thread

SECONDS = 10


def refuse(*_: object, **__: object) -> None:
    """A request for memory that is refused."""
    raise MemoryError


def test_a_thread_that_doesnt_begin_is_missed(monkeypatch: pytest.MonkeyPatch) -> None:
    monkeypatch.setattr(threads, "BEGIN_SECONDS", 0.1)
    monkeypatch.setattr("_thread.start_new_thread", lambda run, arguments: 1)
    with pytest.raises(RuntimeError, match="doesn't begin"):
        Thread(lambda: None).start()


def test_a_loop_goes_on_though_the_thread_of_a_call_doesnt_begin(monkeypatch: pytest.MonkeyPatch) -> None:
    """As if memory were refused to the thread's first call."""
    monkeypatch.setattr(threads, "BEGIN_SECONDS", 0.5)
    monkeypatch.setattr(threads, "LOOK_SECONDS", 0.1)
    monkeypatch.setattr("_thread.start_new_thread", lambda run, arguments: 1)

    async def works() -> int:
        call = asyncio.create_task(in_thread(lambda: None))
        turns = 0
        while not call.done():
            await asyncio.sleep(0.01)
            turns += 1
        with pytest.raises(MemoryError, match="doesn't begin"):
            call.result()
        return turns

    assert asyncio.run(asyncio.wait_for(works(), SECONDS)) > 5


@pytest.mark.filterwarnings("ignore::pytest.PytestUnraisableExceptionWarning")
def test_a_thread_that_fails_has_ended() -> None:
    thread = Thread(refuse).start()
    assert eventually(lambda: thread.has_ended)


class Balky:
    """A lock whose release asks for memory, which is refused so many times."""

    def __init__(self, lock: _thread.LockType, refusals: int) -> None:
        self.lock, self.refusals = lock, refusals

    def __getattr__(self, name: str) -> object:
        return getattr(self.lock, name)

    def release(self) -> None:
        self.refusals -= 1
        if self.refusals >= 0:
            raise MemoryError
        self.lock.release()


@pytest.mark.filterwarnings("ignore::pytest.PytestUnraisableExceptionWarning")
def test_a_thread_that_ends_before_it_has_begun_is_missed() -> None:
    """Within a moment, and not only once its time to begin is over."""
    thread, began = Thread(lambda: None), time.monotonic()
    thread.begun = Balky(thread.begun, 1)  # type: ignore[assignment]
    with pytest.raises(RuntimeError, match="doesn't begin"):
        thread.start()
    assert time.monotonic() - began < threads.BEGIN_SECONDS
    with pytest.raises(RuntimeError, match="the thread of tests has ended"):
        thread.look("tests")


def test_a_keeper_begins_though_memory_for_that_is_refused_first() -> None:
    done = threading.Event()
    kept = Keeper(done.set, 0.001)
    kept.begun = Balky(kept.begun, 3)  # type: ignore[assignment]
    kept.start()
    kept.look("tests")
    assert done.wait(SECONDS)


def test_each_result_and_each_fault_of_a_worker_is_handed_over() -> None:
    def half(number: int) -> int:
        if number % 2:
            raise ValueError(number)
        return number // 2

    async def works() -> None:
        worker = Worker(half)
        assert await asyncio.gather(*(worker.do(number) for number in range(0, 100, 2))) == list(range(50))
        with pytest.raises(ValueError, match="7"):
            await worker.do(7)
        assert await worker.do(8) == 4

    asyncio.run(asyncio.wait_for(works(), SECONDS))


def test_a_call_whose_word_is_lost_is_waited_for_no_longer_than_a_moment(monkeypatch: pytest.MonkeyPatch) -> None:
    async def waits() -> int:
        monkeypatch.setattr(asyncio.get_running_loop(), "call_soon_threadsafe", refuse)
        return await in_thread(lambda: 7)

    assert asyncio.run(asyncio.wait_for(waits(), SECONDS)) == 7


@pytest.mark.filterwarnings("ignore::pytest.PytestUnraisableExceptionWarning")
def test_a_thread_that_ends_before_its_call_is_missed(monkeypatch: pytest.MonkeyPatch) -> None:
    monkeypatch.setattr(threads._Job, "do", refuse)

    async def waits() -> None:
        await in_thread(lambda: 7)

    with pytest.raises(MemoryError, match="the thread has ended"):
        asyncio.run(asyncio.wait_for(waits(), SECONDS))


def test_lines_come_in_their_order_and_stay_until_they_are_done_with() -> None:
    lines = Lines(2)
    assert lines.first(0.01) is None and lines.is_empty()
    assert lines.add(b"a") and lines.add(b"b") and not lines.add(b"c")
    assert lines.first(1) == lines.first(1) == b"a"
    lines.drop()
    assert lines.first(1) == b"b" and not lines.is_empty()
    lines.drop()
    assert lines.first(0.01) is None


def test_a_line_that_comes_later_wakes_who_waits() -> None:
    lines = Lines(2)
    began = time.monotonic()
    threading.Timer(0.1, lambda: lines.add(b"a")).start()
    while lines.first(SECONDS) is None:
        pass
    assert time.monotonic() - began < SECONDS / 2


def test_a_signal_wakes_all_who_wait_and_stays() -> None:
    signal, woken = Signal(), list[bool]()
    assert not signal.wait(0)
    for _ in range(3):
        Thread(lambda: woken.append(signal.wait(SECONDS))).start()
    signal.give()
    signal.give()
    assert eventually(lambda: woken == [True] * 3) and signal.wait(0)


def test_places_are_given_back() -> None:
    places = Places(2)
    assert [places.take() for _ in range(3)] == [True, True, False]
    places.give_back()
    assert [places.take() for _ in range(2)] == [True, False]


def test_work_goes_on_whatever_fails() -> None:
    done = list[int]()

    def work() -> None:
        done.append(1)
        if len(done) % 2:
            raise MemoryError
        time.sleep(0.001)

    Keeper(work, 0.001).start()
    assert eventually(lambda: len(done) > 20)


@pytest.mark.parametrize("kind", [Writer, lambda stream: Log(Stream(stream))], ids=["writer", "log"])
@pytest.mark.filterwarnings("ignore::pytest.PytestUnraisableExceptionWarning")
def test_a_thread_that_writes_asks_for_nothing_before_it_can_go_on(kind: Callable[[int], Writer | Log], monkeypatch: pytest.MonkeyPatch) -> None:
    """Memory for the call of its own work is refused once the thread has begun: a bound method is such a request."""
    main = threading.get_ident()

    def refused(one: object, name: str) -> object:
        if name.startswith("write_") and threading.get_ident() != main and sys._getframe(1).f_code.co_name == "<lambda>":
            raise MemoryError
        return object.__getattribute__(one, name)

    for one in (Writer, Log):
        monkeypatch.setattr(one, "__getattribute__", refused, raising=False)
    made = kind(1)
    thread = made.thread if isinstance(made, Writer) else made.writer
    thread.start()
    time.sleep(0.1)
    assert not thread.has_ended


def test_what_is_lost_is_told_though_memory_for_the_word_of_it_is_refused_once() -> None:
    """Nobody reads the pipe, and the first word of that is lost."""
    reader, output = os.pipe()
    os.close(reader)
    tries, told = list[str](), list[str]()

    def lose(line: str, why: str) -> None:
        tries.append(line)
        if len(tries) == 1:
            raise MemoryError
        told.append(line)

    writer = Writer(output, lose)
    writer.add("STOPPED 1")
    writer.thread.start()
    assert writer.end(SECONDS) == 0 and told == ["STOPPED 1"]
    os.close(output)


@pytest.mark.parametrize("has_begun", [True, False])
@pytest.mark.parametrize(("failures", "lost"), [(1, 0), (2, 1)])
def test_a_line_that_cant_be_written_is_tried_once_more(monkeypatch: pytest.MonkeyPatch, failures: int, lost: int, has_begun: bool) -> None:
    """By the thread that writes, or at the end if that never began. If it fails again the next line is written."""
    written, left = list[bytes](), iter(range(failures))

    def write(stream: int, data: bytes) -> None:
        for _ in left:
            raise OSError(5, "it fails")
        written.append(data)

    monkeypatch.setattr(words, "write_all", write)
    writer = Writer(2, writes=2)
    for line in ("a", "b"):
        writer.add(line)
    if has_begun:
        writer.thread.start()
    assert writer.end(SECONDS) == 0 and written == [b"a\n", b"b\n"][lost:]


def eventually(holds: Callable[[], bool]) -> bool:
    """Whether this holds within some seconds."""
    end = time.monotonic() + SECONDS
    while not holds() and time.monotonic() < end:
        time.sleep(0.001)
    return holds()
