"""Threads, and what they share, that no lack of memory makes hang.

Python's own `threading.Thread`, `Condition`, `Event` and `queue.Queue` ask for memory while they hold a lock, or while another thread waits
for them. If that is refused once, the lock stays held, or the wait has no end. A plain lock needs none, if it is freed by `release` in a
`finally`: the end of `with lock` asks for memory, too.
"""
import _thread
import asyncio
import collections
import contextvars
import time
from collections.abc import Callable
from typing import Generic, TypeVar

# A thread that was started has so many seconds to begin.
BEGIN_SECONDS = 10.0
# How long a result is waited for until it is looked whether the word of it was lost, in seconds.
LOOK_SECONDS = 1.0

Given = TypeVar("Given")
Result = TypeVar("Result")


def held_lock() -> _thread.LockType:
    """A lock that is held from the beginning."""
    lock = _thread.allocate_lock()
    lock.acquire()
    return lock


def free(lock: _thread.LockType) -> None:
    """Frees a lock, if it is held."""
    try:
        lock.release()
    except RuntimeError:
        pass


class Thread:
    """A thread that runs a call once. It doesn't keep the process from ending."""

    def __init__(self, run: Callable[[], object]) -> None:
        self.run, self.begun, self.has_ended = run, held_lock(), False

    def start(self) -> "Thread":
        """Waits until it has begun. A RuntimeError says that the system gives no thread, or that it doesn't begin."""
        self.launch()
        end = time.monotonic() + BEGIN_SECONDS
        while not self.begun.acquire(timeout=min(LOOK_SECONDS, BEGIN_SECONDS)):
            if self.has_ended or time.monotonic() > end:
                raise RuntimeError("a new thread doesn't begin")
        free(self.begun)
        return self

    def launch(self) -> "Thread":
        """Starts it, and waits for nothing. A RuntimeError says that the system gives no thread. If memory is refused to its first call, it
        never begins."""
        _thread.start_new_thread(self._run, ())
        return self

    def look(self, name: str) -> None:
        """Raises a RuntimeError if it has ended. Memory may have been refused to every report of that, or to its first call."""
        if self.has_ended:
            raise RuntimeError(f"the thread of {name} has ended")

    def _run(self) -> None:
        try:
            self.begun.release()
            self.run()
        finally:
            self.has_ended = True


class Signal:
    """A signal that is given once, and that threads may wait for."""

    def __init__(self) -> None:
        self._ungiven = held_lock()

    def give(self) -> None:
        free(self._ungiven)

    def wait(self, seconds: float = -1.0) -> bool:
        """Whether it was given within so many seconds. Without a number it waits as long as it takes."""
        if not self._ungiven.acquire(timeout=seconds):
            return False
        # A call of `free` may ask for memory, and without that nobody else would see the signal.
        try:
            self._ungiven.release()
        except RuntimeError:
            pass
        return True


class Places:
    """A number of places, each of which is taken and given back."""

    def __init__(self, most: int) -> None:
        self._left, self._lock = most, _thread.allocate_lock()

    def take(self) -> bool:
        """Takes a place. False if none is left."""
        self._lock.acquire()
        try:
            is_left = self._left > 0
            self._left -= is_left
        finally:
            self._lock.release()
        return is_left

    def give_back(self) -> None:
        self._lock.acquire()
        try:
            self._left += 1
        finally:
            self._lock.release()


class Lines:
    """Lines on their way to a thread, at most so many. The thread looks at the first one, and drops it once it is done with it."""

    def __init__(self, most: int) -> None:
        self._most, self._come = most, held_lock()
        self._lines: collections.deque[bytes] = collections.deque()

    def add(self, line: bytes) -> bool:
        """False if there is no room for it."""
        if len(self._lines) >= self._most:
            return False
        self._lines.append(line)
        if self._come.locked():
            free(self._come)
        return True

    def first(self, seconds: float) -> bytes | None:
        """The first line, or None if none comes within so many seconds."""
        if not self._lines:
            self._come.acquire(timeout=seconds)
        return self._lines[0] if self._lines else None

    def drop(self) -> None:
        """The first line is done with."""
        self._lines.popleft()

    def is_empty(self) -> bool:
        return not self._lines

    def __len__(self) -> int:
        return len(self._lines)


class _Job(Generic[Given, Result]):
    """A call in another thread, for a task that waits."""

    def __init__(self, given: Given) -> None:
        self.given, self.is_done = given, False
        self.result: Result | None = None
        self.fault: BaseException | None = None
        self.loop = asyncio.get_running_loop()
        self.woken: asyncio.Future[None] = self.loop.create_future()
        # A thread that needs a context of its own asks for memory.
        self.context = contextvars.copy_context()

    def do(self, call: Callable[[Given], Result]) -> None:
        """Runs in the other thread."""
        try:
            self.result = call(self.given)
        except BaseException as fault:
            self.fault = fault
        self.is_done = True
        # If this fails, the task that waits looks by itself.
        try:
            self.loop.call_soon_threadsafe(self.wake, context=self.context)
        except Exception:
            pass

    def wake(self) -> None:
        if not self.woken.done():
            self.woken.set_result(None)

    async def wait(self, thread: Thread) -> Result:
        """The result. MemoryError if the thread has ended without one, or doesn't begin in time."""
        end = time.monotonic() + BEGIN_SECONDS
        while not self.is_done:
            await asyncio.wait({self.woken}, timeout=LOOK_SECONDS)
            if thread.has_ended and not self.is_done:
                raise MemoryError("the thread has ended")
            if thread.begun.locked() and time.monotonic() > end:
                raise MemoryError("a new thread doesn't begin")
        if self.fault:
            raise self.fault
        return self.result  # type: ignore[return-value]


class Worker(Generic[Given, Result]):
    """Makes the same call again and again in a thread of its own, each time for a task that waits for its result."""

    def __init__(self, call: Callable[[Given], Result]) -> None:
        self._call, self._come = call, held_lock()
        self._jobs: collections.deque[_Job[Given, Result]] = collections.deque()
        self._thread = Thread(self._keep_working).start()

    async def do(self, given: Given) -> Result:
        job = _Job[Given, Result](given)
        self._jobs.append(job)
        free(self._come)
        return await job.wait(self._thread)

    def _keep_working(self) -> None:
        while True:
            self._come.acquire()
            while self._jobs:
                self._jobs.popleft().do(self._call)


async def in_thread(call: Callable[[], Result]) -> Result:
    """The result of a call, which a thread of its own makes. The loop goes on meanwhile, even if the thread doesn't begin."""
    job = _Job[None, Result](None)
    return await job.wait(Thread(lambda: job.do(lambda _: call())).launch())


class Keeper(Thread):
    """A thread that does the work again and again. Once it has begun no failure ends it: it goes on after a pause, of so many seconds. The
    thread asks for no memory before it can go on after a refusal: the work is a call that is made already."""

    def __init__(self, work: Callable[[], None], pause: float) -> None:
        super().__init__(work)
        self.pause = pause

    def _run(self) -> None:
        has_begun = has_failed = False
        try:
            while True:
                try:
                    if not has_begun:
                        self.begun.release()
                        has_begun = True
                    if has_failed:
                        held_lock().acquire(timeout=self.pause)
                        has_failed = False
                    self.run()
                except Exception:
                    has_failed = True
        finally:
            self.has_ended = True
