"""Signals to a front, and the limit after which it ends whatever hangs (docs/FRONT.md).

Two threads do nothing else: one takes signals, and the other ends the process if the rest doesn't end it in time. So a loop is ended even
if a disk, a program that doesn't start or a lack of memory holds it up.
"""
import asyncio
import contextvars
import os
import signal
import time
from _signal import sigwait  # type: ignore[import]
from _thread import allocate_lock
from collections.abc import Callable

from hpb.front.words import cry
from hpb.threads import Keeper, Signal

STOPS = (signal.SIGTERM, signal.SIGINT)
SIGNALS = {*STOPS, signal.SIGHUP}
# Seconds from the signal, or from the failure, to the end of the process.
END_SECONDS = 9.5
FAILED = 1
PAUSE = 0.05


def hold_signals() -> None:
    """Blocks the signals, so that they wait for `Watch`. Call it before the first thread starts, since a thread has the signal mask of the
    one that starts it."""
    signal.pthread_sigmask(signal.SIG_BLOCK, SIGNALS)
    # After `stty tostop`, a terminal would stop a background process that writes to it.
    signal.signal(signal.SIGTTOU, signal.SIG_IGN)


def free_signals() -> None:
    """Unblocks the signals in a child, before it runs another program."""
    signal.pthread_sigmask(signal.SIG_UNBLOCK, SIGNALS)


class Watch:
    """Makes a loop stop or reload at a signal, and ends the process if stopping takes too long.

    Signals that come before a loop is attached are kept for it.
    """

    def __init__(self) -> None:
        self.is_told, self.is_reload_told, self.armed, self.lock = False, False, Signal(), allocate_lock()
        # A call from a thread that needs a context of its own asks for memory.
        self.context = contextvars.copy_context()
        self.loop: asyncio.AbstractEventLoop | None = None
        self.stop: Callable[[], None] = lambda: None
        self.reload: Callable[[], None] = lambda: None
        # The signal that was taken last, until all is done about it; and whether the limit is over.
        self.number, self.is_over = 0, False
        self.threads = [Keeper(self.take_next, PAUSE), Keeper(self.keep_limit, PAUSE)]

    def start(self) -> None:
        """A RuntimeError says that the system has no threads."""
        for thread in self.threads:
            thread.start()

    def attach(self, loop: asyncio.AbstractEventLoop, stop: Callable[[], None], reload: Callable[[], None]) -> None:
        """From now on signals call `stop` and `reload` in the loop."""
        self.lock.acquire()
        try:
            self.loop, self.stop, self.reload = loop, stop, reload
            if self.is_told:
                stop()
            elif self.is_reload_told:
                reload()
        finally:
            self.lock.release()

    def take_next(self) -> None:
        """Takes a signal. If anything fails, the next turn has the signal that was taken: without it, only SIGKILL could end the front."""
        # `signal.sigwait` asks for memory when the signal is taken already.
        self.number = self.number or sigwait(SIGNALS)
        self.take(self.number)
        self.number = 0

    def take(self, number: int) -> None:
        if number in STOPS:
            self.is_told = True
            self.arm()
        # A closed loop needs no signals.
        try:
            self.call(number)
        except RuntimeError:
            pass

    def call(self, number: int) -> None:
        self.lock.acquire()
        try:
            self.is_reload_told = self.is_reload_told or number not in STOPS
            if self.loop:
                self.loop.call_soon_threadsafe(self.stop if number in STOPS else self.reload, context=self.context)
        finally:
            self.lock.release()

    def keep_limit(self) -> None:
        """Ends the process some time after it is armed. Whatever fails is tried again."""
        if not self.is_over:
            self.armed.wait()
            time.sleep(END_SECONDS)
        self.is_over = True
        self.end()

    def end(self) -> None:
        cry(b"front: it doesn't come to an end, as where a disk or a program hangs; it ends all the same, and what was answered OK is kept\n")
        os._exit(FAILED)

    def arm(self) -> None:
        """From now on the process ends within the limit, whatever happens."""
        self.armed.give()
