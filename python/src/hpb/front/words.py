"""What a front writes on standard output and standard error (docs/FRONT.md)."""
import os
import select
import time
from collections.abc import Callable

from hpb.streams import STANDARD_ERROR, STANDARD_OUTPUT, write_all
from hpb.threads import Keeper, Lines

# So many lines wait for a reader, who may have stopped the terminal by Ctrl-S. Lines beyond that are only counted.
MOST_UNREAD = 1_000
# Seconds in which the last of them may still be read.
READ_SECONDS = 2.0
POLL_SECONDS = 0.02
# Seconds in which a line may come until it is looked again, and between two tries of a line for which there was no memory; and how many tries.
LOOK_SECONDS, PAUSE, TRIES = 1.0, 0.05, 20


class Writer:
    """Writes lines to a stream in a thread of its own, so that bidders don't wait for whoever reads the stream. `lose` gets the first line
    that can't be written, and the reason. A line is written `writes` times, until that doesn't fail."""

    def __init__(self, stream: int, lose: Callable[[str, str], None] = lambda line, why: None, writes: int = 1) -> None:
        self.stream, self.left_out, self.lose, self.has_failed, self.writes = stream, 0, lose, False, writes
        self.lines, self.tries, self.thread = Lines(MOST_UNREAD), 0, Keeper(self.write_next, PAUSE)

    def add(self, text: str) -> None:
        if not self.lines.add(f"{text}\n".encode(errors="backslashreplace")):
            self.left_out += 1

    def write_next(self) -> None:
        """Writes the first line. A MemoryError or an OSError says that it stays the first one, and is to be tried again."""
        data = self.lines.first(LOOK_SECONDS)
        if not data:
            return
        try:
            self.tries += 1
            write_all(self.stream, b"front: %d lines weren't read in time, and are left out\n" % self.left_out + data if self.left_out else data)
            self.left_out = 0
        except OSError as fault:
            if self.tries < self.writes:
                raise
            self.fail(data, fault.strerror or "it failed")
        except MemoryError:
            if self.tries < TRIES:
                raise
            self.fail(data, "no memory")
        self.tries = 0
        self.lines.drop()

    def fail(self, data: bytes, why: str) -> None:
        if not self.has_failed:
            self.lose(data.decode(errors="replace").rstrip(), why)
            self.has_failed = True

    def end(self, seconds: float) -> int:
        """Waits at most so many seconds until all lines are read, and returns how many aren't. If the thread hasn't begun, the lines
        are written here."""
        end = time.monotonic() + seconds
        while self.thread.begun.locked() and not self.lines.is_empty():
            try:
                self.write_next()
            except (MemoryError, OSError):
                pass
        while not self.lines.is_empty() and time.monotonic() < end:
            time.sleep(POLL_SECONDS)
        return len(self.lines)


class Teller:
    """The front's output: messages on standard error, and results on standard output."""

    def __init__(self) -> None:
        # Nobody learns that standard error lost a line, so that isn't given up at once.
        self.errors, self.output = Writer(STANDARD_ERROR, writes=2), Writer(STANDARD_OUTPUT, self.lose)
        # Gets the first line that standard output loses, in the thread that writes.
        self.lost: Callable[[str], None] = lambda line: None

    def start(self) -> None:
        """Starts a thread for each. A RuntimeError says that the system has none."""
        self.errors.thread.start()
        self.output.thread.start()

    def say(self, text: object) -> None:
        """Writes a message on standard error."""
        self.errors.add(f"front: {text}")

    def tell(self, text: str) -> None:
        """Writes a line on standard output."""
        self.output.add(text)

    def lose(self, line: str, why: str) -> None:
        self.say(f"standard output can't be written: {why}")
        self.lost(line)

    def end(self) -> bool:
        """Waits until all is read, two seconds at most. The result is whether all lines for standard output could be written."""
        unread = self.output.end(READ_SECONDS / 2)
        if unread:
            self.say(f"nobody reads standard output: its last {unread} lines are missing")
        self.errors.end(READ_SECONDS / 2)
        return not self.output.has_failed and not unread


def cry(data: bytes) -> None:
    """Writes last words on standard error, if that doesn't block: nothing else is sure to work any more, not even `contextlib.suppress`."""
    try:
        if select.select([], [STANDARD_ERROR], [], 0)[1]:
            os.write(STANDARD_ERROR, data)
    except Exception:
        pass
