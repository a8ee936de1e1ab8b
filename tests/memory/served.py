"""A file that is served to two sessions while a request for memory is refused."""

from __future__ import annotations

import enum
import shutil
import subprocess
from collections.abc import Callable
from contextlib import suppress
from dataclasses import dataclass, field
from pathlib import Path

from harness.auctions import FIRST_ROUND, rounds, text_of
from harness.programs import Program
from harness.refusals import Refusals, Tried, made_in
from harness.serving import Client, free_port
from memory.endings import BESIDE, ILL, LINE, PLACE, SAID_OF_PLACE, is_said_of_serve
from memory.files import kept

SESSIONS = 2
LINES = [*FIRST_ROUND, *rounds(2)]
# How long an answer, or the end, may take, in seconds.
SECONDS = 20


class End(enum.Enum):
    """How a serving may end."""

    SERVED = "served"
    BY_THE_OTHER = "served by the session that was left"
    EARLY = "ended before all was answered"
    LATER = "told behind the first line"
    MEMORY = "told as memory"
    PLACE = "told as a place"
    TAKEN = "another program has the port"
    NOT_MET = "the request wasn't made"


class Seen(enum.Enum):
    """What a check sees of a serving, and a lie may replace."""

    LINE = "the only line of a server that serves nobody"
    ANSWER = "an answer"
    KEPT = "how many commands the file keeps"


Lie = Callable[[Seen, object], object]


def truth(_what: Seen, seen: object) -> object:
    """No lie."""
    return seen


@dataclass(frozen=True)
class Auction:
    """A program, the file of a new auction, and what `check` shows once all lines were answered."""

    program: Program
    refusals: Refusals
    new: Path
    shown: bytes

    def check(self, file: Path) -> Tried:
        """Shows a file."""
        return self.refusals.run(self.program, ["check", "--file", file], file.parent)


@dataclass
class Serving:
    """A serving of a copy of the file, in a folder. AssertionError if anything is seen that may not be."""

    auction: Auction
    folder: Path
    number: int
    lie: Lie = truth
    answers: list[object] = field(default_factory=list)
    requests: int = 0
    lost: int = 0

    def serve(self) -> End:
        """How it ended."""
        shutil.copyfile(self.auction.new, self.folder / "F")
        end = End.TAKEN
        while end is End.TAKEN:
            end = self._serve_at(free_port())
        return end if self.requests >= self.number else End.NOT_MET

    def _serve_at(self, port: int) -> End:
        conditions = self.auction.refusals.conditions(self.folder, self.number)
        words = ("serve", "--file", "F", "--port", port, "--sessions", SESSIONS)
        process = self.auction.program.start(*words, conditions=conditions)
        assert process.stdout is not None
        try:
            first = process.stdout.readline()
            is_serving = first == b"LISTENING %d\n" % port
            if is_serving:
                self._talk(port)
            output, errors = process.communicate(timeout=SECONDS)
        except (subprocess.TimeoutExpired, TimeoutError):
            raise AssertionError("an answer or the end never comes") from None
        finally:
            process.kill()
            process.communicate()
        self.requests = made_in(self.folder)
        errors = BESIDE.sub(b"", errors)
        if is_serving:
            return self._ended(output, errors, process.returncode)
        return self._refused(self.lie(Seen.LINE, first + output), errors, process.returncode)

    def _talk(self, port: int) -> None:
        """The sessions take turns to send the lines. If one ends before it has answered, another one sends its line again."""
        sessions = self._connected(port)
        place = 0
        for line in LINES:
            answer = None
            while sessions and answer is None:
                session = sessions[place % len(sessions)]
                try:
                    answer = session.ask(line)
                    place += 1
                except ConnectionError:
                    session.close()
                    sessions.remove(session)
                    self.lost += 1
            if answer is None:
                break
            self.answers.append(self.lie(Seen.ANSWER, answer))
        for session in sessions:
            with suppress(OSError):
                session.finish()

    def _connected(self, port: int) -> list[Client]:
        sessions = []
        for _ in range(SESSIONS):
            with suppress(ConnectionError):
                sessions.append(Client(port, SECONDS))
        return sessions

    def _ended(self, output: bytes, errors: bytes, status: int) -> End:
        """The end of a server that served its sessions."""
        wanted = [f"OK {number}" for number in range(1, len(self.answers) + 1)]
        assert self.answers == wanted
        count = self.lie(Seen.KEPT, kept(self.auction.check(self.folder / "F")))
        assert isinstance(count, int)
        assert len(wanted) <= count <= min(len(wanted) + 1, len(LINES)), f"{len(wanted)} answered, {count} kept"
        self._repeat()
        if (output, status, errors) == (b"CLOSED %d\n" % count, 0, b""):
            if len(wanted) < len(LINES):
                return End.EARLY
            return End.BY_THE_OTHER if self.lost else End.SERVED
        assert status == ILL and output in (b"", LINE) and is_said_of_serve(errors), (output, errors, status)
        return End.LATER

    def _refused(self, output: object, errors: bytes, status: int) -> End:
        """The end of a server that served nobody."""
        assert status == ILL and kept(self.auction.check(self.folder / "F")) == 0, (output, errors, status)
        if output in (b"", LINE) and is_said_of_serve(errors):
            return End.MEMORY
        if output == b"ERR 92 stream\n" and b"already in use" in errors:
            return End.TAKEN
        assert output == PLACE and errors.startswith(SAID_OF_PLACE), (output, errors)
        return End.PLACE

    def _repeat(self) -> None:
        """Sends the lines without an answer again, with memory, or else the last line once more. Each gets its number, even if it had
        it before. The file then keeps the same as with memory."""
        first = min(len(self.answers), len(LINES) - 1)
        ran = self.auction.refusals.run(self.auction.program, ["run", "--file", "F"], self.folder, text=text_of(LINES[first:]))
        wanted = "".join(f"OK {number}\n" for number in range(first + 1, len(LINES) + 1)).encode()
        assert (ran.output, ran.status) == (wanted, 0), ran
        assert self.auction.check(self.folder / "F").output == self.auction.shown


# Lies: each is found by the checks above.


def loses(what: Seen, seen: object) -> object:
    """An answer that was given is lost in the file."""
    return seen - 2 if what is Seen.KEPT and isinstance(seen, int) else seen


def doubles(what: Seen, seen: object) -> object:
    """A command has a second number."""
    return "OK 4" if (what, seen) == (Seen.ANSWER, "OK 3") else seen


def drops(what: Seen, seen: object) -> object:
    """A command is never answered."""
    if (what, seen) == (Seen.ANSWER, "OK 3"):
        raise TimeoutError
    return seen


def place_as_memory(what: Seen, seen: object) -> object:
    """A refused place is reported as refused memory."""
    return LINE if what is Seen.LINE and seen == PLACE else seen


