"""Fronts with a day of bids, closes, reloads and losses, in which a call site fails. After each fault all goes on, and nothing is lost."""

from __future__ import annotations

import enum
import os
import shutil
import signal
import socket
import ssl
import subprocess
import time
from collections.abc import Callable
from contextlib import closing
from pathlib import Path
from typing import cast

from fronts import Front, StartsNot, rest_of
from harness.auctions import definition
from harness.conditions import NORMAL, Conditions
from harness.programs import Program, Ran
from harness.serving import Client, Ended, wait_until
from sites import Lane, Nursery

from hpb.record import record_entries
from hpb.record.replay import replay
from hpb.record.story import read_story

# How many seconds an answer may take, with a restart of front or server in between.
ANSWER_SECONDS, CLIENT_SECONDS, PAUSE = 40, 10, 0.02
# Prices that rise by a hundredth, so that an auction has as many rounds as are needed.
DEFINITION = definition().replace(b'"percent":10', b'"percent":1')
STEP, PERCENT, FIRST = 10, 1, 100
JOURNAL = 64
# How functions of OpenSSL begin. Some of them end by a signal if memory is refused.
LIBRARIES = ("SSL_", "OPENSSL_", "CRYPTO_", "EVP_", "BIO_", "X509_", "ASN1_", "TLS_")
# Messages that say why no front ended.
EVERYDAY = ("warning: the certificate", "were read again", "is started again", "it is tried again", "were put into the record", "are set aside")


class Kind(enum.IntEnum):
    """A front with connections in clear, one with TLS, and one with a page, too."""

    CLEAR = 0
    TLS = 1
    PAGE = 2


class Bred(Front):
    """A front that is a copy of one that has done its imports."""

    nursery: Nursery
    lane: Lane

    def begin(self, *words: str, **others: object) -> subprocess.Popen[bytes]:
        self.said.seek(0)
        self.said.truncate()
        self.process = cast("subprocess.Popen[bytes]", self.nursery.begin(self.lane, self.folder, self.said.fileno()))
        return self.process


def bred(program: Program, folder: Path, nursery: Nursery, lane: Lane, kind: Kind) -> Front:
    """A front of a new auction, in a new folder."""
    folder.mkdir()
    front = Bred(program, folder, has_board=kind is Kind.PAGE)
    front.nursery, front.lane = nursery, lane
    return prepared(front, kind)


def prepared(front: Front, kind: Kind) -> Front:
    """The front with its file. The certificate stands beside its folder."""
    folder = front.folder
    if kind is not Kind.CLEAR:
        for name in ("S", "K"):
            shutil.copy2(folder.with_name(name), folder)
        front.context = ssl.create_default_context(cafile=folder / "S")
        front.configure(certificate="S", key="K")
    assert front.program.format(front.file, journal=JOURNAL, text=DEFINITION).status == 0
    return front


class Day:
    """A front and its clients. `accepted` are the commands that were answered by OK, in the order of their numbers."""

    def __init__(self, front: Front, lane: Lane) -> None:
        self.front, self.lane = front, lane
        self.accepted: list[str] = []
        self.round, self.amount, self.revenue = 1, FIRST, 0
        # The faults since the record and the file were compared.
        self.faults: list[str] = []

    def said(self) -> str:
        return self.front.words_said()

    def kill(self) -> None:
        """Ends it at once, and leaves nothing of it."""
        self.front.kill()
        self.front.said.close()
        shutil.rmtree(self.front.folder)

    def steps(self) -> list[Callable[[], None]]:
        """What a front does while it serves."""
        pages = [self.see_page, self.lose_page] if self.front.has_board else []
        return [self.hold_round, self.meet_strangers, self.reload, self.lose_server, *pages, self.hold_round]

    def pass_by(self) -> None:
        """The rest of the day, without a fault, and its end."""
        if not self.front.is_running():
            self.start()
        for step in (self.hold_round, *([self.see_page] if self.front.has_board else []), self.reload, self.hold_round):
            step()
        self.end()
        self.look_at_rest()

    # The front.

    def start(self) -> None:
        """Starts it without a fault."""
        self.lane.disarm()
        self.front.start()

    def start_with_fault(self, conditions: Conditions = NORMAL) -> bool:
        """Starts it with a fault. Returns whether a call failed. Then it may have ended, and has to say why."""
        self.lane.arm()
        try:
            self.front.start(conditions=conditions)
        except StartsNot as ended:
            assert self.lane.disarm(), ended
            self.look_at_end(ended.ran)
            return True
        return self.lane.disarm()

    def look_at_end(self, ran: Ran) -> None:
        """If a front ends by itself, it has to say why."""
        assert (ran.status in (1, 2) and reasons(ran)) or self.has_crashed(ran), f"it ended in silence: {ran}"

    def has_crashed(self, ran: Ran) -> bool:
        """Whether a library of C ended it, in whose own code memory was refused. Then Python names the place."""
        is_of_library = any(f" {name}" in self.lane.last() for name in LIBRARIES)
        return is_of_library and ran.status == -signal.SIGSEGV and "Fatal Python error: Segmentation fault" in ran.errors

    def go_on(self) -> None:
        """Starts the front again if it has ended."""
        if not self.front.is_running():
            self.look_at_end(self.front.ended())
            self.start()

    def end(self) -> None:
        """Ends it by a signal: with status 0, or with words."""
        if self.front.is_running():
            ran = self.front.stop()
            assert ran.status == 0 or (ran.status == 1 and reasons(ran)) or self.has_crashed(ran), f"it ended in silence: {ran}"

    # Its clients.

    def ask(self, name: str, line: str) -> str:
        """The answer to a line, from whichever front."""
        end = time.monotonic() + ANSWER_SECONDS
        while time.monotonic() < end:
            self.go_on()
            client: Client | None = None
            try:
                client = self.front.client(name, seconds=CLIENT_SECONDS)
                answer = client.ask(line)
                if not answer.startswith("ERR front"):
                    return answer
            except (OSError, Ended):
                time.sleep(PAUSE)
            finally:
                if client:
                    client.close()
        raise AssertionError(f"no answer to {line!r}: {self.front.words_said()}")

    def tell(self, name: str, line: str) -> None:
        """A command, which has to be accepted under the next number."""
        answer = self.ask(name, line)
        assert answer == f"OK {len(self.accepted) + 1}", f"{line!r} is answered {answer!r}"
        self.accepted.append(line)

    def hold_round(self) -> None:
        """Two bids, a close, a question, and a command that is repeated."""
        self.tell("ann", f"BID x {self.round} a {self.amount}")
        self.tell("bob", f"BID y {self.round} b {self.amount}")
        self.tell("desk", f"CLOSE {self.round}")
        self.round, self.revenue = self.round + 1, 2 * self.amount
        self.amount = -(-self.amount * (100 + PERCENT) // (100 * STEP)) * STEP
        shown = f"ROUND {self.round} STAGE 1 OPEN REVENUE {self.revenue} COUNT {len(self.accepted)}"
        assert (found := self.ask("public", "SHOW")) == shown, found
        assert (found := self.ask("desk", self.accepted[-1])) == f"OK {len(self.accepted)}", found

    def see_page(self) -> None:
        """Waits until the page comes. It may be restarted meanwhile."""
        end = time.monotonic() + ANSWER_SECONDS
        while time.monotonic() < end:
            self.go_on()
            try:
                if self.front.page("ann", seconds=CLIENT_SECONDS) == 200:
                    return
            except (OSError, ValueError):
                pass
            time.sleep(PAUSE)
        raise AssertionError(f"no page: {self.front.words_said()}")

    def meet_strangers(self) -> None:
        """An unknown token, a line that is too long, half a line, and a connection without a line. Each ends, or is answered."""
        for data in (b"TOKEN nobody-has-this-token\n", b"x" * 1000, b"SHOW", b""):
            self.go_on()
            try:
                client = self.front.client(seconds=CLIENT_SECONDS)
            except OSError:
                time.sleep(PAUSE)
                continue
            try:
                client.send(data)
                if self.front.context is None:
                    client.socket.shutdown(socket.SHUT_WR)
                # Over TLS the front doesn't see that a client sends no more, as long as the connection stays.
                answers = rest_of(client) if self.front.context is None or len(data) > len(b"SHOW") else []
                assert all(answer.startswith("ERR front") for answer in answers), answers
            except TimeoutError:
                raise AssertionError(f"{data!r} is neither answered nor ended: {self.front.words_said()}") from None
            except OSError:
                pass
            finally:
                client.close()

    def reload(self) -> None:
        """By SIGHUP the files are read again, or standard error says why not."""
        self.go_on()
        before = len(self.front.words_said())
        try:
            self.front.signal(signal.SIGHUP)
        except ProcessLookupError:
            return
        wait_until(lambda: len(self.front.words_said()) > before or not self.front.is_running(), ANSWER_SECONDS, "nothing is said of a SIGHUP")
        self.go_on()

    def lose_server(self) -> None:
        """The server is killed: it is started again, and nobody notices."""
        self.go_on()
        if server := self.front.child("serve"):
            os.kill(server, signal.SIGKILL)
        self.hold_round()

    def lose_page(self) -> None:
        """The page is killed, and started again."""
        self.go_on()
        if page := self.front.child("viewers"):
            os.kill(page, signal.SIGKILL)
        self.see_page()

    # The file and the record.

    def look_at_rest(self) -> None:
        """Checks that the file and the record have the answered commands, and nothing else. The front has to have ended."""
        story = read_story(record_entries(self.front.record))
        told = replay(story, self.front.program.path)
        told.compare(self.front.file, self.front.program.path)
        assert not [*story.faults, *told.faults], [*story.faults, *told.faults]
        assert [command.line for command in story.commands] == self.accepted
        assert self.front.program.count(self.front.file) == len(self.accepted)


def reasons(ran: Ran) -> list[str]:
    """The messages of a front that may say why it ended."""
    return [line for line in ran.errors.splitlines() if line.startswith("front: ") and not any(words in line for words in EVERYDAY)]


def torn_front(day: Day) -> Day:
    """A front that was killed while its server had a command, and whose record has a torn end."""
    day.start()
    day.hold_round()
    server, beside = day.front.child("serve"), day.front.folder / "R.asked"
    os.kill(server, signal.SIGSTOP)
    line = f"BID x {day.round} a {day.amount}"
    with closing(day.front.client("ann")) as client:
        client.send(line.encode() + b"\n")
        wait_until(lambda: line.encode() in beside.read_bytes(), ANSWER_SECONDS, "the command beside the record")
        day.front.kill()
    with open(day.front.record, "ab") as record:
        record.write(b'0123 {"entry":')
    return day


def contents(folder: Path) -> dict[str, bytes]:
    """The files of a front, but for its log."""
    return {path.name: path.read_bytes() for path in folder.iterdir() if path.is_file() and not path.name.startswith("R.log")}
