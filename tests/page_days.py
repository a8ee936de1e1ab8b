"""A page without its front, whose questions are answered here, and in which a call site fails."""

from __future__ import annotations

import http.client
import shutil
import signal
import socket
import subprocess
import tempfile
import threading
import time
from collections.abc import Callable, Iterator
from pathlib import Path
from typing import cast

from boards import Site
from fronts import Front, token_of
from harness.programs import Program, shown
from harness.serving import ADDRESS, read_line
from sites import Copy, Lane, Nursery
from sweeping import DEFINITION, LIBRARIES

from hpb.front.given import in_memory, written
from hpb.front.terms import read_terms
from hpb.lines import format_answer
from hpb.rules import answer, begin, read_definition

# How many seconds a page has to come up, to show news, and to end once its front is gone.
START_SECONDS, SEE_SECONDS, END_SECONDS = 30, 40, 15
# A viewer gives up a request after so many seconds, and makes another one.
VIEWER_SECONDS = 6
LISTENER, GIVEN = 10, 11


class PageDay:
    """A page of an auction in memory. `count` is how many commands it has."""

    def __init__(self, nursery: Nursery, lane: Lane, program: Program, folder: Path) -> None:
        folder.mkdir()
        self.nursery, self.lane, self.folder, self.count = nursery, lane, folder, 0
        front = Front(program, folder, has_board=True)
        assert program.format(front.file, text=DEFINITION).status == 0
        self.given = written(*read_terms(str(front.config)))
        self.auction = begin(read_definition(DEFINITION))
        self.listener = socket.create_server((ADDRESS, 0))
        self.errors = tempfile.TemporaryFile()
        self.copy: Copy | None = None
        self.mine: socket.socket | None = None
        self.site = Site(self.listener.getsockname()[1], "desk", token_of("desk"), seconds=VIEWER_SECONDS)

    def said(self) -> str:
        self.errors.seek(0)
        return shown(self.errors.read())

    # The page.

    def start(self) -> bool:
        """Starts it. Whether it came up; if not, it has ended."""
        self.stop()
        self.errors.truncate(0)
        self.mine, its = socket.socketpair()
        threading.Thread(target=self.answer_all, args=(self.mine,), daemon=True).start()
        given = in_memory(self.given)
        with its, open(given, "rb"):
            self.copy = self.nursery.begin(
                self.lane, self.folder, self.errors.fileno(), n0=its.fileno(), n10=self.listener.fileno(), n11=given
            )
        line = read_line(cast("subprocess.Popen[bytes]", self.copy), START_SECONDS)
        if line.startswith("BOARD "):
            return True
        self.look_at_end()
        return False

    def look_at_end(self) -> None:
        """If a page ends by itself, it says why; its front says at least that it is gone."""
        assert self.copy
        status = self.copy.wait(END_SECONDS)
        said = self.said()
        crashed = status == -signal.SIGSEGV and "Fatal Python error" in said and any(f" {name}" in self.lane.last() for name in LIBRARIES)
        assert status in (1, 2) or crashed, f"the page ended with {status}"

    def go_on(self) -> None:
        """Starts the page again if it has ended."""
        if self.copy and self.copy.poll() is not None:
            self.look_at_end()
            self.lane.disarm()
            assert self.start()

    def stop(self) -> None:
        if self.copy:
            self.copy.kill()
            self.copy.communicate()
            self.copy = None
        if self.mine:
            self.mine.close()
            self.mine = None

    def kill(self) -> None:
        self.stop()
        self.listener.close()
        self.errors.close()
        shutil.rmtree(self.folder)

    def answer_all(self, mine: socket.socket) -> None:
        """Answers the page's questions as its front does."""
        try:
            with mine.makefile("rb") as lines:
                for line in lines:
                    _, told = answer(self.auction, line.decode().rstrip())
                    mine.sendall(format_answer(told).encode() + b"\n")
        except (OSError, ValueError):
            pass

    # Its viewers.

    def again(self, look: Callable[[], bool], what: str) -> None:
        """Returns once this holds. The page may be started again meanwhile."""
        end = time.monotonic() + SEE_SECONDS
        while time.monotonic() < end:
            self.go_on()
            try:
                if look():
                    return
            except (OSError, http.client.HTTPException, ValueError):
                pass
            time.sleep(0.02)
        raise AssertionError(f"the page doesn't show {what}: {self.said()!r}")

    def look(self) -> None:
        """Looks at the page, and at what a stranger and a wrong path get."""
        self.again(lambda: self.site.shows(count=str(self.count)), "the auction")
        self.again(lambda: Site(self.site.port, seconds=VIEWER_SECONDS).get()[0] == 401, "a stranger that it doesn't know him")
        self.again(lambda: self.site.get("/nothing")[0] == 404, "that there is nothing")

    def change(self) -> None:
        """A bid is shown to a viewer who follows, and by the page."""
        self.count += 1
        self.auction, told = answer(self.auction, f"CLOSE {self.count // 2}" if self.count % 2 == 0 else f"BID x {self.count // 2 + 1} a {self.bid}")
        assert format_answer(told) == f"OK {self.count}", told
        self.again(self.is_followed, "what is new")

    @property
    def bid(self) -> int:
        """An amount that is enough in this round."""
        return 100 * (self.count + 1)

    def is_followed(self) -> bool:
        """Whether a viewer who follows sees the newest state."""
        response = self.site.ask("/events")
        try:
            return response.status == 200 and any(f'"{self.count}"'.encode() in response.readline() for _ in range(40))
        finally:
            response.close()

    # Faults.

    def begin_with_faults(self) -> Iterator[bool]:
        """While it starts. If it came up, it shows the auction."""
        while True:
            self.lane.arm()
            is_up = self.start()
            has_failed = self.lane.disarm()
            assert is_up or has_failed, "the page doesn't come up"
            if is_up:
                self.look()
            if not has_failed:
                return
            yield True

    def serve_with_faults(self) -> Iterator[bool]:
        """While it is looked at, before and behind the first bid and the first close."""
        assert self.start()
        for step in (self.look, self.change, self.look, self.change, self.look):
            while True:
                self.lane.arm()
                step()
                if not self.lane.disarm():
                    break
                yield True

    def end_with_faults(self) -> Iterator[bool]:
        """When its front is gone: it ends."""
        while True:
            assert self.start() and self.mine and self.copy
            self.change()
            self.lane.arm()
            self.mine.shutdown(socket.SHUT_RDWR)
            self.look_at_end()
            if not self.lane.disarm():
                return
            yield True
