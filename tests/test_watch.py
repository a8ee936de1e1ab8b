"""`tools/watch` of a server: a line for each change without a terminal, and a screen in one."""

from __future__ import annotations

import fcntl
import os
import pty
import re
import struct
import termios
import threading
import time
from contextlib import suppress
from pathlib import Path

import pytest
from boards import RULES, Tools
from harness.auctions import FIRST_ROUND
from harness.conditions import Conditions
from harness.programs import Program
from harness.serving import Serve, Server, free_port, wait_until
from test_board_values import accept

SECONDS = 60
TIMED = re.compile(r"\d{4}-\d\d-\d\d \d\d:\d\d:\d\d  (.*)")
CHANGES = [
    "w: activity 20, ticket 2: Enough: a close now leaves the eligibility as it is. Room for 5 units more.",
    "Round 3, open, stage 1, revenue 500, 7 commands",
    "c: wins now; high bid 100 of w → 250 of w; minimum 200 → 280",
    "all: no longer wins",
    "Round 3, over, stage 1, revenue 500, 8 commands",
    "The auction is over: nothing changes any more.",
]


@pytest.fixture
def server(program: Program, room: Path, serve: Serve) -> Server:
    """A server of the first round, with three places."""
    return serve(program.keep(room / "F", FIRST_ROUND, RULES), 3)


def test_a_line_for_each_change(server: Server, tools: Tools) -> None:
    """What there is comes first; it ends with the auction."""
    watch = tools.watch(server.port, "--bidders", "w", "--pace", "0.2")
    assert [watch.line() for _ in range(2)] == ["Live.", "Round 2, open. Stage 1 of 2, at 80 percent. Revenue 500. 5 commands."]
    with server.connect() as session:
        for line in ("BID w 2 c 250", "CLOSE 2"):
            accept(session, line)
            time.sleep(1)
        accept(session, "CLOSE 3")
    written, said, status = watch.ended()
    lines = [found[1] for line in written.split("\n") if (found := TIMED.fullmatch(line))]
    assert [lines.count(change) for change in CHANGES] == [1] * len(CHANGES)
    assert (said, status, "\x1b" in written) == ("", 0, False)


def test_no_server(tools: Tools) -> None:
    assert tools.watch(free_port(), "--once").ended() == ("", "watch: There is no server yet.\n", 1)


class Terminal:
    """A terminal of so many rows and columns, and the bytes that are written to it."""

    def __init__(self, rows: int, columns: int) -> None:
        self.main, self.other = pty.openpty()
        self.written = b""
        fcntl.ioctl(self.other, termios.TIOCSWINSZ, struct.pack("HHHH", rows, columns, 0, 0))
        self.conditions = Conditions(environment={"TERM": "xterm", "COLUMNS": str(columns), "LINES": str(rows)})
        self.reader = threading.Thread(target=self._read, daemon=True)
        self.reader.start()

    def _read(self) -> None:
        with suppress(OSError):
            while part := os.read(self.main, 65_536):
                self.written += part

    def type(self, key: str, behind: str) -> None:
        """A key, once these words have come."""
        wait_until(lambda: behind.encode() in self.written, SECONDS, f"{behind!r} before {key!r}")
        os.write(self.main, key.encode())

    def close(self) -> str:
        """All that came."""
        os.close(self.other)
        self.reader.join(1)
        os.close(self.main)
        return self.written.decode()


def test_a_terminal_that_is_too_small_for_all(server: Server, tools: Tools) -> None:
    """It may be scrolled, no line is too wide, and the screen is given back."""
    terminal = Terminal(12, 60)
    how = {"input": terminal.other, "output": terminal.other, "conditions": terminal.conditions}
    watch = tools.watch(server.port, "--bidders", "x", "--pace", "0.2", **how)
    for key, behind in ((" ", "lines 1 to 11"), ("G", "lines 6 to 16 of 16"), ("q", "Live.")):
        terminal.type(key, behind)
    assert watch.process.wait(SECONDS) == 0
    written = terminal.close()
    assert written.startswith("\x1b[?1049h\x1b[?25l") and written.rstrip().endswith("\x1b[?25h\x1b[?1049l")
    shown = re.sub(r"\x1b\[[0-9;?]*[A-Za-z]", "", written.replace("\x1b[H", "\n"))
    assert [line for line in re.split(r"[\r\n]+", shown) if len(line) > 60] == []
    assert re.search(r"\x1b\[32mall .* yes", written), "winners are green, and say so"
