"""Tools whose terminal takes nothing, as after Ctrl-S: signals end them all the same, within some seconds. And they leave nothing behind."""

from __future__ import annotations

import os
import pty
import resource
import signal
import subprocess
import termios
from collections.abc import Iterator
from contextlib import ExitStack, suppress
from pathlib import Path

import pytest
from boards import RULES
from fronts import Front, script
from harness.auctions import FIRST_ROUND
from harness.conditions import Conditions
from harness.fronts import run_tool, start_tool
from harness.programs import Program
from harness.serving import ADDRESS, Serve, Server, free_port, wait_until
from harness.users import User

SECONDS = 60
# What a tool may take to end, on a machine that does other things.
END_SECONDS = 10
STOP = b"\x13"
# The place in the kernel of a process that waits for a terminal to take something.
WRITING = ("wait_woken", "n_tty_write")
CONDITIONS = Conditions(environment={"TERM": "xterm", "COLUMNS": "80", "LINES": "24"})


class Terminal:
    """A terminal, and the tool in it. It can be stopped: then whoever writes to it waits."""

    def __init__(self) -> None:
        self.main, self.other = pty.openpty()
        self.written = b""
        self.tool: subprocess.Popen[bytes] | None = None

    def stop(self) -> None:
        """Ctrl-S."""
        os.write(self.main, STOP)

    def run(self, name: str, *words: object, input: int | None = None) -> subprocess.Popen[bytes]:
        """Starts the tool."""
        here = self.other
        tool = start_tool(name, *words, input=here if input is None else input, output=here, errors=here, conditions=CONDITIONS)
        self.tool = tool
        return tool

    def wait_for(self, text: bytes) -> None:
        """Reads until this came."""
        while text not in self.written:
            self.written += os.read(self.main, 65_536)

    def wait_until_stuck(self) -> None:
        """The tool waits in a write to the terminal."""
        assert self.tool
        where = Path(f"/proc/{self.tool.pid}/wchan")
        wait_until(lambda: where.read_text() in WRITING, SECONDS, "a write that waits")

    def close(self) -> None:
        if self.tool:
            self.tool.kill()
            self.tool.wait(SECONDS)
        os.close(self.main)
        os.close(self.other)


@pytest.fixture
def terminal() -> Iterator[Terminal]:
    made = Terminal()
    yield made
    made.close()


@pytest.fixture
def server(program: Program, room: Path, serve: Serve) -> Server:
    """A server of the first round, with three places; its definition stands beside its file."""
    (room / "definition.json").write_bytes(RULES)
    return serve(program.keep(room / "F", FIRST_ROUND, RULES), 3)


def ended(tool: subprocess.Popen[bytes], number: signal.Signals) -> int:
    """The status by which a signal ends a tool, in time."""
    tool.send_signal(number)
    return tool.wait(END_SECONDS)


@pytest.mark.parametrize("number", [signal.SIGTERM, signal.SIGINT, signal.SIGHUP])
@pytest.mark.parametrize("tool", ["watch", "board"])
def test_what_follows_an_auction_ends_though_its_terminal_is_stopped(
    tool: str, number: signal.Signals, terminal: Terminal, server: Server, room: Path
) -> None:
    words: list[object] = ["--port", server.port, "--definition", room / "definition.json"]
    if tool == "board":
        terminal.stop()
        running = terminal.run(tool, *words, "--listen", f"{ADDRESS}:0")
    else:
        running = terminal.run(tool, *words)
        terminal.wait_for(b"Live.")
        terminal.stop()
    terminal.wait_until_stuck()
    assert ended(running, number) == 0


@pytest.mark.parametrize("number", [signal.SIGTERM, signal.SIGINT, signal.SIGHUP])
@pytest.mark.parametrize("tool", ["client", "replay", "report", "explain", "definition", "verify"])
def test_what_writes_and_ends_is_ended_though_its_terminal_is_stopped(
    tool: str, number: signal.Signals, terminal: Terminal, server: Server, room: Path
) -> None:
    """By an answer, by help, or by a message about wrong words."""
    terminal.stop()
    read, write = os.pipe()
    os.write(write, b"SHOW\n")
    running = terminal.run(tool, server.port if tool == "client" else "--help", input=read)
    os.close(read)
    terminal.wait_until_stuck()
    status = ended(running, number)
    os.close(write)
    assert status == (1 if number == signal.SIGINT else -number)


@pytest.mark.parametrize("number", [signal.SIGTERM, signal.SIGINT, signal.SIGHUP])
@pytest.mark.parametrize("tool", ["report", "replay"])
def test_no_copy_of_the_file_stays_behind_a_tool_that_is_ended(
    tool: str, number: signal.Signals, front: Front, cleanup: ExitStack
) -> None:
    """A closed terminal sends SIGHUP, and `timeout` SIGTERM. Before, the copy stayed in memory."""
    assert front.start().stop().status == 0
    asked = front.folder / "asked"
    slow = script(front.folder / "slow", f'[ "$1" = check ] || exec {front.program.path} "$@"\necho $$ "$3" > {asked}; exec sleep {SECONDS}')
    words: list[object] = [front.file] if tool == "report" else [front.record, "--file", front.file]
    running = start_tool(tool, *words, "--program", slow)
    cleanup.callback(running.communicate)
    cleanup.callback(running.kill)
    wait_until(lambda: asked.exists() and asked.read_text().endswith("\n"), SECONDS, "a question about the copy")
    process, copy = asked.read_text().split()
    cleanup.callback(kill, int(process))
    assert Path(copy).exists()
    assert ended(running, number) == 1
    assert not Path(copy).parent.exists()


def kill(process: int) -> None:
    with suppress(ProcessLookupError):
        os.kill(process, signal.SIGKILL)


def test_watch_gives_back_a_stopped_terminal(terminal: Terminal, server: Server, room: Path) -> None:
    """Its keys are as before; of the picture the terminal has taken no end."""
    before = termios.tcgetattr(terminal.other)
    running = terminal.run("watch", "--port", server.port, "--definition", room / "definition.json")
    terminal.wait_for(b"Live.")
    assert termios.tcgetattr(terminal.other) != before
    terminal.stop()
    terminal.wait_until_stuck()
    assert ended(running, signal.SIGTERM) == 0
    assert termios.tcgetattr(terminal.other) == before


@pytest.mark.as_root
@pytest.mark.parametrize("tool", ["watch", "board"])
def test_what_follows_an_auction_says_that_the_system_gives_no_thread(tool: str, room: Path, nobody: User) -> None:
    """Before, it showed an error of Python's."""
    (room / "definition.json").write_bytes(RULES)
    words = ["--listen", f"{ADDRESS}:0"] if tool == "board" else ["--once"]
    refused = Conditions(user=nobody, limits={resource.RLIMIT_NPROC: 0}, folder=room)
    ran = run_tool(tool, "--port", free_port(), "--definition", room / "definition.json", *words, conditions=refused)
    assert (ran.output, ran.errors, ran.status) == ("", f"{tool}: the system gives no thread: can't start new thread\n", 1)
