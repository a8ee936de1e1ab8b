"""Standard streams that somebody has made non-blocking (`O_NONBLOCK`): the program waits for them."""

from __future__ import annotations

import os
import select
import socket
import subprocess
import threading
import time
from dataclasses import dataclass
from pathlib import Path

import pytest

from harness.auctions import commands, definition, text_of
from harness.conditions import Conditions
from harness.programs import Program, Ran, Stream, format_words, shown
from harness.serving import Client, free_port

# How many seconds a stream isn't ready.
LATE = 0.3
SECONDS = 20
# More answers than a pipe has room for.
MANY = 20_000
SHOWN = "ROUND 1 STAGE 1 OPEN REVENUE 0 COUNT 0"


@dataclass
class Ends:
    """Both ends of a stream. The program's end never blocks."""

    own: int
    given: int

    @classmethod
    def of(cls, kind: str, is_input: bool) -> Ends:
        """A pipe or a socket."""
        if kind == "pipe":
            reader, writer = os.pipe()
            ends = cls(writer, reader) if is_input else cls(reader, writer)
        else:
            one, other = socket.socketpair()
            ends = cls(one.detach(), other.detach())
        os.set_blocking(ends.given, False)
        return ends

    def close_given(self) -> None:
        os.close(self.given)

    def read(self) -> bytes:
        """Everything that comes until the other end is closed."""
        parts = []
        try:
            while part := os.read(self.own, 1 << 16):
                parts.append(part)
        except OSError:
            pass
        os.close(self.own)
        return b"".join(parts)

    def write(self, data: bytes) -> None:
        """Writes everything, and closes the stream."""
        with os.fdopen(self.own, "wb") as stream:
            stream.write(data)


JOBS: dict[str, tuple[list[str], bytes]] = {
    "script": ([], definition()),
    "run": (["run", "--file", "F"], b""),
}


@pytest.fixture(params=list(JOBS))
def job(request: pytest.FixtureRequest) -> str:
    """The jobs that read lines."""
    name: str = request.param
    return name


def answered(program: Program, room: Path, job: str, text: bytes, input: Ends | None, output: Ends | None, late: float = LATE) -> Ran:
    """The end of a job with these streams. Each is written or read late."""
    words, front = JOBS[job]
    if job == "run":
        assert program.format(room / "F").status == 0
    read: list[bytes] = []
    process = start(program, room, words, input, output)
    try:
        for ends in (input, output):
            if ends is not None:
                ends.close_given()
        time.sleep(late)
        reader = threading.Thread(target=lambda: read.append(output.read() if output else b""))
        reader.start()
        if input is not None:
            input.write(front + text)
        written, said = process.communicate(None if input else front + text, timeout=SECONDS)
        reader.join(SECONDS)
    finally:
        process.kill()
    return Ran(shown(read[0] if output else written), shown(said), process.returncode, 0.0)


def start(program: Program, room: Path, words: list[str], input: Ends | None, output: Ends | None) -> subprocess.Popen[bytes]:
    """With blocking pipes in the place of streams that aren't given."""
    given: Stream = input.given if input else subprocess.PIPE
    taken: Stream = output.given if output else subprocess.PIPE
    return program.start(*words, input=given, output=taken, conditions=Conditions(folder=room))


@pytest.mark.parametrize("kind", ["pipe", "socket"])
def test_an_input_that_never_waits_is_waited_for(program: Program, room: Path, job: str, kind: str) -> None:
    """Anyone who shares an open file may make it non-blocking."""
    ran = answered(program, room, job, text_of(commands(5)), Ends.of(kind, is_input=True), None)
    assert (ran.output, ran.errors, ran.status) == ("".join(f"OK {number}\n" for number in range(1, 6)), "", 0)


@pytest.mark.parametrize("kind", ["pipe", "socket"])
def test_an_output_that_never_waits_is_waited_for(program: Program, room: Path, job: str, kind: str) -> None:
    ran = answered(program, room, job, b"SHOW\n" * MANY, None, Ends.of(kind, is_input=False))
    assert (ran.output, ran.errors, ran.status) == (f"{SHOWN}\n" * MANY, "", 0)


def test_both_that_never_wait_are_waited_for(program: Program, room: Path, job: str) -> None:
    input, output = Ends.of("pipe", is_input=True), Ends.of("pipe", is_input=False)
    ran = answered(program, room, job, b"SHOW\n" * MANY, input, output)
    assert (ran.output, ran.errors, ran.status) == (f"{SHOWN}\n" * MANY, "", 0)


def test_a_definition_that_comes_late_is_waited_for(program: Program, room: Path) -> None:
    input = Ends.of("pipe", is_input=True)
    process = program.start(*format_words(room / "F"), input=input.given)
    try:
        input.close_given()
        time.sleep(LATE)
        input.write(definition())
        written, said = process.communicate(timeout=SECONDS)
    finally:
        process.kill()
    assert (written, said, process.returncode) == (b"FORMATTED 17\n", b"", 0)


def test_errors_that_never_wait_are_waited_for(program: Program, room: Path) -> None:
    """The pipe was full when the program ended with a message."""
    errors = Ends.of("pipe", is_input=False)
    filled = fill(errors.given)
    process = program.start("check", "--file", room / "none", errors=errors.given)
    try:
        errors.close_given()
        time.sleep(LATE)
        said = errors.read()[filled:]
        assert process.wait(SECONDS) == 1
    finally:
        process.kill()
    system = "could not be opened: No such file or directory (os error 2): see that its path is right. Only `hpb format` makes a file"
    assert shown(said) == f"hpb: 91 device: {room / 'none'} {system}\n"


def fill(descriptor: int) -> int:
    """Writes until nothing more is taken, and returns how many bytes were."""
    count = 0
    for part in (b"x" * 4096, b"x"):
        try:
            while True:
                count += os.write(descriptor, part)
        except BlockingIOError:
            continue
    return count


def test_a_server_says_that_it_listens_once_there_is_room(program: Program, file: Path) -> None:
    """Its output was full when it was started."""
    output, port = Ends.of("pipe", is_input=False), free_port()
    filled = fill(output.given)
    process = program.start("serve", "--file", file, "--port", port, "--sessions", 1, output=output.given, errors=subprocess.DEVNULL)
    try:
        output.close_given()
        time.sleep(LATE)
        before = take(output.own, filled + len(f"LISTENING {port}\n"))
        Client(port).close()
        assert shown(before[filled:] + output.read()) == f"LISTENING {port}\nCLOSED 0\n"
        assert process.wait(SECONDS) == 0
    finally:
        process.kill()


def take(descriptor: int, count: int) -> bytes:
    """So many bytes, or as many as come in time."""
    data, end = b"", time.monotonic() + SECONDS
    while len(data) < count and select.select([descriptor], [], [], max(0.0, end - time.monotonic()))[0]:
        part = os.read(descriptor, count - len(data))
        if not part:
            break
        data += part
    return data
