"""Each job of a program on a file, and all that comes of it: its answers and messages, its end, and the file then."""

from __future__ import annotations

import itertools
import re
import subprocess
import threading
import time
from dataclasses import dataclass, replace
from pathlib import Path

from harness.auctions import PAGE, definition
from harness.conditions import NORMAL, Conditions
from harness.programs import Program, Stream, format_words
from harness.serving import Client, Ended, free_port

FIRST_BID = b"BID x 1 a 100\n"
LINES = b"SHOW\nBID y 1 b 150\nSHOW\n"
EMPTY, ONE_BID, TWO_BIDS, THREE_BIDS = (f"ROUND 1 STAGE 1 OPEN REVENUE 0 COUNT {count}" for count in range(4))
JOBS = ("script", "format", "check", "run", "serve", "--help")
# Head, nodes and bidders, in pages: no command changes them.
HEAD_PAGES = 3
SECONDS = 5
# Each choice of standard streams.
CHOICES = [choice for count in range(4) for choice in itertools.combinations(range(3), count)]


def input_of(job: str) -> bytes:
    """The text that a job reads."""
    return {"script": definition() + FIRST_BID + LINES, "format": definition(), "run": LINES}.get(job, b"")


def words_of(job: str, folder: Path, port: int) -> list[object]:
    """The words of a job on F, or on `new`, of a folder."""
    words: dict[str, list[object]] = {
        "script": [],
        "--help": ["--help"],
        "format": format_words(folder / "new"),
        "check": ["check", "--file", folder / "F"],
        "run": ["run", "--file", folder / "F"],
        "serve": ["serve", "--file", folder / "F", "--port", port, "--sessions", 1],
    }
    return words[job]


@dataclass(frozen=True)
class Streams:
    """The standard streams of a job, and what else holds for it: as they stand here a pipe each, with the text of the job."""

    input: Stream | None = None
    output: Stream = subprocess.PIPE
    errors: Stream = subprocess.PIPE
    conditions: Conditions = NORMAL


@dataclass(frozen=True)
class Outcome:
    """All that comes of a job. Letters take the places of ports."""

    output: str
    errors: str
    status: int
    # What a session was answered.
    answers: tuple[str, ...]
    # Whether the front of the file is as before, its length, and the first line of `check` for it and for a new one.
    has_front: bool
    length: int
    check: str
    new: str

    def without(self, *names: str) -> Outcome:
        """The rest, without the text of these streams."""
        return replace(self, **dict.fromkeys(names, ""))


class Visit(threading.Thread):
    """The one session that is served, once it can be connected to."""

    def __init__(self, port: int) -> None:
        super().__init__()
        self.port, self.is_over, self.answers = port, threading.Event(), list[str]()

    def run(self) -> None:
        """Asks, bids and ends, unless the server is over before."""
        while not self.is_over.is_set():
            try:
                client = Client(self.port, SECONDS)
            except OSError:
                time.sleep(0.01)
                continue
            try:
                self.answers += [client.ask("SHOW"), client.ask("BID y 1 b 150"), *client.finish()]
            except (OSError, Ended) as fault:
                self.answers.append(repr(fault))
            return


def without_ports(said: str) -> str:
    """A message, with the same port for each client."""
    return re.sub(r"\b127\.0\.0\.1:\d+", "127.0.0.1:C", said)


def first_shown(program: Program, file: Path) -> str:
    """What `check` shows first; nothing if there is no such file."""
    return program.check(file).output.split("\n")[0] if file.exists() else ""


def outcome(program: Program, job: str, kept: bytes, folder: Path, streams: Streams = Streams()) -> Outcome:
    """What comes of a job on a file that has these bytes before."""
    port, file = free_port(), folder / "F"
    file.write_bytes(kept)
    (folder / "new").unlink(missing_ok=True)
    visit = Visit(port)
    if job == "serve":
        visit.start()
    try:
        ran = program.run(
            *words_of(job, folder, port),
            text=input_of(job),
            input=streams.input,
            output=streams.output,
            errors=streams.errors,
            conditions=streams.conditions,
        )
    finally:
        visit.is_over.set()
        if job == "serve":
            visit.join()
    data = file.read_bytes()
    return Outcome(
        ran.output.replace(str(port), "P"),
        without_ports(ran.errors),
        ran.status,
        tuple(visit.answers),
        data[: HEAD_PAGES * PAGE] == kept[: HEAD_PAGES * PAGE],
        len(data),
        first_shown(program, file),
        first_shown(program, folder / "new"),
    )
