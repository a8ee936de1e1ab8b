"""Lies of a program that does a little less than it should, for `outside.liar`: what each limit is stands at its function."""

from __future__ import annotations

import ctypes
import json
import os
import signal
import socket
import subprocess
import sys
import threading
from collections.abc import Callable, Sequence
from pathlib import Path

from harness.serving import ADDRESS, free_port

PART = 1 << 16
# Of `prctl`: which signal a process gets when its parent ends.
PARENT_ENDS = 1
# The first bytes of each slot's body that have a number: of the batches that the checkpoint covers.
SLOTS = (4 * 4096 + 16, 9 * 4096 + 16)


def end_with_parent() -> None:
    """From here on this process is killed when its parent ends."""
    ctypes.CDLL(None).prctl(PARENT_ENDS, signal.SIGKILL)


class Job:
    """The job of some words: its name, which a script has none of, options with their values, and a text."""

    def __init__(self, words: Sequence[str]) -> None:
        self.words, self.name = words, words[0] if words else ""
        self.options = dict(zip(words[1::2], words[2::2]))
        self.text = sys.stdin.buffer.read() if self.name in ("", "format", "run") else b""

    def number(self, option: str) -> int:
        """The value of an option, or 0."""
        return int(self.options.get(option, 0))

    def defined(self, what: str) -> list[dict[str, object]]:
        """The nodes or the bidders of a script or a new file."""
        found: list[dict[str, object]] = json.loads(self.text.split(b"\n")[0])[what] if self.name in ("", "format") else []
        return found


Ended = tuple[bytes, int] | None


def refused(refusal: str, holds: bool) -> Ended:
    """The output and the status of a job that is refused, if this holds."""
    return (f"ERR {refusal}\n".encode(), 1) if holds else None


def frames(job: Job) -> Ended:
    """A journal has a multiple of four."""
    return refused("43 length", job.number("--journal") % 4 != 0)


def nodes(job: Job) -> Ended:
    """Memory is refused beyond 64."""
    return refused("90 memory", len(job.defined("nodes")) > 64)


def bidders(job: Job) -> Ended:
    """There are 63 at most."""
    return refused("56 limits", len(job.defined("bidders")) > 63)


def names(job: Job) -> Ended:
    """They have 15 characters at most."""
    return refused("51 name", any(len(str(node["name"])) > 15 for node in job.defined("nodes")))


def batches(job: Job) -> Ended:
    """They have 63 commands at most: more are wrong words."""
    return (b"", 2) if job.number("--batch") > 63 else None


def slots(job: Job) -> Ended:
    """They cover no more than 100,000 batches."""
    if job.name not in ("check", "run", "serve"):
        return None
    image = Path(job.options["--file"]).read_bytes()
    return refused("44 checkpoint", max(int.from_bytes(image[slot : slot + 8], "big") for slot in SLOTS) > 100_000)


def sessions(job: Job) -> Ended:
    """There are 31 at most."""
    return refused("94 place", job.number("--sessions") > 31)


def commands(output: bytes) -> bytes:
    """A run answers 65,535 at most."""
    return b"".join(output.splitlines(keepends=True)[:65_535])


def shown(output: bytes) -> bytes:
    """No more than 64 nodes are."""
    return b"".join(output.splitlines(keepends=True)[:65])


REFUSING: dict[str, Callable[[Job], Ended]] = {
    limit.__name__: limit for limit in (frames, nodes, bidders, names, batches, slots, sessions)
}
GIVING: dict[tuple[str, str], Callable[[bytes], bytes]] = {("commands", "run"): commands, ("shown", "check"): shown}


class Between:
    """Stands between sessions and their server, and ends if one more command is accepted than so many."""

    def __init__(self, program: str, job: Job, most: int) -> None:
        self.left, port = most, job.options["--port"]
        self.listener = socket.create_server((ADDRESS, int(port)))
        self.behind = free_port()
        words = [str(self.behind) if word == port else word for word in job.words]
        self.process = subprocess.Popen([program, *words], stdout=subprocess.PIPE, preexec_fn=end_with_parent)
        assert self.process.stdout is not None
        self.process.stdout.readline()
        print(f"LISTENING {port}", flush=True)

    def serve(self, count: int) -> tuple[bytes, int]:
        """Takes so many sessions, and gives the rest of the server's output, and its status."""
        for _ in range(count):
            client = self.listener.accept()[0]
            server = socket.create_connection((ADDRESS, self.behind))
            for source, target in ((client, server), (server, client)):
                threading.Thread(target=self._hand_on, args=(source, target, source is server), daemon=True).start()
        self.listener.close()
        written: bytes = self.process.communicate()[0]
        return written, self.process.returncode

    def _hand_on(self, source: socket.socket, target: socket.socket, has_answers: bool) -> None:
        while part := source.recv(PART):
            # Of all answers OK alone has this letter.
            self.left -= has_answers and part.count(b"K")
            if self.left < 0:
                os._exit(1)
            target.sendall(part)
        target.shutdown(socket.SHUT_WR)


def outcome(limit: str, program: str, words: Sequence[str]) -> tuple[bytes, int]:
    """The output of a job under a limit, and its status."""
    job, (name, _, most) = Job(words), limit.partition(":")
    if ended := REFUSING.get(name, lambda _: None)(job):
        return ended
    if job.name == "serve":
        if not most:
            os.execv(program, [program, *words])
        return Between(program, job, int(most)).serve(job.number("--sessions"))
    ran = subprocess.run([program, *words], input=job.text, stdout=subprocess.PIPE)
    return GIVING.get((name, job.name), bytes)(ran.stdout), ran.returncode


LIMITS = {*REFUSING, *(limit for limit, _ in GIVING), "accepted"}
