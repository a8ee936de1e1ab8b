"""Limits of memory, from the least with which a program starts: each job gives the right answer, or says that memory was refused."""

from __future__ import annotations

import resource
import signal
import subprocess
from collections.abc import Mapping
from dataclasses import dataclass, replace
from pathlib import Path
from types import MappingProxyType

import pytest

from harness.auctions import Layout, greatest_definition, greatest_lines, text_of
from harness.conditions import KIB, NORMAL, Conditions
from harness.programs import Program, Ran, format_words
from harness.serving import Ended, NotServing, Server

# A sweep starts the program a hundred times and more.
pytestmark = pytest.mark.timeout(300)

JOBS = ("script", "format", "check", "run", "serve")
REFUSED = "hpb: 90 memory: "
REFUSALS = ("ERR 90 memory", "ERR 90 memory\n", "ERR 94 place", "ERR 94 place\n")
# A stack in KiB that is enough for each job, whatever the environment is.
ENOUGH = 1_408
# The bytes of a variable; with its name it may have 128 KiB.
LONG = 120 * KIB
# The least stack in KiB with which the system starts a program that has such a variable.
LEAST_BEHIND_LONG = 192
LINES = text_of(greatest_lines())


@dataclass(frozen=True)
class Limit:
    """A limit of `ulimit`, and the sizes to try, in KiB.

    It is tried from `least` on, or from the least size with which a program starts: first in steps of `step`, then in greater ones.
    The greater ones are for the threads of `serve`, which have stacks of 8 MiB each.
    """

    kind: int
    step: int
    steps: int
    least: int = 0
    far: int = 48 * KIB
    far_steps: int = 24

    def of(self, kib: int) -> Conditions:
        return NORMAL.with_limit(self.kind, kib * KIB)

    def sizes(self, least: int) -> list[int]:
        """The sizes to try."""
        near = least + self.steps * self.step
        return [*range(least, near, self.step), *range(near, near + self.far, self.far // self.far_steps)]


# For the stack, every size is tried with which the system can start anything.
LIMITS = {
    "-s": Limit(resource.RLIMIT_STACK, 8, 120, least=64),
    "-v": Limit(resource.RLIMIT_AS, 8, 160),
    "-d": Limit(resource.RLIMIT_DATA, 64, 40),
}
TRIED = [("-s", Layout.PAGES), ("-s", Layout.CELLS), ("-v", Layout.PAGES), ("-d", Layout.PAGES)]


def least_of(program: Program, limit: Limit) -> int:
    """The least size with which the program prints its version, to within a step."""
    low, high = 0, 1 << 20
    while high - low > limit.step:
        middle = (low + high) // 2
        low, high = (low, middle) if starts(program, limit.of(middle)) else (middle, high)
    return high


def starts(program: Program, conditions: Conditions) -> bool:
    """Whether it prints its version."""
    try:
        return program.run("--version", conditions=conditions).status == 0
    except (subprocess.SubprocessError, OSError):
        return False


@dataclass
class Work:
    """A job on the greatest definition, in a room with its file F."""

    program: Program
    job: str
    room: Path
    layout: Layout

    @classmethod
    def of(cls, program: Program, job: str, room: Path, layout: Layout) -> Work:
        """The job with a new file."""
        assert program.format(room / "kept", layout, text=greatest_definition()).status == 0
        return cls(program, job, room, layout)

    def does(self, conditions: Conditions) -> Ran:
        """Does the job once, on the file as it was before."""
        if self.job == "serve":
            return self.serves(conditions)
        file = self.room / "F"
        (self.room / "G").unlink(missing_ok=True)
        words: dict[str, list[object]] = {
            "script": [],
            "format": format_words(self.room / "G", self.layout),
            "check": ["check", "--file", file],
            "run": ["run", "--file", file, "--batch", 64],
        }
        texts = {"script": greatest_definition() + LINES, "format": greatest_definition(), "run": LINES}
        self.restore()
        return self.program.run(*words[self.job], text=texts.get(self.job, b""), conditions=conditions)

    def serves(self, conditions: Conditions) -> Ran:
        """One session, which sends all lines at once."""
        self.restore()
        try:
            server = Server(self.program, self.room / "F", conditions=conditions)
        except NotServing as reason:
            # If it says anything but LISTENING, the harness kills it.
            return replace(reason.ran, status=1) if reason.ran.status == -signal.SIGKILL else reason.ran
        with server:
            answers = answered(server)
            ran = server.ended()
        return replace(ran, output="".join(f"{line}\n" for line in answers) + ran.output)

    def restore(self) -> None:
        """Restores the file as it was before any command."""
        (self.room / "F").write_bytes((self.room / "kept").read_bytes())


def answered(server: Server) -> list[str]:
    """The answers to a client that sends all lines."""
    try:
        with server.connect() as client:
            client.send(LINES)
            return client.finish()
    except (OSError, Ended):
        return []


def is_right(ran: Ran, right: Ran) -> bool:
    """Whether a job was done as without a limit. Otherwise memory was refused, and the program has to say so, with the status 1."""
    if ran.status == 0:
        return ran.output == right.output
    return ran.status == 1 and (ran.output.endswith(REFUSALS) or REFUSED in ran.errors)


@pytest.mark.parametrize("job", JOBS)
@pytest.mark.parametrize(("which", "layout"), TRIED, ids=[f"{which}-{layout.name.lower()}" for which, layout in TRIED])
def test_no_limit_ends_a_job_by_a_signal(program: Program, room: Path, job: str, which: str, layout: Layout) -> None:
    sweeps(Work.of(program, job, room, layout), LIMITS[which])


@pytest.mark.parametrize("job", JOBS)
def test_a_long_environment_takes_no_room_of_a_job(program: Program, room: Path, job: str) -> None:
    """The system counts it as part of the stack."""
    sweeps(Work.of(program, job, room, Layout.PAGES), replace(LIMITS["-s"], least=LEAST_BEHIND_LONG), {"LONG": "x" * LONG})


def sweeps(work: Work, limit: Limit, environment: Mapping[str, str] = MappingProxyType({})) -> None:
    """Does a job under each of these limits. None may end it by a signal, and under the greatest ones it has to be done."""
    right = work.does(NORMAL)
    assert right.status == 0, right
    least = limit.least or least_of(work.program, limit)
    wrong, is_done = {}, False
    for kib in limit.sizes(least):
        ran = work.does(replace(limit.of(kib), environment=environment))
        is_done = is_done or ran.status == 0
        if not is_right(ran, right):
            wrong[kib] = (ran.output[-60:], ran.errors[-200:], ran.status)
    assert not wrong, f"KiB: {wrong}"
    assert is_done, f"{work.job} isn't done by {limit.sizes(least)[-1]} KiB"


@pytest.mark.parametrize("job", JOBS)
@pytest.mark.parametrize("environment", [{}, {"LONG": "x" * LONG}], ids=["short", "long"])
def test_the_stack_that_the_documents_tell_is_enough(program: Program, room: Path, job: str, environment: Mapping[str, str]) -> None:
    work = Work.of(program, job, room, Layout.CELLS)
    ran = work.does(replace(NORMAL.with_stack(ENOUGH), environment=environment))
    assert (ran.output, ran.status) == (work.does(NORMAL).output, 0)
    assert work.does(NORMAL.with_stack(ENOUGH // 2)).status == 1
