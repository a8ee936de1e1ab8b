"""The commands of TUTORIAL and OWN-AUCTION, one after another, with the output that stands under each; and what TUTORIAL serves, in three
terminals, kills and copies among it. If there is no nc, they have one made here."""

from __future__ import annotations

import os
import shutil
import signal
import subprocess
from collections.abc import Iterator
from contextlib import contextmanager
from pathlib import Path

import pytest

from harness.programs import Program, shown
from harness.serving import free_port
from harness.streams import read_bytes
from outside.documents import TOP, Step, commands_of, read_page, served_steps
from outside.lies import Liar

SERVED = "## Serve it\n"
TERMINALS = ("first", "second", "third")
SECONDS = 60
# As `nc -N`: it sends its input and then the end, and prints all answers.
NC = """#!/usr/bin/env python3
import shutil, socket, sys
option, host, port = sys.argv[1:]
assert option == "-N"
with socket.create_connection((host, int(port))) as connection, connection.makefile("rb") as answers:
    connection.sendall(sys.stdin.buffer.read())
    connection.shutdown(socket.SHUT_WR)
    shutil.copyfileobj(answers, sys.stdout.buffer)
"""


def parts_of_tutorial() -> tuple[str, str]:
    """The section about serving, and the rest."""
    before, behind = read_page("TUTORIAL.md").split(SERVED)
    served, _, after = behind.partition("\n## ")
    return served, f"{before}## {after}"


@pytest.fixture
def folder(room: Path) -> Path:
    """One with examples and tools, as at the top of the repository, and nc."""
    for name in ("examples", "tools"):
        (room / name).symlink_to(TOP / name)
    if shutil.which("nc") is None:
        (room / "nc").write_text(NC)
        (room / "nc").chmod(0o755)
    return room


def environment(program: Program, folder: Path) -> dict[str, str]:
    """That of a shell that finds the program by its name."""
    (folder / "hpb").unlink(missing_ok=True)
    (folder / "hpb").symlink_to(program.path)
    return {**os.environ, "PATH": f"{folder}:{os.environ['PATH']}"}


def prints_all(program: Program, folder: Path, text: str) -> None:
    """Each command of a page ends well and prints what stands there. AssertionError if there is none."""
    variables, count = environment(program, folder), 0
    for command in commands_of(text):
        words = ["bash", "-e", "-c", command.typed]
        ran = subprocess.run(words, cwd=folder, env=variables, input=command.lines.encode(), stdout=subprocess.PIPE, timeout=SECONDS)
        assert ran.returncode == 0, command
        assert command.printed is None or shown(ran.stdout) == command.printed
        count += 1
    assert count > 2


def test_the_tutorial(program: Program, folder: Path) -> None:
    prints_all(program, folder, parts_of_tutorial()[1])


def test_an_own_auction(program: Program, folder: Path) -> None:
    prints_all(program, folder, read_page("OWN-AUCTION.md"))


@contextmanager
def shells(folder: Path, variables: dict[str, str]) -> Iterator[dict[str, subprocess.Popen[bytes]]]:
    """Three of them. They end with all that was started in them."""
    made: dict[str, subprocess.Popen[bytes]] = {}
    try:
        for name in TERMINALS:
            made[name] = subprocess.Popen(
                ["bash"],
                cwd=folder,
                env=variables,
                start_new_session=True,
                stdin=subprocess.PIPE,
                stdout=subprocess.PIPE,
                stderr=subprocess.DEVNULL,
            )
        yield made
    finally:
        for shell in made.values():
            os.killpg(shell.pid, signal.SIGKILL)
            shell.communicate()


def shows(shell: subprocess.Popen[bytes], step: Step, seconds: float) -> None:
    """The words give the output that stands in the page."""
    assert shell.stdin is not None and shell.stdout is not None
    shell.stdin.write(step.typed.encode())
    shell.stdin.flush()
    wanted = step.shown.encode()
    assert shown(read_bytes(shell.stdout, len(wanted), seconds)) == step.shown, step


def serves_all(program: Program, folder: Path, seconds: float = SECONDS) -> None:
    """Each step of serving gives its output."""
    text = parts_of_tutorial()[0].replace("5000", str(free_port()))
    steps = list(served_steps(text))
    assert {step.terminal for step in steps} == set(TERMINALS)
    with shells(folder, environment(program, folder)) as made:
        for step in steps:
            shows(made[step.terminal], step, seconds)


def test_what_the_tutorial_serves(program: Program, folder: Path) -> None:
    serves_all(program, folder)


def test_other_output_is_seen(liar: Liar, folder: Path) -> None:
    with pytest.raises(AssertionError):
        prints_all(liar("wrong"), folder, parts_of_tutorial()[1])
    with pytest.raises(AssertionError):
        serves_all(liar("wrong"), folder, 3)
