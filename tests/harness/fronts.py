"""The package's commands as processes, by the Python that runs the tests, and what these have started."""

from __future__ import annotations

import subprocess
import sys
import time
from collections.abc import Mapping
from pathlib import Path

from harness.conditions import NORMAL, Conditions
from harness.programs import Ran, Stream, TookTooLong, shown

PACKAGE = Path(__file__).resolve().parents[2] / "python" / "src"
SECONDS = 60


def tool_words(name: str) -> list[str]:
    """How a command of the package is started by the Python that runs the tests, with the variables of `with_package`."""
    return [sys.executable, "-P", "-m", f"hpb.commands.{name}"]


def with_package(variables: Mapping[str, str]) -> dict[str, str]:
    """These variables, by which the package of this checkout is found."""
    behind = variables.get("PYTHONPATH")
    return {**variables, "PYTHONPATH": f"{PACKAGE}:{behind}" if behind else str(PACKAGE)}


def start_tool(
    name: str,
    *words: object,
    input: Stream = subprocess.DEVNULL,
    output: Stream = subprocess.PIPE,
    errors: Stream = subprocess.PIPE,
    conditions: Conditions = NORMAL,
) -> subprocess.Popen[bytes]:
    """Starts a command of the package by the Python that runs the tests; the caller ends it."""
    return subprocess.Popen(
        [*tool_words(name), *map(str, words)],
        stdin=input,
        stdout=output,
        stderr=errors,
        cwd=conditions.folder,
        env=with_package(conditions.variables()),
        preexec_fn=conditions.prepare,
    )


def run_tool(
    name: str,
    *words: object,
    text: bytes = b"",
    output: Stream = subprocess.PIPE,
    conditions: Conditions = NORMAL,
    seconds: float = SECONDS,
) -> Ran:
    """Runs a command of the package on this text to its end."""
    began = time.monotonic()
    process = start_tool(name, *words, input=subprocess.PIPE, output=output, conditions=conditions)
    try:
        written, said = process.communicate(text, timeout=seconds)
    except subprocess.TimeoutExpired:
        process.kill()
        written, said = process.communicate()
        raise TookTooLong(f"{name} {words}: {shown(written)} {shown(said)}") from None
    return Ran(shown(written), shown(said), process.returncode, time.monotonic() - began)


def children_of(process: int) -> list[int]:
    """The processes that one has started; none if it is gone."""
    try:
        return [int(child) for child in Path(f"/proc/{process}/task/{process}/children").read_text().split()]
    except OSError:
        return []


def descendants_of(process: int) -> list[int]:
    """The processes that one has started, and those that these have."""
    children = children_of(process)
    return [*children, *(found for child in children for found in descendants_of(child))]


def is_running(process: int) -> bool:
    """Whether there is such a process, and it hasn't ended."""
    try:
        return Path(f"/proc/{process}/stat").read_text().rsplit(")", 1)[1].split()[0] not in "ZX"
    except OSError:
        return False


def words_of(process: int) -> list[bytes]:
    """The words that a process was started by; none if it is gone."""
    try:
        return Path(f"/proc/{process}/cmdline").read_bytes().split(b"\0")
    except OSError:
        return []
