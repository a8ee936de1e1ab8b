"""Programs that run while requests for memory are refused, by a library that is loaded before the C library (tests/refuse_memory.c)."""

from __future__ import annotations

import concurrent.futures
import subprocess
import tempfile
from collections.abc import Callable, Iterable
from dataclasses import dataclass
from pathlib import Path
from typing import TypeVar

from harness.conditions import Conditions
from harness.programs import Program

SOURCE = Path(__file__).resolve().parents[1] / "refuse_memory.c"
SECONDS = 60
SIDE_BY_SIDE = 4

Value = TypeVar("Value")


@dataclass(frozen=True)
class Tried:
    """What a program wrote, how it ended, and how many requests for memory it made."""

    output: bytes
    errors: bytes
    status: int
    requests: int


@dataclass(frozen=True)
class Refusals:
    """The library that refuses."""

    library: Path

    def conditions(self, folder: Path, number: int = 0, *, is_marked: bool = False, allowed: int | None = None) -> Conditions:
        """The conditions under which this request is refused, or none if the number is 0, or all behind the allowed ones. With `is_marked`
        only the requests count that the program makes between its lines CALL and CAME. Their number is written in this folder.
        """
        marked = {"MARKED": "1"} if is_marked else {}
        most = {} if allowed is None else {"ALLOWED": str(allowed)}
        variables = {"REFUSED": str(number), "REQUESTS": str(folder / "requests"), **marked, **most}
        return Conditions(folder=folder, environment=variables, libraries=(self.library,))

    def run(
        self,
        program: Program,
        words: Iterable[object],
        folder: Path,
        number: int = 0,
        text: bytes = b"",
        *,
        is_marked: bool = False,
        allowed: int | None = None,
    ) -> Tried:
        """Runs these words in a folder."""
        conditions = self.conditions(folder, number, is_marked=is_marked, allowed=allowed)
        process = program.start(*words, input=subprocess.PIPE, conditions=conditions)
        try:
            output, errors = process.communicate(text, timeout=SECONDS)
        finally:
            process.kill()
            process.wait()
        return Tried(output, errors, process.returncode, made_in(folder))


def made_in(folder: Path) -> int:
    """How many requests the program made that ended last in this folder."""
    return int((folder / "requests").read_text())


def each(folder: Path, numbers: Iterable[int], check: Callable[[int, Path], Value]) -> list[Value]:
    """The values of a check for each number, in order. Each has a folder of its own; some are made at the same time."""

    def in_a_folder(number: int) -> Value:
        with tempfile.TemporaryDirectory(dir=folder) as room:
            return check(number, Path(room))

    with concurrent.futures.ThreadPoolExecutor(SIDE_BY_SIDE) as pool:
        return list(pool.map(in_a_folder, numbers))
