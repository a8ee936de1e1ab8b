"""Runs the program `hpb`: asks it about a copy of an auction's file, or gives it lines for an auction in memory."""
import os
import pathlib
import subprocess
import tempfile
from collections.abc import Sequence
from os import PathLike
from types import TracebackType
from typing import Final

from hpb.refusals import HpbError
from hpb.rules.definition import Definition
from hpb.rules.writing import definition_line

# A folder in memory: a copy there waits for no disk.
MEMORY: Final = "/dev/shm"


class NotAnswered(HpbError):
    """The program can't be started, refuses the file, or leaves a line without an answer."""


class Copy:
    """A copy of an auction's file, which the program is asked about. It lies in a folder of its own, which is removed at the end of
    `with`.
    """

    def __init__(self, program: str | PathLike[str], image: bytes) -> None:
        self._program, self._image = program, image

    def __enter__(self) -> "Copy":
        folder = MEMORY if os.access(MEMORY, os.W_OK) else tempfile.gettempdir()
        try:
            self._room = pathlib.Path(tempfile.mkdtemp(prefix="hpb-copy-", dir=folder))
        except OSError as fault:
            raise NotAnswered(_no_copy(folder, fault)) from None
        self._file = self._room / "auction.hpb"
        try:
            self._file.write_bytes(self._image)
        except BaseException as fault:
            self._remove()
            if isinstance(fault, OSError):
                raise NotAnswered(_no_copy(folder, fault)) from None
            raise
        return self

    def __exit__(self, kind: type[BaseException] | None, fault: BaseException | None, trace: TracebackType | None) -> None:
        self._remove()

    def _remove(self) -> None:
        """Removes the copy and its folder. That takes no descriptor, and there may be none left."""
        self._file.unlink(missing_ok=True)
        self._room.rmdir()

    def check(self) -> list[str]:
        """The answers to SHOW, and to NODE for each node. If the file is refused, `NotAnswered` is raised."""
        return self._told(["check", "--file", str(self._file)])

    def run(self, lines: Sequence[str]) -> list[str]:
        """The answer to each line. Changes stay in the copy. If the file is refused, or an answer is missing, `NotAnswered` is raised."""
        answers = self._told(["run", "--file", str(self._file)], "".join(f"{line}\n" for line in lines))
        if len(answers) != len(lines):
            raise NotAnswered(f"{len(lines)} lines got {len(answers)} answers")
        return answers

    def _told(self, words: Sequence[str], text: str = "") -> list[str]:
        try:
            ran = subprocess.run([self._program, *words], input=text, capture_output=True, encoding="utf-8", errors="backslashreplace")
        except OSError as fault:
            raise NotAnswered(f"the program can't be started: {fault}") from None
        lines = ran.stdout.splitlines()
        if ran.returncode:
            refusal = next((line for line in lines if line.startswith("ERR ")), f"status {ran.returncode}")
            raise NotAnswered(refusal.removeprefix("ERR ") + ": " + (ran.stderr.strip() or "hpb says no more"))
        return lines


def _no_copy(folder: str, fault: OSError) -> str:
    return f"no copy of the file can be made in {folder}: {fault.strerror or fault}"


def answers_in_memory(program: str | PathLike[str], definition: Definition, lines: Sequence[str]) -> list[str]:
    """A new auction in memory, and its answer to each line. If an answer is missing, `NotAnswered` is raised."""
    text = definition_line(definition) + "".join(f"{line}\n" for line in lines)
    try:
        ran = subprocess.run([program], input=text.encode("latin-1"), capture_output=True)
    except OSError as fault:
        raise NotAnswered(f"{program} can't be started: {fault.strerror}") from None
    answers = ran.stdout.decode("latin-1").splitlines()
    if ran.returncode or len(answers) != len(lines):
        said = ran.stderr.decode("latin-1").strip()
        raise NotAnswered(f"hpb ended with {ran.returncode} after {len(answers)} answers to {len(lines)} lines: {said}")
    return answers
