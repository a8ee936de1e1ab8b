"""Other users of the machine, and work done as one of them."""

from __future__ import annotations

import os
import pickle
import pwd
import select
import signal
import time
from collections.abc import Callable
from dataclasses import dataclass
from pathlib import Path
from typing import ParamSpec, TypeVar

Arguments = ParamSpec("Arguments")
Result = TypeVar("Result")

SECONDS = 20


@dataclass(frozen=True)
class User:
    """An account, by its numbers."""

    uid: int
    gid: int

    @classmethod
    def named(cls, name: str) -> User:
        """The system's user with this name. If there is none, KeyError is raised."""
        found = pwd.getpwnam(name)
        return cls(found.pw_uid, found.pw_gid)

    def become(self) -> None:
        """From here on this process belongs to that user, without other groups, and can't go back."""
        os.setgroups([])
        os.setresgid(self.gid, self.gid, self.gid)
        os.setresuid(self.uid, self.uid, self.uid)

    def own(self, path: Path) -> Path:
        """Gives a file or folder to this user."""
        os.chown(path, self.uid, self.gid)
        return path

    def call(self, function: Callable[Arguments, Result], *words: Arguments.args, **more: Arguments.kwargs) -> Result:
        """Calls a function in a process of this user; returns its result, or raises its exception. After 20 seconds, TimeoutError
        is raised.
        """
        return _in_child(self.become, lambda: function(*words, **more))


def _in_child(prepare: Callable[[], None], work: Callable[[], Result]) -> Result:
    reader, writer = os.pipe()
    child = os.fork()
    if child == 0:
        os.close(reader)
        _tell(writer, prepare, work)
    os.close(writer)
    try:
        was_right, value = pickle.loads(_read_all(reader))
    finally:
        os.close(reader)
        os.kill(child, signal.SIGKILL)
        os.waitpid(child, 0)
    if was_right:
        result: Result = value
        return result
    raise value


def _tell(writer: int, prepare: Callable[[], None], work: Callable[[], object]) -> None:
    """The whole life of the child, which never returns to the test."""
    try:
        try:
            prepare()
            told = pickle.dumps((True, work()))
        except BaseException as fault:  # of any kind: the parent raises it again
            told = pickle.dumps((False, fault))
        with open(writer, "wb") as stream:
            stream.write(told)
    finally:
        os._exit(0)


def _read_all(reader: int) -> bytes:
    parts: list[bytes] = []
    end = time.monotonic() + SECONDS
    while select.select([reader], [], [], max(0.0, end - time.monotonic()))[0]:
        part = os.read(reader, 1 << 16)
        if not part:
            return b"".join(parts)
        parts.append(part)
    raise TimeoutError("the other user's process takes too long")
