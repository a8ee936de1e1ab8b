"""A program that is stopped at a call of the system, and killed there."""

from __future__ import annotations

import ctypes
import os
import signal
from collections.abc import Sequence
from pathlib import Path

from harness.programs import Program, argument

# Of each call of the system there are two such stops, before it and after it.
TRACE_ME, AT_CALLS = 0, 24

_libc = ctypes.CDLL(None, use_errno=True)


def _ptrace(request: int, process: int = 0) -> int:
    result: int = _libc.ptrace(ctypes.c_long(request), ctypes.c_long(process), ctypes.c_void_p(0), ctypes.c_void_p(0))
    return result


def can_trace() -> bool:
    """Whether the system lets a process be traced by its parent."""
    child = os.fork()
    if child == 0:
        os._exit(1 if _ptrace(TRACE_ME) else 0)
    return os.waitpid(child, 0)[1] == 0


def killed_at(program: Program, stop: int, words: Sequence[object], text: Path) -> bool:
    """Kills a program, whose standard input is a file, at the stop of this number, from 1 on. False if it ended before."""
    child = os.fork()
    if child == 0:
        _become(program, words, text)
    _, status = os.waitpid(child, 0)
    for _ in range(stop):
        if not os.WIFSTOPPED(status):
            return False
        if _ptrace(AT_CALLS, child):
            break
        _, status = os.waitpid(child, 0)
    if not os.WIFSTOPPED(status):
        return False
    os.kill(child, signal.SIGKILL)
    os.waitpid(child, 0)
    return True


def _become(program: Program, words: Sequence[object], text: Path) -> None:
    """The life of the child: it never comes back."""
    try:
        null = os.open(os.devnull, os.O_RDWR)
        os.dup2(os.open(text, os.O_RDONLY), 0)
        os.dup2(null, 1)
        os.dup2(null, 2)
        _ptrace(TRACE_ME)
        os.execv(program.path, ["hpb", *map(argument, words)])
    finally:
        os._exit(127)
