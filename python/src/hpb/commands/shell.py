"""Standard streams that a command can use, even if they are closed, fail, or lead into a file that the command is given.

Messages never go into an auction's file or a record, nor among the answers. A signal ends a command also while its terminal takes
nothing, as after Ctrl-S.
"""
import contextlib
import functools
import io
import os
import re
import signal
import stat
import sys
from collections.abc import Callable, Iterator
from typing import Any, Final

from hpb.commands import program_name
from hpb.plain import plain
from hpb.streams import STANDARD_ERROR, STANDARD_OUTPUT, hold_closed_streams, write_all

# The endings of the files beside a record, after its name and a dot.
_BESIDE = re.compile(r"asked|[1-9][0-9]*")
_FAILED = 1
_END_SIGNALS: Final = (signal.SIGTERM, signal.SIGINT, signal.SIGHUP)
# How long a command that is to end waits for a terminal to take its last words.
_END_SECONDS = 2.0


def from_shell(main: Callable[[], int]) -> Callable[[], int]:
    """Gives a command's `main` standard streams that can be used.

    If standard error leads into a file that an argument names, nothing is written there. If standard output can't be written, a message
    says so, and the status isn't 0. SIGINT ends the command with 1. SIGTERM and SIGHUP end it at once, unless `main` calls
    `end_by_signals`.
    """

    @functools.wraps(main)
    def called() -> int:
        _hold_streams()
        _end_by(_FAILED, signal.SIGINT)
        try:
            return _ended(main)
        except BrokenPipeError:  # Its reader is gone, and knows.
            pass
        except _OutputFails as fault:
            say(f"standard output can't be written: {fault}")
        # What standard output didn't take isn't written again at the end.
        _lead_nowhere(STANDARD_OUTPUT)
        return _FAILED

    return called


def _ended(main: Callable[[], int]) -> int:
    """Runs `main`. Returns its status once everything that it printed is written."""
    try:
        status = main()
    except SystemExit as ended:  # Help, or wrong words.
        status = ended.code if isinstance(ended.code, int) else _FAILED
    sys.stdout.flush()
    return status


class _OutputFails(Exception):
    """Standard output can't be written. The text is the system's reason."""


class _Output(io.RawIOBase):
    """Standard output. If it is set not to block, writing waits until it can go on."""

    def writable(self) -> bool:
        return True

    def fileno(self) -> int:
        return STANDARD_OUTPUT

    def isatty(self) -> bool:
        return os.isatty(STANDARD_OUTPUT)

    def write(self, data: Any) -> int:
        try:
            write_all(STANDARD_OUTPUT, bytes(data))
        except BrokenPipeError:
            raise
        except OSError as fault:
            raise _OutputFails(fault.strerror) from None
        return len(data)


def end_by_signals(status: int = 0) -> None:
    """From now on SIGTERM, SIGINT and SIGHUP end the command with this status, if its output is still there. What it has begun is cleaned up
    first."""
    _end_by(status, *_END_SIGNALS)


def _end_by(status: int, *numbers: signal.Signals) -> None:
    """These signals end the command by a SystemExit, and after two seconds in any case. A signal that is ignored stays so."""

    def end(*_: object) -> None:
        for number in _END_SIGNALS:
            signal.signal(number, signal.SIG_IGN)
        signal.signal(signal.SIGALRM, lambda *_: os._exit(status))
        signal.setitimer(signal.ITIMER_REAL, _END_SECONDS)
        sys.exit(status)

    for number in numbers:
        if signal.getsignal(number) is not signal.SIG_IGN:
            signal.signal(number, end)


def say(text: object) -> None:
    """Writes a line on standard error, after the command's name. If the stream fails, the command goes on."""
    with contextlib.suppress(OSError):
        write_all(STANDARD_ERROR, f"{program_name()}: {plain(text)}\n".encode())


def output_leads_to() -> str:
    """The file into which standard output leads, if an argument names it or a file that it is kept beside. Else the text is empty."""
    return _named_by(STANDARD_OUTPUT)


def _hold_streams() -> None:
    """Keeps closed streams closed: no file gets the number of one, so no output for it goes into a file."""
    hold_closed_streams()
    if _named_by(STANDARD_ERROR):
        _lead_nowhere(STANDARD_ERROR)
    sys.stdin = sys.stdin or open(0, closefd=False)
    known, raw = sys.stdout, _Output()
    encoding, errors = (known.encoding, known.errors) if known else ("utf-8", "strict")
    sys.stdout = io.TextIOWrapper(io.BufferedWriter(raw), encoding, errors, line_buffering=raw.isatty())
    sys.stderr = sys.stderr or open(os.devnull, "w")


def _lead_nowhere(stream: int) -> None:
    nowhere = os.open(os.devnull, os.O_WRONLY | os.O_CLOEXEC)
    os.dup2(nowhere, stream)
    os.close(nowhere)


def _named_by(stream: int) -> str:
    """The file into which a stream leads, if an argument names it, or names the record that it stands beside. Else the text is empty."""
    found = os.fstat(stream)
    if not stat.S_ISREG(found.st_mode):
        return ""
    for word in sys.argv[1:]:
        for name in (word, word.partition("=")[2]):
            for path in _with_those_beside(name):
                with contextlib.suppress(OSError, ValueError):
                    if os.path.samestat(os.stat(path), found):
                        return path
    return ""


def _with_those_beside(name: str) -> Iterator[str]:
    folder, own = os.path.split(name)
    if not own:
        return
    yield name
    with contextlib.suppress(OSError, ValueError):
        for other in os.listdir(folder or "."):
            if other.startswith(f"{own}.") and _BESIDE.fullmatch(other.removeprefix(f"{own}.")):
                yield os.path.join(folder, other)
