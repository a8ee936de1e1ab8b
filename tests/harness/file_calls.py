"""The calls of the system that a program makes of a file, as a library writes them down that is loaded before the C library
(tests/file_calls.c)."""

from __future__ import annotations

import os
from collections.abc import Iterator, Sequence
from dataclasses import dataclass, field
from itertools import zip_longest
from pathlib import Path

from harness.building import SOURCES
from harness.conditions import NORMAL, Conditions

SOURCE = SOURCES / "file_calls.c"
# For each call, how many numbers a line has after the result. Any other call has one, its descriptor.
NUMBERS = {"lock": 2, "advise": 4, "take": 2, "read": 3, "write": 3, "put": 2, "cut": 2}
NAMED = ("link", "rename", "unlink")
FLAGS = {"O_CREAT": "made", "O_TRUNC": "emptied", "O_EXCL": "not there", "O_APPEND": "at its end", "O_DIRECT": "direct", "O_DSYNC": "synced"}
ACCESS = {os.O_RDONLY: "to read", os.O_WRONLY: "to write", os.O_RDWR: "to read and write"}
LOCKS = {1 | 4: "shared", 2 | 4: "alone"}
OUTPUT, REFUSED = "output", "refused"


@dataclass(frozen=True)
class Call:
    """A call: its name, what it is made of, how, its numbers or its bytes, and its fault if it wasn't made, or not of all."""

    name: str
    of: str = "file"
    how: str = ""
    numbers: tuple[int, ...] = ()
    data: bytes = b""
    fault: str = ""

    @property
    def at(self) -> int:
        """The place of a read or a write."""
        return self.numbers[0]

    @property
    def is_write(self) -> bool:
        """Whether it writes to the file."""
        return (self.name, self.of) == ("write", "file")

    @property
    def is_sync(self) -> bool:
        """Whether it syncs the file."""
        return (self.name, self.of) == ("sync", "file")

    def __str__(self) -> str:
        if self.name == "write":
            parts = f"{len(self.data)} bytes at {self.at}, {self.data[:8].hex()}.."
        elif self.name == "put":
            parts = repr(self.data)
        else:
            parts = " ".join([*([self.how] if self.how else []), *map(str, self.numbers)])
        rest = " ".join(part for part in (parts, self.fault) if part)
        return f"{self.name} {self.of}: {rest}" if rest else f"{self.name} {self.of}"


@dataclass(frozen=True)
class Recorder:
    """Writes down the calls of a program in this folder, one run at a time."""

    library: Path
    folder: Path

    @property
    def _lines(self) -> Path:
        return self.folder / "calls"

    def conditions(self, lie: str = "") -> Conditions:
        """Those of a program whose calls are written down from the first one on. The source says which lies there are."""
        self._lines.unlink(missing_ok=True)
        return NORMAL.with_library(self.library, CALLS=str(self._lines), LIE=lie)

    def sees(self) -> bool:
        """Whether any output was seen. There is none if a program doesn't make its calls by the C library."""
        return self._lines.exists() and " put " in self._lines.read_text()

    def by_threads(self, file: Path, link: Path | None = None) -> list[tuple[int, Call]]:
        """The calls of a file, its folder and the streams, each with its thread. The file may be opened by a link."""
        seen = _Seen(file, link)
        return [made for line in self._lines.read_text().splitlines() for made in seen.call(line)]

    def calls(self, file: Path, link: Path | None = None) -> list[Call]:
        """The same without the threads."""
        return [call for _, call in self.by_threads(file, link)]


@dataclass
class _Seen:
    """Descriptors and paths get the names that they have for one file."""

    file: Path
    link: Path | None
    open: dict[int, str | None] = field(default_factory=lambda: {1: OUTPUT})

    def __post_init__(self) -> None:
        self.folder = os.path.dirname(self.file) or "."
        self.roles = {str(self.file): "file", f"{self.file}.new": "file beside", self.folder: "folder"}
        if self.link:
            self.roles.update({str(self.link): "file", os.path.dirname(self.link): "folder of the link"})

    def _role(self, path: str) -> str | None:
        """The name for a path. Any other file of the folder has its own path, and the rest has None."""
        return self.roles.get(path, path if path.startswith(f"{self.folder}/") else None)

    def call(self, line: str) -> Iterator[tuple[int, Call]]:
        """The thread and the call, unless it is about something else."""
        thread, name, came, rest = line.split(" ", 3)
        result, words = int(came), rest.split(" ")
        if name == "begin":
            return
        if name == "open":
            of = self._role(words[1])
            made = Call(name, of or "", opened_how(int(words[0])), fault=fault(name, result))
            if result >= 0:
                self.open[result] = of
        elif name in NAMED:
            names = [str(self._role(path)) for path in words[1:]]
            made = Call(name, of := " as ".join(names), fault=fault(name, result))
            if name == "link" and not result:
                self.open = {number: names[1] if was == names[0] else was for number, was in self.open.items()}
        else:
            number = int(words[0])
            of = self.open.get(number, "session" if name == "put" and number > 2 else None)
            made = _of_descriptor(name, of or "", result, words)
            if name == "close" and not result:
                self.open.pop(number, None)
        if of is not None and (of != OUTPUT or name == "put"):
            yield int(thread), made


def _of_descriptor(name: str, of: str, result: int, words: Sequence[str]) -> Call:
    """A call of an open file by its numbers, and by its bytes in hexadecimal without the zeros at their end."""
    values = tuple(int(word) for word in words[1 : NUMBERS.get(name, 1)])
    if name == "lock":
        return Call(name, of, LOCKS.get(values[0], f"operation {values[0]}"), fault=fault(name, result))
    if name in ("write", "put"):
        data = bytes.fromhex(words[len(values) + 1]).ljust(values[-1], b"\0")
        return Call(name, of, numbers=values[:-1], data=data, fault=fault(name, result, len(data)))
    return Call(name, of, numbers=values, fault=fault(name, result, values[-1] if values else 0))


def opened_how(flags: int) -> str:
    """How a file is opened, in words."""
    named = [word for name, word in FLAGS.items() if flags & getattr(os, name) == getattr(os, name)]
    return ", ".join([ACCESS[flags & os.O_ACCMODE], *named])


def fault(name: str, result: int, size: int = 0) -> str:
    """What a failed or short call adds."""
    if name in ("read", "write", "put"):
        return "" if result == size else f"made of {result}"
    return REFUSED if result < 0 or name == "advise" and result else ""


def difference(found: Sequence[Call], wanted: Sequence[Call]) -> str:
    """Describes the first call that differs from the wanted one. Empty if none does."""
    for place, (some, other) in enumerate(zip_longest(found, wanted), 1):
        if some != other:
            return f"call {place} is {some or 'none'}; wanted: {other or 'none'}{_byte(some, other)}"
    return ""


def _byte(some: Call | None, other: Call | None) -> str:
    """The first byte at which two writes of one place and length differ."""
    if some is None or other is None or (some.name, some.of, some.numbers, len(some.data)) != (other.name, other.of, other.numbers, len(other.data)):
        return ""
    differs = next((place for place, (byte, wanted) in enumerate(zip(some.data, other.data)) if byte != wanted), None)
    return "" if differs is None else f" (byte {differs} differs)"
