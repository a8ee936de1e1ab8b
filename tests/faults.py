"""Makes calls to the system fail once, in a front or in its page, by a library that is loaded before (`faults.c`)."""

from __future__ import annotations

import re
import struct
from collections.abc import Callable
from dataclasses import dataclass
from pathlib import Path

from harness.conditions import NORMAL, Conditions

SOURCE = Path(__file__).with_name("faults.c")
FRONT, PAGE = "hpb.commands.front", "hpb.front.viewers"
NUMBER = struct.Struct("Q")
# By the last one Python gets room for the calls of a thread.
MEMORY = ("malloc", "calloc", "realloc", "mmap64")


def calls() -> list[str]:
    """The calls that the library counts, in the order of their numbers, with those for memory last."""
    text = SOURCE.read_text()
    tables = [text.split(f"#define {name}(X)")[1].split("\n\n")[0] for name in ("CALLS", "REQUESTS")]
    return re.findall(r"X\((\w+)\)", "".join(tables))


@dataclass
class Faults:
    """The library, and the file in which it counts."""

    library: Path
    counted: Path

    @classmethod
    def built(cls, library: Callable[[Path], Path], folder: Path) -> Faults:
        return cls(library(SOURCE), folder / "faults")

    def of(
        self, module: str, begun_at: Path | None, call: str = "", number: int = 0, error: int = 0, times: int = 1
    ) -> Conditions:
        """Conditions for a process of this module. In it a call fails with this error number, or never returns if that is 0. Calls
        are counted from the first opening of the file `begun_at` on, or from the start.
        """
        self.counted.write_bytes(bytes(NUMBER.size * (len(calls()) + 1)))
        more = {"PYTHONMALLOC": "malloc"} if call in MEMORY or not call else {}
        more |= {"FAULT": f"{call}:{number}:{error}:{times}"} if call else {}
        return NORMAL.with_library(
            self.library, FAULT_IN=module, FAULT_FROM=str(begun_at or ""), FAULT_COUNTS=str(self.counted), **more
        )

    def counts(self) -> dict[str, int]:
        """How often each call was made."""
        return dict(zip(calls(), self._numbers()))

    def failed(self) -> int:
        """How many calls failed."""
        return self._numbers()[-1]

    def _numbers(self) -> list[int]:
        return [number for (number,) in NUMBER.iter_unpack(self.counted.read_bytes())]
