"""The common part of the trials of power cuts: the setting, and the check of a file that a cut left."""

from __future__ import annotations

import random
from collections.abc import Callable, Iterable
from dataclasses import dataclass
from functools import cache
from pathlib import Path

from harness.auctions import Layout
from harness.disks import CutDisk, Lie
from harness.programs import Program

SEEDS = 1 << 32
MOST_SHOWN = 40


@dataclass(frozen=True)
class Setting:
    """A program, a disk and a layout, and a folder beside the disk for files that mustn't be cut."""

    program: Program
    disk: CutDisk
    layout: Layout
    beside: Path
    lie: Lie = Lie.NONE

    @property
    def file(self) -> Path:
        """The auction's file on the disk."""
        return self.disk.folder / "F"

    def leave(self, dice: random.Random) -> str:
        """Cuts the power if it isn't cut yet, and turns it on again with the contents that the cut left."""
        self.disk.cut()
        return self.disk.image(dice.randrange(SEEDS))


Trial = Callable[[Setting, int], None]


def tell(trial: Trial, setting: Setting, seeds: Iterable[int]) -> None:
    """Runs the story of each seed. If one goes wrong, AssertionError is raised, with the seed and the last calls of the disk."""
    for seed in seeds:
        try:
            trial(setting, seed)
        except (AssertionError, OSError) as fault:
            calls = "\n".join(setting.disk.log()[-MOST_SHOWN:])
            raise AssertionError(f"seed {seed}, layout {setting.layout.name}: {fault!r}\nthe last calls of the disk:\n{calls}") from fault


@cache
def new_file(program: Program, layout: Layout, journal: int, definition: bytes, beside: Path) -> bytes:
    """The bytes of a new auction's file."""
    made = beside / f"new-{layout}-{journal}"
    ran = program.format(made, layout, journal, definition)
    assert ran.status == 0, ran
    data = made.read_bytes()
    made.unlink()
    return data
