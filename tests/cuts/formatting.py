"""Cuts of `format`. The file is missing, or unformatted, or whole and new. A further `format` makes it, or says that it is there."""

from __future__ import annotations

import enum
import random
from functools import cache

from cuts.setting import Setting
from harness.programs import Ran

CUTS = 2
JOURNALS = (16, 32)


class Left(enum.Enum):
    """The state of the file by the answer of `check`."""

    NOTHING = "ERR 91 device"
    UNFORMATTED = "ERR 40 unformatted"
    NEW = "ROUND 1 STAGE 1 OPEN REVENUE 0 COUNT 0"


@cache
def calls_of(setting: Setting, journal: int) -> int:
    """How many changes and syncs a whole `format` makes."""
    setting.disk.reset()
    ran = setting.program.format(setting.file, setting.layout, journal)
    assert ran.status == 0, ran
    return setting.disk.calls()


def story(setting: Setting, seed: int) -> None:
    """A format that is cut during its run or right after its answer, a second one on the file that this left, and a third one with
    power.
    """
    dice = random.Random(seed)
    journal = dice.choice(JOURNALS)
    calls = calls_of(setting, journal)
    setting.disk.reset(setting.lie)
    found = Left.NOTHING
    for _ in range(CUTS):
        if dice.randrange(4):
            setting.disk.arm(dice.randint(1, calls))
        ran = formatted(setting, journal, found)
        was_new = found is Left.NEW or ran.status == 0
        told = setting.leave(dice)
        found = left(setting)
        assert found is Left.NEW or not was_new, f"a new file, by {ran}, is {found.name}: {told}"
    ran = formatted(setting, journal, found)
    wanted = "ERR 41 formatted\n" if found is Left.NEW else f"FORMATTED {setting.layout.pages(journal)}\n"
    assert ran.output == wanted, f"{found.name} is formatted by {ran}"
    assert left(setting) is Left.NEW


def formatted(setting: Setting, journal: int, found: Left) -> Ran:
    """Runs `format`, which has to refuse a file that is there."""
    ran = setting.program.format(setting.file, setting.layout, journal)
    assert ran.status == (0 if ran.output.startswith("FORMATTED ") else 1), ran
    assert found is not Left.NEW or ran.status == 1, ran
    return ran


def left(setting: Setting) -> Left:
    """The state now. If `check` says anything else, AssertionError is raised."""
    first = setting.program.check(setting.file).output.split("\n")[0]
    found = next((found for found in Left if found.value == first), None)
    assert found is not None and (found is Left.NOTHING) != setting.file.exists(), f"check of the file: {first}"
    return found
