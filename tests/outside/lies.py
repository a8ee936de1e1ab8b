"""Stand-ins for the program, each of which tells a lie of `outside.liar`."""

from __future__ import annotations

import sys
from collections.abc import Callable
from pathlib import Path

from harness.programs import Program

TESTS = Path(__file__).resolve().parents[1]

# Within how long a stand-in has to end, in seconds.
PATIENCE = 5
# Makes the stand-in of a lie, by its name.
Liar = Callable[[str], Program]


def stand_in(program: Program, folder: Path, lie: str) -> Program:
    """One that lets this program do the work, in a folder of its own."""
    path = folder / f"liar-{lie.replace(':', '-')}"
    words = f'PYTHONPATH={TESTS} exec {sys.executable} -S -m outside.liar {lie} {program.path} "$@"'
    path.write_text(f"#!/bin/sh\n{words}\n")
    path.chmod(0o755)
    return Program(path, PATIENCE)
