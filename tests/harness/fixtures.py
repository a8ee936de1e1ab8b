"""The types of fixtures that are functions."""

from __future__ import annotations

from collections.abc import Callable
from pathlib import Path

from harness.programs import Program

# Skips a test with this reason, or lets it fail if the machine has to be complete.
Lack = Callable[[object], None]
# Builds a library of a C source.
Library = Callable[[Path], Path]
# Another program of crates/, by its name.
Companion = Callable[[str], Program]
