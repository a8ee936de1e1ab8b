"""What the tests from outside share."""

from __future__ import annotations

import tempfile
from pathlib import Path

import pytest

from harness.programs import Program
from outside.lies import Liar, stand_in


@pytest.fixture
def liar(program: Program, place: Path) -> Liar:
    """Makes a stand-in for the program that tells a lie: `liar("silent")`."""
    folder = Path(tempfile.mkdtemp(prefix="liars-", dir=place))
    return lambda lie: stand_in(program, folder, lie)
