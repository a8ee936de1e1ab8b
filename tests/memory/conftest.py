"""What the tests share in which memory is refused."""

from __future__ import annotations

from pathlib import Path

import pytest

from harness.fixtures import Library
from harness.refusals import SOURCE, Refusals


@pytest.fixture(scope="session")
def refusals(library: Library) -> Refusals:
    """The library that refuses."""
    return Refusals(library(SOURCE))


@pytest.fixture
def room(memory: Path) -> Path:
    """A folder of the test, in which a sync takes no time."""
    return memory
