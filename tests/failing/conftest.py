"""What the tests of failing calls share."""

from __future__ import annotations

from collections.abc import Iterator
from contextlib import closing
from pathlib import Path

import pytest

from failing.trials import Trial
from harness.auctions import Layout
from harness.failing_calls import SOURCE, FailingCalls
from harness.file_calls import Recorder
from harness.fixtures import Library
from harness.programs import Program


def pytest_generate_tests(metafunc: pytest.Metafunc) -> None:
    """One test for each turn, with other faults in each."""
    if "turn" in metafunc.fixturenames:
        metafunc.parametrize("turn", range(metafunc.config.getoption("--turns")))


@pytest.fixture
def room(memory: Path) -> Path:
    """A folder of the test, in which a sync takes no time."""
    return memory


@pytest.fixture
def trial(program: Program, library: Library, recorder: Recorder, room: Path, layout: Layout) -> Iterator[Trial]:
    """A file of each layout, and the program's calls, none of which fails at first."""
    with closing(FailingCalls(library(SOURCE), room)) as faults, closing(Trial(program, layout, room, faults, recorder)) as made:
        yield made


@pytest.fixture
def paged(program: Program, library: Library, recorder: Recorder, room: Path) -> Iterator[Trial]:
    """The same of pages alone."""
    with closing(FailingCalls(library(SOURCE), room)) as faults, closing(Trial(program, Layout.PAGES, room, faults, recorder)) as made:
        yield made
