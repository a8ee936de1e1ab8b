"""Fixtures of the tests of docs/PROTOCOL.md."""

from __future__ import annotations

from functools import partial
from pathlib import Path

import pytest

from harness.auctions import Layout
from harness.programs import Program
from protocol.talking import Asks, Hpb, asks_script, asks_server


@pytest.fixture
def hpb(program: Program, room: Path) -> Hpb:
    """The program in a folder of this test."""
    return Hpb(program, room)


@pytest.fixture(params=[None, *Layout], ids=["script", "served pages", "served cells"])
def asks(program: Program, room: Path, request: pytest.FixtureRequest) -> Asks:
    """Runs a transcript by a script, and by a server on a file of each layout."""
    layout: Layout | None = request.param
    return partial(asks_server, program, room / "F", layout) if layout else partial(asks_script, program)
