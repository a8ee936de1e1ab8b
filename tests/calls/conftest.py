"""What the tests of calls share."""

from __future__ import annotations

import pytest

from calls.watched import Watched
from harness.auctions import Layout
from harness.file_calls import Recorder
from harness.programs import Program


@pytest.fixture
def watched(program: Program, recorder: Recorder, layout: Layout) -> Watched:
    """A file that isn't made yet, with the least journal."""
    return Watched(program, recorder, layout)
