"""Each call of `serve`, and the images that a crash may leave between them.

One session and then two are served, on a new file and on one that already has batches. Then nobody sends a line.
"""

from __future__ import annotations

import pytest

from calls.served import Served
from calls.watched import Watched
from harness.auctions import FIRST_ROUND, Layout, rounds
from harness.file_calls import Recorder
from harness.programs import Program

WAIVERS = {Layout.PAGES: 0, Layout.CELLS: 1}
ROUNDS = 6


@pytest.mark.timeout(240)
def test_served(program: Program, recorder: Recorder, layout: Layout) -> None:
    waivers = WAIVERS[layout]
    watched = Watched(program, recorder, layout, waivers=waivers).make()
    commands = [*FIRST_ROUND, *rounds(ROUNDS, waivers)]
    for sessions, count in ((1, 25), (2, 40), (1, 0)):
        Served(watched, commands[:count], sessions).holds()
        commands = commands[count:]
        watched.shows()
