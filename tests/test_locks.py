"""Locks of front and page stay held by nobody, whichever request for memory is refused while they are held or freed."""

from __future__ import annotations

import subprocess
import sys
from collections.abc import Callable
from pathlib import Path

import pytest
from faults import MEMORY, SOURCE
from harness.auctions import definition
from harness.conditions import NORMAL
from harness.fronts import with_package
from sites import ARMED, AT_REST, FAILED, Sweep

# Each call is made until none of its requests for memory is left to refuse. Python keeps some thousand tuples for later use, so those are
# taken away first. A lock that is held in the end is printed with the call.
TOY = f"""import errno
import mmap
import os
import signal
import sys
from hpb.front.log import Log, Stream
from hpb.front.watch import Watch
from hpb.pages.server import Server
from hpb.pages.view import Contact, State, View
from hpb.pages.walls import Anybody, Wall
from hpb.rules import read_definition
from hpb.rules.tree import tree_of
from hpb.threads import Places


def main() -> None:
    view = View(None, Contact(State.WAITING, 0, 1))
    wall, places, log, watch = Wall(tree_of(read_definition(DEFINITION)), ["x"], view), Places(9), Log(Stream(2), {{"a": 1}}), Watch()
    server = Server(("127.0.0.1", 0), [], Anybody(wall))
    calls = [
        (lambda: places.take(), places._lock),
        (lambda: places.give_back(), places._lock),
        (lambda: log.write("a"), log.lock),
        (lambda: log.lose("a"), log.lock),
        (lambda: log.take_counts(), log.lock),
        (lambda: watch.call(signal.SIGHUP), watch.lock),
        (lambda: watch.attach(None, print, lambda: None), watch.lock),
        (lambda: wall.now(), wall._lock),
        (lambda: wall.next(-1, 0), wall._lock),
        (lambda: wall.next(wall.now()[2], 0), wall._lock),
        (lambda: wall.hang(view), wall._lock),
        (lambda: server.has_asked(server.socket), server._lock),
        (lambda: server._give_back(server.socket), server._lock),
        (lambda: server._end_silent(), server._lock),
    ]
    with open(os.environ["FAULT_SITES"], "r+b") as file:
        room = mmap.mmap(file.fileno(), 4096)
    tuples = [(number, number, number) for number in range(9_000)]
    for number, (call, lock) in enumerate(calls):
        has_failed = True
        while has_failed:
            room[0] = {ARMED}
            try:
                call()
            except (MemoryError, RuntimeError):
                pass
            has_failed, room[0] = room[0] == {FAILED}, {AT_REST}
            if lock.locked():
                print(f"call {{number}} leaves its lock held")
                return


DEFINITION = {definition()!r}
main()
"""


@pytest.mark.timeout(90)
def test_no_refusal_of_memory_leaves_a_lock_held(library: Callable[[Path], Path], room: Path) -> None:
    path = room / "hpb" / "toy.py"
    path.parent.mkdir()
    path.write_text(TOY)
    sweep = Sweep(room / "sites", dict.fromkeys(MEMORY, (12,)))
    conditions = NORMAL.with_library(library(SOURCE), FAULT_IN=path.name, FAULT_FROM="", FAULT_SITES=str(sweep.path), PYTHONMALLOC="malloc")
    ran = subprocess.run([sys.executable, path], capture_output=True, text=True, timeout=80, env=with_package(conditions.variables()))
    assert (ran.stdout, ran.returncode) == ("", 0), ran
    assert sweep.lane().count() > 20
