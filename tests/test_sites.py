"""The sweep of faults can fail: each call site fails once with each error, and fronts that are silent, hang or lose something are found."""

from __future__ import annotations

import os
import subprocess
import sys
from collections.abc import Callable
from pathlib import Path

import pytest
from faults import FRONT, SOURCE, calls
from harness.conditions import NORMAL
from harness.programs import Program
from sites import Sweep
from sweeping import Kind
from test_front_faults import Shared, Sweeper

# A program that writes three letters at one place and a fourth one at another. What fails is passed over.
TOY = """import os


def main() -> None:
    for letter in (b"a", b"a", b"a"):
        try:
            os.write(1, letter)
        except OSError:
            pass
    try:
        os.write(1, b"b")
    except OSError:
        pass


main()
"""
ERRORS = (5, 28)
FIRST_LINE, SECOND_LINE = 7, 11


@pytest.fixture
def toy(library: Callable[[Path], Path], room: Path) -> Callable[[Sweep], str]:
    """Runs the program with a fault, and returns its output."""
    path = room / "hpb" / "toy.py"
    path.parent.mkdir()
    path.write_text(TOY)

    def runs(sweep: Sweep) -> str:
        sweep.lane().arm()
        conditions = NORMAL.with_library(library(SOURCE), FAULT_IN=path.name, FAULT_FROM="", FAULT_SITES=str(sweep.path))
        return subprocess.run([sys.executable, path], capture_output=True, text=True, timeout=60, env=conditions.variables()).stdout

    return runs


def test_each_site_fails_once_with_each_error(toy: Callable[[Sweep], str], room: Path) -> None:
    """However often it is come to."""
    sweep = Sweep(room / "sites", {"write": ERRORS})
    seen = []
    for _ in range(5):
        output = toy(sweep)
        seen.append((output, sweep.lane().disarm()))
    assert seen == [("aab", True)] * 2 + [("aaa", True)] * 2 + [("aaab", False)]
    assert sweep.lane().count() == 4


def test_a_site_is_told_with_its_line_and_can_be_tried_alone(toy: Callable[[Sweep], str], room: Path) -> None:
    sweep = Sweep(room / "sites", {"write": ERRORS})
    told = []
    while toy(sweep) and sweep.lane().disarm():
        told.append(sweep.lane().last())
    lines = [f"toy.py:{line} main" in one for one, line in zip(told, [FIRST_LINE, FIRST_LINE, SECOND_LINE, SECOND_LINE], strict=True)]
    assert all(lines), told
    key = int(told[2].split(":")[0].removeprefix("site "), 16)
    alone = Sweep(room / "alone", {"write": ERRORS}, only=[key])
    assert (toy(alone), alone.lane().disarm(), toy(alone), alone.lane().disarm()) == ("aaa", True, "aaab", False)


def test_parts_have_each_site_once(toy: Callable[[Sweep], str], room: Path) -> None:
    count = 0
    for part in range(3):
        sweep = Sweep(room / f"sites-{part}", {"write": ERRORS}, part, parts=3)
        while toy(sweep) and sweep.lane().disarm():
            count += 1
    assert count == 4


def test_calls_without_errors_never_fail(toy: Callable[[Sweep], str], room: Path) -> None:
    sweep = Sweep(room / "sites", {"read": ERRORS})
    assert toy(sweep) == "aaab" and not sweep.lane().disarm()


def test_a_call_fails_by_whichever_name_python_makes_it() -> None:
    """Python has many calls under a second name, as mmap64."""
    table = subprocess.run(["nm", "-D", "--undefined-only", sys.executable], capture_output=True, text=True, check=True).stdout
    made = {line.split()[-1].split("@")[0] for line in table.splitlines()}
    assert "pread64" in made
    assert {f"{call}64" for call in calls()} & made <= set(calls())


# Bugs that are planted in a front, by a module that Python loads at its start.
SILENT = """
from hpb.front import words
words.Teller.say = lambda self, text: None
words.cry = lambda data: None
import hpb.front.shell
hpb.front.shell.cry = words.cry
"""
DEAF = """
from hpb.front import watch
watch.Watch.take = lambda self, number: None
"""
FORGETFUL = """
from hpb.front import recorder
from hpb.front.core.events import Synced
write_all = recorder.Recorder.write_all
def forgets(self, entries):
    kept = [entry for entry in entries if entry.kind != "accepted"]
    if kept:
        self.record.write(kept)
    return Synced(len(entries), self.record.place)
recorder.Recorder.write_all = forgets
"""


@pytest.mark.timeout(240)
@pytest.mark.parametrize(
    ("bug", "phase", "found"),
    [
        (SILENT, "begin", "it ended in silence"),
        (DEAF, "stop", "the front didn't end within"),
        (FORGETFUL, "stop", "by the record"),
    ],
    ids=["silent", "deaf", "forgetful"],
)
def test_a_bug_of_a_front_is_found(
    program: Program, memory: Path, room: Path, library: Callable[[Path], Path], monkeypatch: pytest.MonkeyPatch, bug: str, phase: str, found: str
) -> None:
    (room / "sitecustomize.py").write_text(bug)
    monkeypatch.setenv("PYTHONPATH", f"{room}:{os.environ.get('PYTHONPATH', '')}")
    shared = Shared.of(program, memory, library(SOURCE), FRONT, part=0, parts=20, seconds=20)
    shared.most_wrong = 1
    made = Sweeper(shared, shared.sweep.lane())
    try:
        if phase == "begin":
            made.begin(lambda: made.new_day(Kind.CLEAR))
        else:
            made.stop(Kind.CLEAR)
    finally:
        made.drop()
        shared.nursery.end()
    assert shared.wrong and found in shared.wrong[0], shared.wrong
