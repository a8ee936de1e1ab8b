"""A house, its clients and a device go through stops and faults as 1,000 seeds pick them, in both layouts.

Each answer and each opening is held against docs/RULES.md. After each stop, a client sends again the commands that had no answer.
Everything that can happen has to happen often, and each lie has to be found. `bench/simulate` shows one seed, and takes a million.
"""

from __future__ import annotations

from pathlib import Path

import pytest

from harness.fixtures import Companion
from simulation.judging import judged, tell, try_seeds
from simulation.lies import LIES, Lie

SEEDS, JOBS = 1000, 2
# How many seeds a lie changes if it can, and how many it has to change at least.
TOLD, LEAST = 30, 3
OFTEN = {
    "stops, kept": 500,
    "stops, lost": 500,
    "stops, torn": 1000,
    "faults of openings": 100,
    "faults of commits": 100,
    "faults of checkpoints": 100,
    "batches": 5000,
    "batches that landed unanswered": 50,
    "checkpoints": 500,
    "full journals": 50,
    "commands sent again": 1000,
    "answers": 10_000,
}


@pytest.fixture
def simulator(companion: Companion) -> Path:
    """The program that tells seeds."""
    return companion("hpb_test_simulation").path


@pytest.mark.timeout(300)
def test_seeds(simulator: Path) -> None:
    counts, wrong = try_seeds(simulator, 1, SEEDS, JOBS)
    assert wrong == []
    assert {name: counts[name] for name, least in OFTEN.items() if counts[name] < least} == {}


@pytest.mark.parametrize("lie", LIES, ids=[lie.__name__ for lie in LIES])
def test_lies_are_found(simulator: Path, lie: Lie) -> None:
    seeds = [tell(simulator, seed, 1) for seed in range(1, TOLD + 1)]
    changed = [lines for lines in map(lie, seeds) if lines]
    assert len(changed) >= LEAST
    assert all(judged(lines)[1] for lines in changed)
