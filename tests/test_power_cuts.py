"""Power cuts of `format`, `run`, `serve`, and of a front with its record, on a disk that keeps any legal part of the unsynced
changes.

`--cuts N` makes about so many cuts in all (default 2,000), over jobs, layouts and programs. A story that goes wrong gives its seed.
`--seed S` runs that one alone, and `-k` chooses the job.
"""

from __future__ import annotations

import enum
from collections.abc import Iterator
from dataclasses import replace
from pathlib import Path

import pytest

from cuts import formatting, fronting, running, serving
from cuts.setting import Setting, Trial, tell
from harness.auctions import Layout
from harness.disks import CutDisk, Lie
from harness.programs import Program

# Stories in a test: few, so that processes share them evenly.
STORIES = 4
# How many stories at most it may take to find a lie.
MOST_STORIES_OF_A_LIE = 40


class Job(enum.Enum):
    """The jobs that are cut, each with its share of a hundred cuts, the number of cuts in a story, and the story."""

    FORMAT = (15, formatting.CUTS, formatting.story)
    RUN = (40, running.CUTS, running.story)
    SERVE = (33, serving.CUTS, serving.story)
    FRONT = (12, fronting.CUTS, fronting.story)

    def __init__(self, share: int, cuts: int, story: Trial) -> None:
        self.share, self.cuts, self.story = share, cuts, story

    def stories(self, cuts: int, kinds: int) -> int:
        """The number of stories for one program and layout, given the number of cuts in all and of such kinds."""
        return max(1, round(cuts * self.share / 100 / self.cuts / kinds))


# The lies that each job has to find.
LIES = [
    (Job.FORMAT, Lie.SYNC),
    (Job.FORMAT, Lie.FOLDER),
    *((job, lie) for job in (Job.RUN, Job.SERVE, Job.FRONT) for lie in (Lie.SYNC, Lie.LAST)),
]


def pytest_generate_tests(metafunc: pytest.Metafunc) -> None:
    """Stories of each job, by their seeds."""
    if "seeds" not in metafunc.fixturenames:
        return
    option = metafunc.config.getoption
    kinds = len(option("--program") or [None]) * len(Layout)
    if (seed := option("--seed")) is not None:
        chosen = [(job, range(seed, seed + 1)) for job in Job]
    else:
        chosen = [(job, seeds) for job in Job for seeds in parts_of(job.stories(option("--cuts"), kinds))]
    names = [f"{job.name.lower()}-{seeds.start}" for job, seeds in chosen]
    metafunc.parametrize(("job", "seeds"), chosen, ids=names)


def parts_of(stories: int) -> Iterator[range]:
    """The seeds of stories, some for each test."""
    for first in range(0, stories, STORIES):
        yield range(first, min(first + STORIES, stories))


@pytest.fixture
def setting(program: Program, disk: CutDisk, layout: Layout, room: Path) -> Setting:
    """The setting for the trials of this test."""
    return Setting(program, disk, layout, room)


@pytest.mark.timeout(300)
def test_a_power_cut_loses_nothing_that_was_promised(setting: Setting, job: Job, seeds: range) -> None:
    tell(job.story, setting, seeds)


@pytest.mark.parametrize(("job", "lie"), LIES, ids=[f"{job.name}-{lie.name}".lower() for job, lie in LIES])
@pytest.mark.timeout(300)
def test_a_disk_that_lies_is_found(setting: Setting, job: Job, lie: Lie) -> None:
    with pytest.raises(AssertionError, match="seed "):
        tell(job.story, replace(setting, lie=lie), range(MOST_STORIES_OF_A_LIE))
