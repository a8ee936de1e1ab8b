"""Makes images that a crash may leave of a file, and compares what a program shows of each with the earlier answers.

    bench/images crates/hpb/out/hpb                         2,000 images of each layout
    bench/images crates/hpb/out/hpb --count 100000          the long run, of both layouts together
    bench/images crates/hpb/out/hpb --layout 2 --story 7    one story, on cells alone

The status is 0 if nothing is wrong. Otherwise the fault is printed, and the folder stays. Needs Linux, a C compiler, and a program
that loads the C library.
"""

from __future__ import annotations

import argparse
import shutil
import sys
import tempfile
import time
from collections.abc import Iterable, Sequence
from concurrent.futures import ThreadPoolExecutor
from pathlib import Path

from calls.stories import STORY, WAIVERS, Crashes, prefixes
from harness import building
from harness.auctions import Layout
from harness.file_calls import SOURCE, Recorder
from harness.programs import Program


def tell(program: Program, library: Path, folder: Path, layout: Layout, seed: int, numbers: Sequence[int], jobs: int) -> list[Crashes]:
    """These stories, so many at a time. Those that run at the same time have folders of their own."""
    for waivers in (0, WAIVERS):
        prefixes(program, waivers)

    def some(place: int) -> Crashes:
        room = folder / f"stories{place}of{layout.value}"
        room.mkdir()
        crashes = Crashes(program, Recorder(library, room), layout, seed)
        for number in numbers[place::jobs]:
            crashes.story(number)
        return crashes

    with ThreadPoolExecutor(jobs) as pool:
        return list(pool.map(some, range(jobs)))


def told(made: Iterable[Crashes]) -> tuple[int, int, list[str]]:
    """How many images of how many jobs there were, and the faults."""
    images, jobs, faults = zip(*((crashes.images, crashes.runs, crashes.faults) for crashes in made))
    return sum(images), sum(jobs), sum(faults, [])


def main() -> bool:
    """Does what the words ask for. Whether nothing is wrong."""
    words = argparse.ArgumentParser(prog="bench/images", description=__doc__, formatter_class=argparse.RawDescriptionHelpFormatter)
    words.add_argument("program", type=Path, help="the built program")
    words.add_argument("--count", type=int, default=4000, help="of images, of all layouts together (default 4000)")
    words.add_argument("--seed", type=int, default=2, help="of the stories (default 2)")
    words.add_argument("--story", type=int, help="the number of one story, to be told alone")
    words.add_argument("--jobs", type=int, default=2, help="stories at a time (default 2)")
    words.add_argument("--folder", type=Path, default=Path("/dev/shm"), help="the folder in which files are made (default /dev/shm)")
    words.add_argument("--layout", type=int, nargs="+", choices=[1, 2], default=[1, 2], help="of the journal: 1 pages, 2 cells (default both)")
    given = words.parse_args()
    layouts = [Layout(number) for number in given.layout]
    numbers = range(max(1, given.count // len(layouts) // STORY)) if given.story is None else [given.story]
    folder = Path(tempfile.mkdtemp(prefix="images-", dir=given.folder))
    library, is_right = building.library(SOURCE, folder), True
    for layout in layouts:
        began = time.monotonic()
        images, jobs, faults = told(tell(Program(given.program.resolve()), library, folder, layout, given.seed, numbers, given.jobs))
        print(*faults, sep="\n", end="\n" if faults else "")
        counts = f"{images} images of {jobs} jobs, by seed {given.seed}, {len(faults)} wrong, {time.monotonic() - began:.0f} s"
        print(f"{layout.name.lower()}: {counts}", flush=True)
        is_right = is_right and not faults
    if is_right:
        shutil.rmtree(folder)
    else:
        print(f"the files stay in {folder}")
    return is_right


if __name__ == "__main__":
    sys.exit(0 if main() else 1)
