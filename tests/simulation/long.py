"""Takes a house, its clients and a device through stops and faults as seeds pick them, and compares each answer and each opening
with the rules.

    bench/simulate crates/hpb_test_simulation/out/hpb_test_simulation                       10,000 seeds
    bench/simulate crates/hpb_test_simulation/out/hpb_test_simulation --seeds 1000000       the long run
    bench/simulate crates/hpb_test_simulation/out/hpb_test_simulation --seed 17             one seed, line by line

A seed gives the same lines each time. The status is 0 if nothing is wrong. Otherwise each wrong seed is printed, with its first
wrong line. Needs Linux.
"""

from __future__ import annotations

import argparse
import os
import sys
import time
from collections import Counter
from pathlib import Path

from simulation.judging import judged, tell, try_seeds

MOST_TOLD = 20


def told(counts: Counter[str]) -> str:
    """The counts in words."""
    return ", ".join(f"{count:,} {name}" for name, count in sorted(counts.items()))


def show(program: Path, seed: int) -> bool:
    """Prints the lines of one seed. Whether nothing is wrong."""
    lines = tell(program, seed, 1)
    counts, wrong = judged(lines)
    print(*lines, told(counts), *wrong, sep="\n")
    return not wrong


def try_many(program: Path, first: int, count: int, jobs: int) -> bool:
    """Judges so many seeds. Whether nothing is wrong."""
    began = time.monotonic()
    counts, wrong = try_seeds(program, first, count, jobs)
    print(*wrong[:MOST_TOLD], sep="\n", end="\n" if wrong else "")
    print(f"{told(counts)}; {len(wrong)} wrong, {time.monotonic() - began:.0f} s")
    return not wrong


def main() -> bool:
    """Does what the words ask for."""
    words = argparse.ArgumentParser(prog="bench/simulate", description=__doc__, formatter_class=argparse.RawDescriptionHelpFormatter)
    words.add_argument("program", type=Path, help="the built program that tells seeds")
    words.add_argument("--seeds", type=int, default=10_000, help="how many (default 10,000)")
    words.add_argument("--first", type=int, default=1, help="the first of them (default 1)")
    words.add_argument("--seed", type=int, help="one seed, to be shown")
    words.add_argument("--jobs", type=int, default=os.cpu_count(), help="how many at a time (default: one for each processor)")
    given = words.parse_args()
    program = given.program.resolve()
    if given.seed is not None:
        return show(program, given.seed)
    return try_many(program, given.first, given.seeds, given.jobs)


if __name__ == "__main__":
    sys.exit(0 if main() else 1)
