"""Stories of the loss of a machine, by seeds, and a table of what they showed.

    bench/failover --program crates/hpb/out/hpb --rounds 100 --seed 1
    bench/failover --program crates/hpb/out/hpb --story two_lost --rounds 5
    bench/failover --program crates/hpb/out/hpb --moose --story writer_lost
    bench/failover --program crates/hpb/out/hpb --rounds 5 --story cut_from_all --set cluster.quorum-type none

A round is a story with an auction of its own: first each story once, in an order by chance, and so on. The server alone and a front with its
record take turns, and so do both layouts. The status is 0 if all rounds were right, and 1 else. Needs root, /dev/net/tun, a C compiler and the Debian
package glusterfs-server. `--moose` needs moosefs-master, moosefs-chunkserver and moosefs-client in its place. What it starts ends with it.
"""

from __future__ import annotations

import argparse
import random
import shutil
import statistics
import sys
import tempfile
import time
from collections.abc import Iterable, Iterator, Sequence
from pathlib import Path

from failover import moose
from failover.cluster import DISK_MIB, Cluster
from failover.stories import STORIES, Story
from failover.trials import Plan, Result, Trial
from failover.volume import Volume
from harness.auctions import Layout
from harness.namespaces import leave_mounts

MEMORY = Path("/dev/shm")


def plans(stories: Sequence[Story], seed: int, rounds: int) -> Iterator[Plan]:
    """The trials of a seed: each story comes as often as any other, at most once more."""
    dice = random.Random(seed)
    order: list[Story] = []
    for number in range(rounds):
        if not order:
            order = list(stories)
            dice.shuffle(order)
        yield Plan(order.pop(), dice.random() < 0.5, dice.choice(list(Layout)), seed * 1_000 + number)


def run(program: Path, plans: Iterable[Plan], changed: Sequence[str] = (), is_moose: bool = False, clocks: bool = False) -> Iterator[Result]:
    """Runs trials one after another on machines that are made for them."""
    room = Path(tempfile.mkdtemp(prefix="hpb-failover-", dir=MEMORY))
    try:
        with Cluster(room, disk_mib=moose.DISK_MIB if is_moose else DISK_MIB) as cluster:
            if clocks:
                cluster.set_clocks()
            volume = moose.Moose(cluster) if is_moose else Volume(cluster, changed)
            volume.make()
            for plan in plans:
                yield Trial(cluster, volume, program, plan).run()
    finally:
        shutil.rmtree(room, ignore_errors=True)


def table(results: Sequence[Result]) -> str:
    """A row for each story: its rounds, their OKs, how many were wrong, and the seconds until another machine acknowledged."""
    rows = [("STORY", "ROUNDS", "OK", "WRONG", "MEDIAN", "99 OF 100", "MOST")]
    stories = {result.plan.story: [one for one in results if one.plan.story is result.plan.story] for result in results}
    for story, found in [*sorted(stories.items(), key=lambda pair: pair[0].__name__), (None, list(results))]:
        name = story.__name__ if story else "all"
        rows.append((name, str(len(found)), str(sum(one.answers for one in found)), str(sum(bool(one.faults) for one in found)), *times(found)))
    widths = [max(len(row[place]) for row in rows) for place in range(len(rows[0]))]
    return "".join("  ".join(cell.rjust(width) for cell, width in zip(row, widths)) + "\n" for row in rows)


def times(found: Sequence[Result]) -> tuple[str, str, str]:
    took = sorted(one.seconds for one in found if one.seconds is not None)
    if not took:
        return "-", "-", "-"
    return f"{statistics.median(took):.1f} s", f"{took[(len(took) * 99 - 1) // 100]:.1f} s", f"{took[-1]:.1f} s"


def read_words() -> argparse.Namespace:
    words = argparse.ArgumentParser(description=__doc__, formatter_class=argparse.RawDescriptionHelpFormatter)
    words.add_argument("--program", type=Path, required=True, help="the built hpb")
    words.add_argument("--rounds", type=int, default=len(STORIES), help="how many (default: each story once)")
    words.add_argument("--seed", type=int, default=1, help="of the stories and of all that is left to chance (default 1)")
    words.add_argument("--story", choices=[story.__name__ for story in STORIES], action="append", help="this one alone; may be given more than once")
    words.add_argument("--set", nargs="+", default=[], metavar="OPTION VALUE", help="options of the volume that are to be others than SCALE says")
    words.add_argument("--moose", action="store_true", help="another engine: MooseFS, with its master on the bidders' machine")
    words.add_argument("--clocks", action="store_true", help="the clocks of two machines' servers go an hour before and behind")
    return words.parse_args()


def main() -> int:
    """Reads the words, runs the rounds, and returns the status."""
    given = read_words()
    leave_mounts()
    stories = [story for story in STORIES if not given.story or story.__name__ in given.story]
    began, results = time.monotonic(), []
    for result in run(given.program.resolve(), plans(stories, given.seed, given.rounds), given.set, given.moose, given.clocks):
        print(result.line(), flush=True)
        results.append(result)
    print(f"\n{table(results)}\n{len(results)} rounds in {time.monotonic() - began:.0f} s")
    return int(any(result.faults for result in results))


if __name__ == "__main__":
    sys.exit(main())
