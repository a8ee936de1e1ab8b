"""The cost of a bid on a volume of three machines, beside one disk: bids a second, and times to an answer.

    bench/failover_costs --program crates/hpb/out/hpb --disks /var/tmp

A row is of a number of sessions and of a round trip between the machines. Each copy lies in a folder of its own on the disk of `--disks`, as does the file that only one disk keeps. Needs what `bench/failover` needs.
"""

from __future__ import annotations

import argparse
import random
import shutil
import statistics
import sys
import tempfile
import threading
import time
from collections.abc import Iterator
from dataclasses import dataclass
from pathlib import Path

from failover.bidders import BIDDERS, Bidder, bids
from failover.cluster import Cluster
from failover.houses import ServersAlone
from failover.ledger import Ledger
from failover.volume import Volume
from harness.auctions import Layout
from harness.namespaces import leave_mounts

SESSIONS = (1, 4, 8, 32)
ROUND_TRIPS = (0.0, 0.0001, 0.0005, 0.002)
PATIENCE = 60.0


@dataclass
class Timed(Bidder):
    """A bidder that keeps how long each answer took."""

    def __post_init__(self) -> None:
        self.took: list[float] = []

    def step(self) -> None:
        began = time.monotonic()
        super().step()
        self.took.append(time.monotonic() - began)


def measured(house: ServersAlone, sessions: int, seconds: float) -> list[float]:
    """How long each answer took, of so many sessions in so many seconds."""
    bidders = [
        Timed(f"c{number}", bids(range(number, BIDDERS, sessions), random.Random(number)), house, house.ledger, PATIENCE, (1,)) for number in range(sessions)
    ]
    threads = [threading.Thread(target=bidder.run) for bidder in bidders]
    for thread in threads:
        thread.start()
    time.sleep(seconds)
    for bidder in bidders:
        bidder.stops.set()
    for thread in threads:
        thread.join()
    return [took for bidder in bidders for took in bidder.took]


class OneDisk(ServersAlone):
    """A server on a file of the machine's own disk."""

    def file(self) -> Path:
        return Path("/srv/disk") / self.place / "auction.hpb"


def rows(cluster: Cluster, program: Path, seconds: float) -> Iterator[tuple[str, int, list[float]]]:
    """Each place, number of sessions, and times."""
    for kind, trip in [("one disk", 0.0), *((f"volume, {trip * 1000:.1f} ms", trip) for trip in ROUND_TRIPS)]:
        cluster.switch.all_ways(trip / 2)
        for sessions in SESSIONS:
            house_of = OneDisk if kind == "one disk" else ServersAlone
            house = house_of(cluster, Ledger(), program, f"c{trip * 1e6:.0f}_{sessions}", (1,))
            house.make(Layout.PAGES)
            house.begin()
            try:
                yield kind, sessions, measured(house, sessions, seconds)
            finally:
                house.end()


def main() -> int:
    """Reads the words, measures, and returns the status."""
    words = argparse.ArgumentParser(description=__doc__, formatter_class=argparse.RawDescriptionHelpFormatter)
    words.add_argument("--program", type=Path, required=True, help="the built hpb")
    words.add_argument("--disks", type=Path, required=True, help="a folder on the disk")
    words.add_argument("--seconds", type=float, default=5.0, help="of each row (default 5)")
    given = words.parse_args()
    leave_mounts()
    room, disks = Path(tempfile.mkdtemp(prefix="hpb-costs-", dir="/dev/shm")), Path(tempfile.mkdtemp(prefix="hpb-costs-", dir=given.disks))
    try:
        with Cluster(room, disks) as cluster:
            Volume(cluster).make()
            for kind, sessions, took in rows(cluster, given.program.resolve(), given.seconds):
                late = sorted(took)[(len(took) * 99 - 1) // 100]
                print(f"{kind}, {sessions} sessions: {len(took) / given.seconds:.0f} a second, {statistics.median(took) * 1000:.2f} ms, 99 of 100 {late * 1000:.2f} ms", flush=True)
    finally:
        shutil.rmtree(room, ignore_errors=True)
        shutil.rmtree(disks, ignore_errors=True)
    return 0


if __name__ == "__main__":
    sys.exit(main())
