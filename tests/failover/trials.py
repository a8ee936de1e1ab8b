"""One story with an auction on the volume: bidders keep their answers, and afterwards all has to agree."""

from __future__ import annotations

import random
import subprocess
import threading
import time
from collections.abc import Sequence
from dataclasses import dataclass, field
from pathlib import Path

from failover.bidders import BIDDERS, NODES, Bidder, bids, definition
from failover.cluster import KEEPERS, Cluster
from failover.houses import Fronts, House, ServersAlone
from failover.ledger import Ledger, Wrong
from failover.stories import Scene, Story, mended
from failover.volume import Volume
from harness.auctions import Layout
from harness.file_systems import Lacking

CLIENTS = 4
# So many OKs have to come before a story, and after it.
BEFORE, AFTER = 40, 20
SECONDS = 180.0
MOST_SHOWN = 5


@dataclass(frozen=True)
class Plan:
    """A trial: its story, with a front or the server alone, and the layout of the file."""

    story: Story
    front: bool
    layout: Layout
    seed: int


@dataclass
class Result:
    """What a trial showed. `seconds` is the time from the story until another machine acknowledged, or until any did."""

    plan: Plan
    answers: int = 0
    seconds: float | None = None
    faults: list[str] = field(default_factory=list)

    def line(self) -> str:
        doc = (self.plan.story.__doc__ or "").strip()
        took = f"{self.seconds:.1f} s" if self.seconds is not None else "-"
        where = "front" if self.plan.front else "server"
        return f"{self.plan.seed}: {doc}; {where}, layout {int(self.plan.layout)}: {self.answers} OKs, {took}" + "".join(f"\n  {one}" for one in self.shown())

    def shown(self) -> list[str]:
        """The first faults, and how many more there are."""
        more = len(self.faults) - MOST_SHOWN
        return [*self.faults[:MOST_SHOWN], *([f"and {more} more"] if more > 0 else [])]


class Trial:
    """A trial on machines that are up and whole, and that are so again afterwards."""

    def __init__(self, cluster: Cluster, volume: Volume, program: Path, plan: Plan) -> None:
        self.cluster, self.volume, self.program, self.plan = cluster, volume, program, plan
        self.dice = random.Random(plan.seed)
        self.ledger = Ledger()
        self.house = self.new_house()
        self.bidders = self.new_bidders()
        self.threads = [threading.Thread(target=self.bid, args=(bidder,)) for bidder in self.bidders]

    def new_house(self) -> House:
        place = f"t{self.plan.seed}"
        if not self.plan.front:
            return ServersAlone(self.cluster, self.ledger, self.program, place)
        made = Fronts(self.cluster, self.ledger, self.program, place)
        made.names = {f"c{client}": [f"b{bidder}" for bidder in range(client, BIDDERS, CLIENTS)] for client in range(CLIENTS)}
        return made

    def new_bidders(self) -> list[Bidder]:
        """Half of them leave a silent server soon, and half stay with it."""
        made = []
        for client in range(CLIENTS):
            lines = bids(range(client, BIDDERS, CLIENTS), random.Random(self.plan.seed * CLIENTS + client))
            patience = self.dice.uniform(3.0, 6.0) if client % 2 else self.dice.uniform(10.0, 40.0)
            made.append(Bidder(f"c{client}", lines, self.house, self.ledger, patience, KEEPERS))
        return made

    def bid(self, bidder: Bidder) -> None:
        try:
            bidder.run()
        except Wrong as fault:
            self.ledger.faults.append(f"{bidder.name}: {fault}")

    def run(self) -> Result:
        """Tells the story. What went wrong is in the result."""
        result = Result(self.plan)
        self.house.make(self.plan.layout)
        self.house.begin()
        for thread in self.threads:
            thread.start()
        try:
            self.goes_on(0.0, BEFORE, "before the story")
            scene = Scene(self.cluster, self.volume, self.writer(), self.dice, self.bidders[0].pauses)
            for bidder in self.bidders:
                bidder.pauses = scene.pauses
            outcome = self.plan.story(scene)
            if outcome.lost:
                self.goes_on(outcome.moment, AFTER, "on another machine", outcome.lost)
            mended(scene)
            self.goes_on(time.monotonic(), AFTER, "after all is mended")
            result.seconds = self.ledger.first_after(outcome.moment, outcome.lost)
        except Wrong as fault:
            self.ledger.faults.append(str(fault))
        finally:
            self.end()
        self.judge()
        result.answers, result.faults = len(self.ledger.answers), self.ledger.faults
        return result

    def writer(self) -> int:
        return self.ledger.answers[-1][1]

    def goes_on(self, moment: float, count: int, when: str, but: int = 0) -> None:
        """Returns once so many OKs came after a moment, of another machine than this."""
        end = time.monotonic() + SECONDS
        while sum(at > moment and machine != but for at, machine in list(self.ledger.answers)) < count:
            if time.monotonic() > end:
                raise Wrong(f"stands still {when}: {self.house.said[-8:]}")
            time.sleep(0.05)

    def end(self) -> None:
        """Ends bidders and servers: each bidder has the answer to its last line."""
        for bidder in self.bidders:
            bidder.pauses.clear()
            bidder.stops.set()
        end = time.monotonic() + SECONDS
        for thread in self.threads:
            thread.join(max(0.0, end - time.monotonic()))
        if any(thread.is_alive() for thread in self.threads):
            self.ledger.faults.append("a bidder gets no answer to its last line")
            for bidder in self.bidders:
                bidder.line = ""
        self.house.end()

    def judge(self) -> None:
        """Compares the answers with the file, the record, and the three copies, unless the answers alone are wrong."""
        if self.ledger.faults:
            return
        try:
            self.volume.heals()
        except Lacking as reason:
            self.ledger.faults.append(f"copies: {reason}")
            return
        self.look_at_copies()
        for number in KEEPERS:
            shown = self.house.checked(number)
            lines = self.ledger.history(int(shown[0].split()[-1]))
            if self.ledger.faults:
                return
            script = [definition(), *lines, "SHOW", *(f"NODE n{node}" for node in range(NODES))]
            told = subprocess.run([self.program], input="\n".join(script) + "\n", capture_output=True, text=True, timeout=SECONDS, check=True).stdout
            if told.splitlines() != [*(f"OK {place}" for place in range(1, len(lines) + 1)), *shown]:
                self.ledger.faults.append(f"differs: the file on machine {number} isn't the auction of the answers")
        if isinstance(self.house, Fronts) and (wrong := self.house.replayed(KEEPERS[0])):
            self.ledger.faults.append(f"record and file don't agree: {wrong}")

    def look_at_copies(self) -> None:
        """Each machine's copy has the same bytes."""
        for name in self.names():
            if len(self.volume.copies(Path(self.house.place) / name)) != 1:
                self.ledger.faults.append(f"copies: {name} differs between machines")

    def names(self) -> Sequence[str]:
        return ("auction.hpb", "auction.record") if self.plan.front else ("auction.hpb",)

