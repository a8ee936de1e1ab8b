"""What may happen to three machines while an auction is served on one of them."""

from __future__ import annotations

import random
import subprocess
import threading
import time
from collections.abc import Callable
from dataclasses import dataclass

from failover.cluster import BIDDERS, KEEPERS, Cluster
from failover.volume import Volume, together

# Seconds that a cut lasts: longer than the volume's ping-timeout and the time until a silent connection's locks are given up.
CUT_SECONDS = 16.0
SECONDS = 60
# A link that is slow and loses frames.
SLOW_SECONDS, LOST = 0.005, 0.02


@dataclass
class Scene:
    """What a story acts on. `writer` is the machine that serves; `pauses` holds back the bidders while it is set."""

    cluster: Cluster
    volume: Volume
    writer: int
    dice: random.Random
    pauses: threading.Event

    def others(self) -> list[int]:
        """The machines that don't serve, in an order by chance."""
        found = [number for number in KEEPERS if number != self.writer]
        self.dice.shuffle(found)
        return found

    def lose(self, number: int) -> None:
        """A machine is gone, silently or not."""
        self.cluster.kill(number, silently=self.dice.random() < 0.7)


@dataclass(frozen=True)
class Outcome:
    """When a story happened, and which machine has to be replaced by another (0: none has to)."""

    moment: float
    lost: int = 0


Story = Callable[[Scene], Outcome]


def writer_lost(scene: Scene) -> Outcome:
    """the writer's machine is lost"""
    moment = time.monotonic()
    scene.lose(scene.writer)
    return Outcome(moment, scene.writer)


def copy_lost(scene: Scene) -> Outcome:
    """a machine with a copy is lost, and mended while all goes on"""
    moment = time.monotonic()
    scene.lose(scene.others()[0])
    return Outcome(moment)


def cut_from_all(scene: Scene) -> Outcome:
    """the writer is cut off from both others, while bidders reach it"""
    moment = time.monotonic()
    scene.cluster.cut(scene.writer, scene.others())
    return Outcome(moment, scene.writer)


def cut_from_everyone(scene: Scene) -> Outcome:
    """the writer is cut off from both others and from bidders"""
    moment = time.monotonic()
    scene.cluster.cut(scene.writer, [*scene.others(), BIDDERS])
    return Outcome(moment, scene.writer)


def cut_from_one(scene: Scene) -> Outcome:
    """the writer and one other don't see one another, and both see the third"""
    moment = time.monotonic()
    scene.cluster.cut(scene.writer, scene.others()[:1])
    return Outcome(moment)


def heard_by_nobody(scene: Scene) -> Outcome:
    """the writer hears both others, and they don't hear it"""
    moment = time.monotonic()
    scene.cluster.cut(scene.writer, scene.others(), hears=True)
    return Outcome(moment, scene.writer)


def hears_nobody(scene: Scene) -> Outcome:
    """both others hear the writer, and it doesn't hear them"""
    moment = time.monotonic()
    scene.cluster.cut(scene.writer, scene.others(), speaks=True)
    return Outcome(moment, scene.writer)


def idle_and_cut(scene: Scene) -> Outcome:
    """nobody bids while the writer is cut off; another takes over; the way is mended, and bidders go on with either"""
    scene.pauses.set()
    time.sleep(0.5)
    moment = time.monotonic()
    scene.cluster.cut(scene.writer, scene.others())
    time.sleep(CUT_SECONDS)
    scene.cluster.switch.all_ways()
    scene.pauses.clear()
    return Outcome(moment)


def stands_still(scene: Scene) -> Outcome:
    """the writer's machine stands still, another takes over, and it goes on as if nothing had been"""
    machine = scene.cluster.machines[scene.writer]
    moment = time.monotonic()
    scene.cluster.cut(scene.writer, [*scene.others(), BIDDERS])
    machine.freeze()
    time.sleep(CUT_SECONDS)
    machine.thaw()
    scene.cluster.switch.all_ways()
    return Outcome(moment)


def bad_links(scene: Scene) -> Outcome:
    """all links are slow and lose frames, and the writer's machine is lost"""
    scene.cluster.switch.all_ways(SLOW_SECONDS, LOST)
    time.sleep(scene.dice.uniform(1.0, 3.0))
    return writer_lost(scene)


def two_lost(scene: Scene) -> Outcome:
    """both others are lost, then the writer; both others come back without it"""
    others = scene.others()
    for other in others:
        scene.lose(other)
    time.sleep(scene.dice.uniform(0.0, CUT_SECONDS))
    moment = time.monotonic()
    scene.lose(scene.writer)
    together([(lambda other=other: scene.volume.start_again(other)) for other in others])
    return Outcome(moment, scene.writer)


def full_disk(scene: Scene) -> Outcome:
    """the disk of a copy is full"""
    disk = scene.volume.disk(scene.dice.choice(KEEPERS))
    moment = time.monotonic()
    subprocess.run(["dd", "if=/dev/zero", f"of={disk / 'full'}", "bs=64k"], capture_output=True, timeout=SECONDS, check=False)
    return Outcome(moment)


STORIES: tuple[Story, ...] = (
    writer_lost, copy_lost, cut_from_all, cut_from_everyone, cut_from_one, heard_by_nobody, hears_nobody, idle_and_cut, stands_still, bad_links,
    two_lost, full_disk,
)


def mended(scene: Scene) -> None:
    """All ways are whole again, all machines run, and all disks have room."""
    scene.cluster.switch.all_ways()
    for number in KEEPERS:
        (scene.volume.disk(number) / "full").unlink(missing_ok=True)
    gone = [number for number in KEEPERS if not scene.cluster.is_up(number)]
    together([(lambda number=number: scene.volume.start_again(number)) for number in gone])
