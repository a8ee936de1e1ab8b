"""The volume that the machines keep, made by the commands that docs/SCALE.md has for an operator."""

from __future__ import annotations

import hashlib
import re
import threading
from collections.abc import Sequence
from dataclasses import dataclass
from pathlib import Path

from failover.cluster import AUCTIONS, KEEPERS, NAMES, Cluster, until

SCALE = Path(__file__).resolve().parents[2] / "docs" / "SCALE.md"
VOLUME = "auctions"
# The heading of the part of SCALE with the commands.
PART = "### Three machines from nothing"


def recipe() -> list[str]:
    """The commands of SCALE that make the volume, in their order: those for `gluster`, and for the mount. Lines that go on are put together."""
    text = SCALE.read_text().split(f"{PART}\n", 1)[1].split("\n## ", 1)[0].split("\n### ", 1)[0]
    lines = [line[4:] for line in text.splitlines() if line.startswith("    ")]
    return re.sub(r" *\\\n *", " ", "\n".join(lines)).splitlines()


def commands(first: str) -> list[str]:
    """The commands of the recipe that begin with this word."""
    return [line for line in recipe() if line.split()[0] == first]


@dataclass
class Volume:
    """A volume of three copies. `changed` are options that the trial sets otherwise than SCALE says."""

    cluster: Cluster
    changed: Sequence[str] = ()

    def make(self) -> None:
        """Makes and mounts it, as SCALE says. The machines are new."""
        self.start_daemons(KEEPERS)
        for line in commands("gluster"):
            self.tell(line)
        self.mount(KEEPERS)
        if self.changed:
            self.change(" ".join(self.changed))

    def change(self, options: str) -> None:
        """Sets options, with their values, and mounts it anew, so that each machine has them."""
        self.tell(f"gluster volume set {VOLUME} {options}")
        for number in KEEPERS:
            self.cluster.machines[number].run("umount", str(AUCTIONS))
        self.mount(KEEPERS)

    def tell(self, line: str) -> None:
        """Runs a command on the first machine, until it succeeds: a machine that was just probed may need a moment."""
        until(lambda: self.cluster.machines[1].ran("sh", "-c", line).returncode == 0, line)

    def start_daemons(self, numbers: Sequence[int]) -> None:
        together([(lambda number=number: self.start_daemon(number)) for number in numbers])

    def start_daemon(self, number: int) -> None:
        machine = self.cluster.machines[number]
        machine.run("glusterd")
        until(lambda: machine.ran("gluster", "pool", "list").returncode == 0, "glusterd answers")

    def mount(self, numbers: Sequence[int]) -> None:
        """Mounts the volume on these machines."""
        together([(lambda number=number: self.mount_on(number)) for number in numbers])

    def mount_on(self, number: int) -> None:
        machine = self.cluster.machines[number]
        (line,) = commands("mount")
        until(lambda: machine.ran("sh", "-c", f"mountpoint -q {AUCTIONS} || {line}").returncode == 0, line)

    def start_again(self, number: int) -> None:
        """Starts a machine that was killed. Its copy is mended while the others go on."""
        self.cluster.start(number)
        self.start_daemon(number)
        self.mount_on(number)

    def is_whole(self) -> bool:
        """Whether no copy lacks anything that another one has."""
        ran = self.cluster.machines[1].ran("gluster", "volume", "heal", VOLUME, "info")
        counts = re.findall(r"Number of entries: (\S+)", ran.stdout)
        return ran.returncode == 0 and counts == ["0"] * len(KEEPERS)

    def is_seen(self, number: int) -> bool:
        """Whether a machine that runs reaches it."""
        return self.cluster.machines[number].ran("stat", str(AUCTIONS)).returncode == 0

    def heals(self) -> None:
        """Returns once each machine reaches it, and it is whole."""
        for number in KEEPERS:
            until(lambda number=number: self.is_seen(number), f"machine {number} reaches the volume")  # type: ignore[misc]
        until(self.is_whole, "each copy has all that the others have")

    def copies(self, file: Path) -> set[str]:
        """The SHA-256 of each copy of a file of the volume."""
        found = (self.disk(number) / "brick" / file for number in KEEPERS)
        return {hashlib.sha256(copy.read_bytes()).hexdigest() for copy in found}

    def disk(self, number: int) -> Path:
        """The disk of a machine's copy, as this machine sees it."""
        return self.cluster.room / NAMES[number] / "disk"


def together(actions: Sequence[object]) -> None:
    """Runs these side by side, and returns once all have ended. The first failure is raised."""
    failures: list[BaseException] = []

    def acts(action: object) -> None:
        assert callable(action)
        try:
            action()
        except BaseException as failure:  # It is raised below, in the thread that waits.
            failures.append(failure)

    threads = [threading.Thread(target=acts, args=(action,)) for action in actions]
    for thread in threads:
        thread.start()
    for thread in threads:
        thread.join()
    if failures:
        raise failures[0]
