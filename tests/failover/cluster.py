"""Three machines with a volume, and a fourth one for bidders, on a network whose ways can be cut."""

from __future__ import annotations

import subprocess
import time
from collections.abc import Callable, Sequence
from contextlib import ExitStack
from dataclasses import dataclass, field
from pathlib import Path
from types import TracebackType

from harness import building
from harness.file_systems import Lacking
from harness.machines import BOOTS, Kind, Machine, Switch, address
from harness.namespaces import Network

# The machines that keep the volume, by their numbers. The last machine is that of the bidders.
KEEPERS = (1, 2, 3)
BIDDERS = 4
NAMES = {1: "one", 2: "two", 3: "three", BIDDERS: "outside"}
SECONDS = 240
# The room of each copy, in MiB.
DISK_MIB = 96
# How many seconds the clocks of two machines go before or behind.
CLOCKS = {2: 3600, 3: -3600}
# The folder of the volume on each machine.
AUCTIONS = Path("/var/lib/hpb")


@dataclass
class Cluster:
    """The machines. `room` is an empty folder, best in memory. With `disks`, each copy lies in a folder of it, and else in memory."""

    room: Path
    disks: Path | None = None
    disk_mib: int = DISK_MIB
    switch: Switch = field(init=False)
    machines: dict[int, Machine] = field(default_factory=dict, init=False)
    # The variables of the servers on a machine: a library that is loaded before gives them another clock.
    variables: dict[int, dict[str, str]] = field(default_factory=dict, init=False)

    def __enter__(self) -> Cluster:
        self.stack = ExitStack()
        try:
            self.switch = self.stack.enter_context(Switch(self.room, len(NAMES)))
            self.stack.callback(self.end_machines)
            for number in NAMES:
                self.make(number)
        except BaseException:
            self.stack.close()
            raise
        return self

    def __exit__(self, kind: type[BaseException] | None, fault: BaseException | None, trace: TracebackType | None) -> None:
        self.stack.close()

    def set_clocks(self) -> None:
        """From now on the servers of two machines have other clocks."""
        clock = building.library(BOOTS / "clock.c", self.room)
        self.variables |= {number: {"LD_PRELOAD": str(clock), "CLOCK_SECONDS": str(seconds)} for number, seconds in CLOCKS.items()}

    def make(self, number: int) -> None:
        """Makes a machine with an empty disk, and starts it."""
        folder = self.room / NAMES[number]
        folder.mkdir()
        if number in KEEPERS:
            self.mount_disk(folder / "disk")
        self.start(number)
        lines = [f"{address(other)} {name}" for other, name in NAMES.items()]
        machine = self.machines[number]
        machine.run("sh", "-c", "cat >> /etc/hosts", input="\n".join(lines) + "\n")

    def mount_disk(self, disk: Path) -> None:
        disk.mkdir()
        if self.disks:
            lies = self.disks / disk.parent.name
            lies.mkdir()
            words = ["mount", "--bind", str(lies), str(disk)]
        else:
            words = ["mount", "-t", "tmpfs", "-o", f"size={self.disk_mib}m", "tmpfs", str(disk)]
        subprocess.run(words, check=True, timeout=SECONDS)
        self.stack.callback(subprocess.run, ["umount", "--lazy", str(disk)], check=False, text=True)

    def start(self, number: int) -> None:
        """Starts a machine, which finds its files as it left them, and connects it."""
        machine = Machine(self.room / NAMES[number], Kind.BARE)
        machine.__enter__()
        self.machines[number] = machine
        self.switch.connect(number, machine)

    def kill(self, number: int, silently: bool = True) -> None:
        """Ends all of a machine at once. If silently, nobody hears that its connections are gone, as when its power fails."""
        if silently:
            self.switch.disconnect(number)
        self.machines.pop(number).__exit__(None, None, None)
        if not silently:
            self.switch.disconnect(number)

    def end_machines(self) -> None:
        for number in list(self.machines):
            self.kill(number)

    def is_up(self, number: int) -> bool:
        return number in self.machines

    def cut(self, one: int, others: Sequence[int], hears: bool = False, speaks: bool = False) -> None:
        """Cuts a machine off from others, or leaves it one direction."""
        for other in others:
            self.switch.way(one, other, lost=0.0 if speaks else 1.0)
            self.switch.way(other, one, lost=0.0 if hears else 1.0)

    def start_on(self, number: int, *words: str, said: int | None = None) -> subprocess.Popen[bytes]:
        """Starts a command on a machine; the caller ends it."""
        machine = self.machines[number]
        extra = [f"{name}={value}" for name, value in self.variables.get(number, {}).items()]
        return subprocess.Popen(
            machine.words("env", *extra, *words), stdin=subprocess.DEVNULL, stdout=subprocess.PIPE, stderr=subprocess.STDOUT if said is None else said
        )

    def network(self, number: int) -> Network | None:
        """The network of a machine, or None if it is gone. The caller closes it."""
        machine = self.machines.get(number)
        if machine is None:
            return None
        try:
            return Network.of_process(machine.first)
        except OSError:
            return None


def until(holds: Callable[[], bool], what: str, seconds: float = SECONDS, pause: float = 0.2) -> None:
    """Returns once this holds. If that takes too long, Lacking is raised."""
    end = time.monotonic() + seconds
    while not holds():
        if time.monotonic() > end:
            raise Lacking(f"after {seconds} seconds: {what}")
        time.sleep(pause)
