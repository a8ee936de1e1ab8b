"""The servers of an auction on the volume: on each machine one waits until it may have the file. Whoever has it serves."""

from __future__ import annotations

import os
import re
import signal
import socket
import subprocess
import threading
import time
from abc import ABC, abstractmethod
from collections.abc import Sequence
from contextlib import suppress
from dataclasses import dataclass, field
from pathlib import Path

from failover.bidders import Door, definition
from failover.cluster import AUCTIONS, BIDDERS, KEEPERS, Cluster
from failover.ledger import Era, Ledger
from harness.auctions import Layout
from harness.fronts import children_of, tool_words, with_package
from harness.machines import VARIABLES, address
from harness.serving import read_line

SECONDS = 240
PORT, SESSIONS = 5000, 32
FRONT_PORT = 6000
JOURNAL = 64
TAKEN = re.compile(r"TOOK OVER \S+ AT \S+ COUNT ([0-9]+)")


@dataclass
class House(ABC):
    """The servers. `place` names the auction within the volume."""

    cluster: Cluster
    ledger: Ledger
    program: Path
    place: str
    # The machines that may serve it.
    places: Sequence[int] = KEEPERS
    eras: dict[int, Era] = field(default_factory=dict)
    processes: dict[int, subprocess.Popen[bytes]] = field(default_factory=dict)
    stops: threading.Event = field(default_factory=threading.Event)
    # What servers said that didn't come to serve, and at their end.
    said: list[str] = field(default_factory=list)

    def __post_init__(self) -> None:
        self.threads = [threading.Thread(target=self.keep, args=(number,), daemon=True) for number in self.places]

    @abstractmethod
    def make(self, layout: Layout) -> None:
        """Makes the auction, on the first machine."""

    @abstractmethod
    def words(self) -> list[str]:
        """The words that start a server."""

    @abstractmethod
    def began(self, number: int, line: str, process: subprocess.Popen[bytes]) -> Era | None:
        """The era that this line of a server begins, or None."""

    @abstractmethod
    def door(self, number: int, name: str) -> Door | None:
        """See `bidders.House`."""

    def begin(self) -> None:
        for thread in self.threads:
            thread.start()

    def keep(self, number: int) -> None:
        """Starts a server on a machine again and again, as its service manager does."""
        while not self.stops.wait(0.1):
            if self.cluster.is_up(number):
                with suppress(OSError, KeyError):
                    self.serve(number)

    def serve(self, number: int) -> None:
        process = self.processes[number] = self.cluster.start_on(number, *self.words())
        era = None
        while line := read_line(process, SECONDS * 10):
            self.said.append(f"{number}: {line}")
            if not era and (era := self.began(number, line, process)):
                self.ledger.begin(era)
                self.eras[number] = era
        self.eras.pop(number, None)
        process.communicate()

    def fails(self, era: Era) -> None:
        """A server that accepts nothing more is ended, so that another may have the file."""
        if self.eras.get(era.machine) is era:
            self.kill(era.machine)

    def kill(self, number: int) -> None:
        """Kills the server of a machine."""
        process = self.processes.get(number)
        for child in children_of(process.pid) if process else []:
            with suppress(ProcessLookupError):
                os.kill(child, signal.SIGKILL)

    def end(self) -> None:
        """Ends all servers."""
        self.stops.set()
        end = time.monotonic() + SECONDS
        while any(thread.is_alive() for thread in self.threads) and time.monotonic() < end:
            for number in self.places:
                self.kill(number)
            time.sleep(0.1)

    def file(self) -> Path:
        return AUCTIONS / self.place / "auction.hpb"

    def checked(self, number: int) -> list[str]:
        """The answers of `hpb check` on a machine."""
        return self.cluster.machines[number].run(str(self.program), "check", "--file", str(self.file())).splitlines()


class ServersAlone(House):
    """`hpb serve` itself. Each bidder is on the machine of its server."""

    def make(self, layout: Layout) -> None:
        self.cluster.machines[1].run("mkdir", "-p", str(self.file().parent))
        words = ["format", "--file", str(self.file()), "--journal", str(JOURNAL), "--layout", str(int(layout))]
        self.cluster.machines[1].run(str(self.program), *words, input=definition() + "\n")

    def words(self) -> list[str]:
        return [str(self.program), "serve", "--file", str(self.file()), "--port", str(PORT), "--sessions", str(SESSIONS)]

    def began(self, number: int, line: str, process: subprocess.Popen[bytes]) -> Era | None:
        return Era(number, time.monotonic(), self.count(number)) if line.startswith("LISTENING") else None

    def count(self, number: int) -> int:
        """The commands that a server shows."""
        network = self.cluster.network(number)
        if network is None:
            raise ConnectionError
        try:
            with network.inside():
                connection = socket.create_connection(("127.0.0.1", PORT), timeout=SECONDS)
        finally:
            network.close()
        with connection, connection.makefile() as answers:
            connection.sendall(b"SHOW\n")
            return int(answers.readline().split()[-1])

    def door(self, number: int, name: str) -> Door | None:
        era, network = self.eras.get(number), self.cluster.network(number)
        if network is None:
            return None
        if era is None:
            network.close()
            return None
        return Door(network, era, ("127.0.0.1", PORT))


class Fronts(House):
    """`tools/auction standby`: a front with a record. Bidders come from a machine of their own."""

    # The names, and the bidders that each may bid for.
    names: dict[str, list[str]]

    def tool(self, *words: str) -> list[str]:
        whole = [*tool_words("auction"), "--folder", str(AUCTIONS), "--program", str(self.program), *words]
        path = with_package({})["PYTHONPATH"]
        return ["env", f"PYTHONPATH={path}", "PYTHONDONTWRITEBYTECODE=1", *whole]

    def make(self, layout: Layout) -> None:
        machine = self.cluster.machines[1]
        place = AUCTIONS / self.place
        machine.run("sh", "-c", "cat > /run/definition.json", input=definition())
        machine.run(*self.tool("new", self.place, "--definition", "/run/definition.json", "--journal", str(JOURNAL), "--listen", f"0.0.0.0:{FRONT_PORT}"))
        if layout is not Layout.PAGES:
            machine.run("rm", str(self.file()))
            words = ["format", "--file", str(self.file()), "--journal", str(JOURNAL), "--layout", str(int(layout))]
            machine.run(str(self.program), *words, input=definition() + "\n")
        rows = [f'{name} = {str(bidders).replace(chr(39), chr(34))}' for name, bidders in self.names.items()]
        fields = [
            'file = "auction.hpb"', 'record = "auction.record"', 'tokens = "auction.tokens"', f'listen = "0.0.0.0:{FRONT_PORT}"', "plain = true",
            f'program = "{self.program}"', "[names]", 'desk = "auctioneer"', *rows,
            # A bidder that leaves before its answer is there has a connection more until then.
            "[limits]", "connections = 256",
        ]
        machine.run("sh", "-c", f"cat > {place}/front.toml", input="\n".join(fields) + "\n")
        tokens = [f"{name} {token_of(name)}" for name in ("desk", *self.names)]
        machine.run("sh", "-c", f"cat > {place}/auction.tokens", input="\n".join(tokens) + "\n")

    def words(self) -> list[str]:
        return self.tool("standby", self.place)

    def began(self, number: int, line: str, process: subprocess.Popen[bytes]) -> Era | None:
        if taken := TAKEN.match(line):
            self.counts[number] = int(taken[1])
        return Era(number, time.monotonic(), self.counts[number]) if line.startswith("LISTENING") else None

    def __post_init__(self) -> None:
        super().__post_init__()
        self.counts: dict[int, int] = {}

    def door(self, number: int, name: str) -> Door | None:
        era, network = self.eras.get(number), self.cluster.network(BIDDERS)
        if network is None:
            return None
        if era is None:
            network.close()
            return None
        return Door(network, era, (address(number), FRONT_PORT), f"TOKEN {token_of(name)}\n")

    def replayed(self, number: int) -> str:
        """What `tools/replay` finds wrong in the record, or nothing."""
        words = [*tool_words("replay"), str(AUCTIONS / self.place / "auction.record"), "--file", str(self.file()), "--program", str(self.program)]
        ran = subprocess.run(self.cluster.machines[number].words(*words), env=with_package(VARIABLES), capture_output=True, text=True, timeout=SECONDS, check=False)
        return "" if ran.returncode == 0 else f"status {ran.returncode}: {ran.stderr}"


def token_of(name: str) -> str:
    return f"token-of-{name}-in-a-trial"
