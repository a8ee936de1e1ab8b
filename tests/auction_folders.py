"""Folders of auctions for the tests, by `tools/auction` without systemd."""

from __future__ import annotations

import itertools
import os
import re
import signal
import subprocess
from pathlib import Path

from harness.conditions import Conditions
from harness.fronts import tool_words, with_package
from harness.programs import Program

TOP = Path(__file__).resolve().parent.parent
SECONDS = 300
# Of a process that runs tests: it has 500 ports below those that the system gives to clients, and a folder of auctions takes ten.
WORKER = int(re.sub(r"\D", "", os.environ.get("PYTEST_XDIST_WORKER", "0")) or 0)
FIRST_PORTS = itertools.cycle(range(10_000 + WORKER % 40 * 500, 10_500 + WORKER % 40 * 500, 10))
DEFINITION = (TOP / "examples" / "package-beats-parts.txt").read_text().splitlines()[0]


class Folder:
    """A folder of auctions."""

    def __init__(self, program: Program, folder: Path) -> None:
        self.program, self.folder = program, folder / "auctions"
        # Tests beside this one have folders of their own, so each has ports of its own, too.
        self.first_port = next(FIRST_PORTS)
        self.folder.mkdir(mode=0o700)
        self.definition = folder / "definition.json"
        self.definition.write_text(DEFINITION)

    def ran(self, *words: object, conditions: Conditions = Conditions()) -> subprocess.CompletedProcess[str]:
        """Runs the command, whatever its status."""
        whole = [*tool_words("auction"), "--folder", str(self.folder), "--first-port", str(self.first_port), "--program", str(self.program.path), *map(str, words)]
        variables = with_package(conditions.variables())
        return subprocess.run(whole, env=variables, capture_output=True, text=True, timeout=SECONDS, check=False, preexec_fn=conditions.prepare)

    def run(self, *words: object) -> str:
        """The output of the command, which has to end with 0."""
        ran = self.ran(*words)
        assert (ran.returncode, ran.stderr) == (0, ""), ran
        return ran.stdout

    def new(self, name: str, *words: object) -> str:
        return self.run("new", name, "--definition", self.definition, "--journal", 16, *words)

    def ask(self, name: str, whose: str, *lines: str, said: str = "") -> list[str]:
        """The answers of an auction's front to lines of a name. `said` is due on standard error."""
        made = self.folder / name
        port = read_port(made)
        words = [*tool_words("client"), f"localhost:{port}", "--token", f"{made}/auction.tokens", "--name", whose, "--ca", f"{made}/front.pem"]
        ran = subprocess.run(words, env=with_package(Conditions().variables()), input="".join(f"{line}\n" for line in lines), capture_output=True,
                             text=True, timeout=SECONDS, check=False)
        assert (ran.returncode, ran.stderr) == (0, said)
        return ran.stdout.splitlines()

    def kill_all(self) -> None:
        for started in self.folder.glob("*/front.pid"):
            words = Path(f"/proc/{started.read_text().strip()}/cmdline")
            if words.exists() and os.fsencode(started.parent / "front.toml") in words.read_bytes().split(b"\0"):
                os.kill(int(started.read_text()), signal.SIGKILL)


def read_port(made: Path) -> int:
    line = next(line for line in (made / "front.toml").read_text().splitlines() if line.startswith("listen = "))
    return int(line.strip('"').rpartition(":")[2])
