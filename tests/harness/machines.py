"""Machines of their own on this one, and the network between them."""

from __future__ import annotations

import enum
import os
import subprocess
import time
from dataclasses import dataclass, field
from pathlib import Path
from types import TracebackType

from harness import building
from harness.file_systems import Lacking

BOOTS = Path(__file__).resolve().parents[1] / "machines"
SWITCH = BOOTS / "switch.c"
SECONDS = 600
# The namespaces that a machine has for itself.
OWN = ("--mount", "--pid", "--net", "--uts", "--ipc", "--cgroup")
# The variables of a command there.
VARIABLES = {"PATH": "/usr/sbin:/usr/bin:/sbin:/bin", "HOME": "/root", "LANG": "C.UTF-8", "DEBIAN_FRONTEND": "noninteractive"}
# A way that loses each frame, in parts of a million.
ALL = 1_000_000


class Kind(enum.Enum):
    """The kinds of machines, by the scripts that boot them."""

    SYSTEMD = "boot"
    BARE = "bare"


class Machine:
    """A machine that lasts as long as it is entered. `folder` is an empty folder for it, by whose name it is called."""

    def __init__(self, folder: Path, kind: Kind = Kind.SYSTEMD) -> None:
        self.folder, self.kind = folder, kind
        self.first = 0
        self.process: subprocess.Popen[bytes] | None = None

    def __enter__(self) -> Machine:
        self.said = (self.folder.parent / f"{self.folder.name}.said").open("w+b")
        self.process = subprocess.Popen(
            ["unshare", *OWN, "--fork", "--kill-child=KILL", str(BOOTS / self.kind.value), str(self.folder)],
            stdin=subprocess.DEVNULL, stdout=self.said, stderr=self.said,
        )
        end = time.monotonic() + SECONDS
        while not self.is_up():
            if self.process.poll() is not None or time.monotonic() > end:
                words = self.words_said()
                self.__exit__(None, None, None)
                raise Lacking(f"no machine comes up: {words}")
            time.sleep(0.1 if self.kind is Kind.SYSTEMD else 0.01)
        return self

    def __exit__(self, kind: type[BaseException] | None, fault: BaseException | None, trace: TracebackType | None) -> None:
        if self.process:
            self.process.kill()
            self.process.wait(SECONDS)
        self.process, self.first = None, 0
        self.said.close()

    def words_said(self) -> str:
        """The words of its first process up to now."""
        return os.pread(self.said.fileno(), 1 << 20, 0).decode(errors="replace")

    def is_up(self) -> bool:
        """Whether all is started that its boot starts."""
        assert self.process
        children = Path(f"/proc/{self.process.pid}/task/{self.process.pid}/children").read_text().split()
        if not children:
            return False
        self.first = int(children[0])
        if self.kind is Kind.BARE:
            return self.words_said().endswith("up\n")
        if Path(f"/proc/{self.first}/comm").read_text().strip() != "systemd":
            return False
        return self.ran("systemctl", "is-system-running").stdout.strip() in ("running", "degraded")

    def words(self, *words: str) -> list[str]:
        """The words that run a command there."""
        return ["nsenter", "--target", str(self.first), "--mount", "--pid", "--net", "--uts", "--ipc", "--cgroup", "--root", "--wd", "--", *words]

    def ran(self, *words: str, input: str = "", seconds: float = SECONDS) -> subprocess.CompletedProcess[str]:
        """Runs a command there, whatever its status."""
        return subprocess.run(self.words(*words), input=input, env=VARIABLES, capture_output=True, text=True, timeout=seconds, check=False)

    def run(self, *words: str, input: str = "", seconds: float = SECONDS) -> str:
        """The output of a command there, which has to end with 0."""
        ran = self.ran(*words, input=input, seconds=seconds)
        assert ran.returncode == 0, f"{words}: {ran.returncode}: {ran.stdout}{ran.stderr}"
        return ran.stdout

    def shell(self, script: str) -> str:
        """The output of a script there, each of whose commands has to end with 0."""
        return self.run("bash", "-euc", script)

    def put(self, path: Path, place: str) -> None:
        """Copies a file of this machine there. Its folder has to be there already."""
        subprocess.run(self.words("sh", "-c", f'cat > "{place}"'), input=path.read_bytes(), check=True, timeout=SECONDS)

    def freeze(self) -> None:
        """All its processes stand still but the first, as a guest's do while its host is busy."""
        self.ran("kill", "-STOP", "-1")

    def thaw(self) -> None:
        """They go on."""
        self.ran("kill", "-CONT", "-1")


@dataclass
class Switch:
    """A network of machines, numbered from 1: `10.77.0.N`. Each way from one to another has a delay and a loss of its own. `folder` takes
    the program.
    """

    folder: Path
    machines: int
    process: subprocess.Popen[str] = field(init=False)

    def __enter__(self) -> Switch:
        if not os.access("/dev/net/tun", os.W_OK):
            raise Lacking("there is no /dev/net/tun")
        program = building.executable(SWITCH, self.folder)
        self.process = subprocess.Popen([str(program), str(self.machines)], stdin=subprocess.PIPE, stdout=subprocess.PIPE, text=True, bufsize=1)
        return self

    def __exit__(self, kind: type[BaseException] | None, fault: BaseException | None, trace: TracebackType | None) -> None:
        self.process.kill()
        self.process.communicate()

    def tell(self, *words: object) -> None:
        """Gives it a command."""
        assert self.process.stdin and self.process.stdout
        self.process.stdin.write(" ".join(map(str, words)) + "\n")
        answer = self.process.stdout.readline().strip()
        assert answer == "ok", f"{words}: {answer}"

    def connect(self, number: int, machine: Machine) -> None:
        """Gives a machine its interface and its address."""
        self.tell("add", number, machine.first)
        machine.run("ip", "addr", "add", f"{address(number)}/24", "dev", "eth0")
        machine.run("ip", "link", "set", "eth0", "mtu", "9000", "up")

    def disconnect(self, number: int) -> None:
        """Takes a machine's interface away: it neither hears nor says anything more, and nobody hears that it has gone."""
        self.tell("remove", number)

    def way(self, one: int, other: int, seconds: float = 0.0, lost: float = 0.0) -> None:
        """Sets the delay of the way from one machine to another, and the part of the frames that are lost there: 1 is a cut."""
        self.tell("way", one, other, round(seconds * 1e6), round(lost * ALL))

    def all_ways(self, seconds: float = 0.0, lost: float = 0.0) -> None:
        """Sets all ways."""
        for one in range(1, self.machines + 1):
            for other in range(1, self.machines + 1):
                self.way(one, other, seconds, lost)


def address(number: int) -> str:
    """The address of a machine."""
    return f"10.77.0.{number}"
