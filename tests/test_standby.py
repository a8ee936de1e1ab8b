"""`tools/auction standby` on one machine: it waits until nobody else has an auction, says so, and becomes its front. The options of a volume are those of
a folder that looks like a mounted GlusterFS; `test_failover.py` has real ones.
"""

from __future__ import annotations

import os
import re
import signal
import subprocess
from collections.abc import Iterator
from pathlib import Path

import pytest
from harness.conditions import Conditions
from harness.fronts import tool_words, with_package
from harness.programs import Program
from harness.serving import Client, read_line

from hpb.auctions import standby
from hpb.auctions.folder import CantDo

TOP = Path(__file__).resolve().parent.parent
SECONDS = 100
DEFINITION = (TOP / "examples" / "package-beats-parts.txt").read_text().splitlines()[0]
TOKEN = "token-of-ann-in-a-trial"
CONFIGURATION = """file = "auction.hpb"
record = "auction.record"
tokens = "auction.tokens"
listen = "127.0.0.1:0"
program = "PROGRAM"
[names]
desk = "auctioneer"
ann = ["x"]
"""

pytestmark = pytest.mark.timeout(4 * SECONDS)


class Standbys:
    """Standbys of one auction, in a folder of their own."""

    def __init__(self, program: Program, room: Path) -> None:
        self.folder = room / "auctions"
        self.sale = self.folder / "sale"
        self.sale.mkdir(parents=True, mode=0o700)
        program.keep(self.sale / "auction.hpb", text=f"{DEFINITION}\n".encode())
        (self.sale / "front.toml").write_text(CONFIGURATION.replace("PROGRAM", str(program.path)))
        (self.sale / "auction.tokens").write_text(f"ann {TOKEN}\ndesk token-of-desk-in-a-trial\n")
        (self.sale / "auction.tokens").chmod(0o600)
        self.program = program
        self.started: list[subprocess.Popen[bytes]] = []

    def start(self) -> subprocess.Popen[bytes]:
        words = [*tool_words("auction"), "--folder", str(self.folder), "--program", str(self.program.path), "standby", "sale"]
        process = subprocess.Popen(words, stdin=subprocess.DEVNULL, stdout=subprocess.PIPE, stderr=subprocess.PIPE, env=with_package(Conditions().variables()))
        self.started.append(process)
        return process

    def serves(self, process: subprocess.Popen[bytes], count: int) -> int:
        """The port of a standby that takes over from so many commands."""
        line = read_line(process, SECONDS)
        taken = re.fullmatch(r"TOOK OVER sale AT [0-9-]{10}T[0-9:]{8}\.[0-9]{3}Z COUNT ([0-9]+) WAITED [0-9]+\.[0-9]", line)
        assert taken and int(taken[1]) == count, line
        listening = read_line(process, SECONDS).split()
        assert listening[0] == "LISTENING"
        return int(listening[2])


@pytest.fixture
def standbys(program: Program, room: Path) -> Iterator[Standbys]:
    made = Standbys(program, room)
    yield made
    for process in made.started:
        process.kill()
        process.communicate()


def test_of_two_standbys_one_serves_and_the_other_takes_over(standbys: Standbys) -> None:
    first = standbys.start()
    assert read_line(first, SECONDS).startswith("STANDBY sale: ")
    port = standbys.serves(first, 0)
    second = standbys.start()
    assert read_line(second, SECONDS).startswith("STANDBY sale: ")
    assert read_line(second, SECONDS) == "WAITING another standby waits, or is its front"
    with Client(port, SECONDS) as ann:
        assert ann.ask(f"TOKEN {TOKEN}") == "WELCOME ann"
        assert ann.ask("BID x 1 a 100") == "OK 1"
        os.kill(first.pid, signal.SIGKILL)
    port = standbys.serves(second, 1)
    with Client(port, SECONDS) as ann:
        assert ann.ask(f"TOKEN {TOKEN}") == "WELCOME ann"
        assert ann.ask("BID x 1 a 100") == "OK 1"


def test_a_standby_waits_for_a_server_of_the_file(standbys: Standbys) -> None:
    file = standbys.sale / "auction.hpb"
    server = standbys.program.start("run", "--file", file, input=subprocess.PIPE)
    assert server.stdin
    server.stdin.write(b"BID x 1 a 100\n")
    server.stdin.flush()
    assert read_line(server, SECONDS) == "OK 1"
    waiting = standbys.start()
    assert read_line(waiting, SECONDS).startswith("STANDBY sale: ")
    assert read_line(waiting, SECONDS) == "WAITING another hpb has its file"
    server.stdin.close()
    assert server.wait(SECONDS) == 0
    line = read_line(waiting, SECONDS)
    assert " COUNT 1 " in line, line


def test_a_file_that_is_refused_or_missing_ends_a_standby(standbys: Standbys) -> None:
    file = standbys.sale / "auction.hpb"
    file.write_bytes(b"\0" * file.stat().st_size)
    for words in (f"auction: {file}: ", f"auction: {file} isn't there\n"):
        ran = standbys.start()
        said, errors = ran.communicate(timeout=SECONDS)
        assert ran.returncode == 1 and said.decode().startswith("STANDBY sale: ") and errors.decode().startswith(words), errors
        file.unlink(missing_ok=True)


# The options of a volume.

GOOD: dict[str, dict[str, str]] = {f"auctions-client-{number}": {"strict-locks": "on"} for number in range(3)} | {"auctions-replicate-0": {"quorum-type": "auto"}, "auctions-dht": {}}


def volume(folder: Path, parts: dict[str, dict[str, str]]) -> None:
    """Makes a folder look like a mounted volume with these parts."""
    for part, options in parts.items():
        place = folder / ".meta" / "graphs" / "active" / part / "options"
        place.mkdir(parents=True)
        for field, value in options.items():
            (place / field).write_text(f"{value}\n")


def test_options_that_keep_all_promises(tmp_path: Path, monkeypatch: pytest.MonkeyPatch) -> None:
    monkeypatch.setattr(standby, "mounted_at", lambda _: (tmp_path, "fuse.glusterfs"))
    volume(tmp_path, GOOD)
    assert standby.look_at_volume(tmp_path / "sale") == f"3 copies at {tmp_path}"


@pytest.mark.parametrize(
    ("changed", "said"),
    [
        ({"auctions-replicate-0": {"quorum-type": "none"}}, "breaks promise 4 of docs/SCALE.md: quorum-type isn't auto. Set cluster.quorum-type auto"),
        ({"auctions-replicate-0": {}}, "breaks promise 4 of docs/SCALE.md: quorum-type isn't auto. Set cluster.quorum-type auto"),
        ({"auctions-client-2": {"strict-locks": "off"}}, "breaks promise 5 of docs/SCALE.md: strict-locks isn't on. Set client.strict-locks on"),
        ({"auctions-client-0": {}}, "breaks promise 5 of docs/SCALE.md: strict-locks isn't on. Set client.strict-locks on"),
        ({"auctions-write-behind": {}}, "breaks promise 1 of docs/SCALE.md: write-behind is on. Set performance.write-behind off"),
        ({"auctions-quick-read": {}}, "breaks promise 6 of docs/SCALE.md: quick-read is on. Set performance.quick-read off"),
        ({"auctions-io-cache": {}}, "breaks promise 6 of docs/SCALE.md: io-cache is on. Set performance.io-cache off"),
        ({"auctions-md-cache": {}}, "breaks promise 6 of docs/SCALE.md: md-cache is on. Set performance.stat-prefetch off"),
        ({"auctions-read-ahead": {}}, "breaks promise 6 of docs/SCALE.md: read-ahead is on. Set performance.read-ahead off"),
        ({"auctions-open-behind": {}}, "breaks promise 6 of docs/SCALE.md: open-behind is on. Set performance.open-behind off"),
    ],
)
def test_an_option_that_breaks_a_promise_is_named(
    tmp_path: Path, monkeypatch: pytest.MonkeyPatch, changed: dict[str, dict[str, str]], said: str
) -> None:
    monkeypatch.setattr(standby, "mounted_at", lambda _: (tmp_path, "fuse.glusterfs"))
    volume(tmp_path, GOOD | changed)
    with pytest.raises(CantDo) as refused:
        standby.look_at_volume(tmp_path)
    assert str(refused.value) == f"{tmp_path} {said}, and mount it again"


def test_too_few_copies_and_other_file_systems(tmp_path: Path, monkeypatch: pytest.MonkeyPatch) -> None:
    kinds = iter(["fuse.glusterfs", "fuse.glusterfs", "nfs4"])
    monkeypatch.setattr(standby, "mounted_at", lambda _: (tmp_path, next(kinds)))
    with pytest.raises(CantDo, match="the options of the volume can't be read: No such file or directory"):
        standby.look_at_volume(tmp_path)
    volume(tmp_path, {name: options for name, options in GOOD.items() if name != "auctions-client-2"})
    with pytest.raises(CantDo, match="breaks promise 1 of docs/SCALE.md: it has 2 copies, and not 3. Set replica 3"):
        standby.look_at_volume(tmp_path)
    with pytest.raises(CantDo, match="nothing is known of nfs4, and whether it keeps the seven promises"):
        standby.look_at_volume(tmp_path)
