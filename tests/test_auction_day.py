"""docs/AUCTION-DAY.md: its commands, typed one after another into one shell, print the output that the page shows."""

from __future__ import annotations

import os
import re
import signal
import subprocess
from collections.abc import Iterator
from pathlib import Path
from typing import NamedTuple

import pytest

from harness.auctions import definition
from harness.programs import Program, shown
from harness.serving import free_port, read_line, wait_until

TOP = Path(__file__).resolve().parents[1]
SECONDS = 60
FRONT = "tools/front --config front.toml &"
IN_FILES = "tools/front --config front.toml >> front.out 2>> front.err < /dev/null &"
PARTS = re.compile(r"((?:^ {4}.*\n)+|(?:^\|.*\n)+)", re.MULTILINE)
END = "these-were-the-commands"


class Step(NamedTuple):
    """Commands of the page, and the output below them, if the page shows any."""

    commands: str
    wanted: str | None = None


def steps(page: str) -> Iterator[Step]:
    """The commands of a page in their order. A table of typed lines is the input of the client before it."""
    parts = PARTS.split(page)
    typed = ""
    for between, part in zip(parts[::2], parts[1::2]):
        is_next = typed and not between.strip()
        if is_next and part.startswith("| You type |"):
            rows = [re.findall(r"`([^`]*)`", row)[:2] for row in part.splitlines()[2:]]
            lines = " ".join(f"'{line}'" for line, _ in rows)
            yield Step(f"printf '%s\\n' {lines} | {typed}", "".join(f"{answer}\n" for _, answer in rows))
            typed = ""
        elif is_next and part.startswith(" "):
            yield Step(typed, plain(part))
            typed = ""
        else:
            if typed:
                yield Step(typed)
            typed = plain(part) if part.startswith(" ") else ""
    if typed:
        yield Step(typed)


def plain(block: str) -> str:
    """A block without its indentation."""
    return "".join(f"{line[4:]}\n" for line in block.splitlines())


class Shell:
    """A shell into which a test types. It ends at the first command that fails, and everything that it has started ends with it. A
    front writes into files there.
    """

    def __init__(self, folder: Path, program: Program) -> None:
        self.folder, self.fronts = folder, 0
        self.process = subprocess.Popen(
            ["bash", "-e"],
            stdin=subprocess.PIPE,
            stdout=subprocess.PIPE,
            stderr=subprocess.STDOUT,
            cwd=folder,
            env={**os.environ, "PATH": f"{program.path.parent}:{os.environ['PATH']}"},
            start_new_session=True,
        )

    def type(self, commands: str) -> str:
        """The output of these commands. If one fails, or they take too long, AssertionError is raised."""
        assert self.process.stdin
        into_files = commands.replace(FRONT, IN_FILES)
        self.process.stdin.write(f"{into_files}echo {END}\n".encode())
        self.process.stdin.flush()
        lines: list[str] = []
        while (line := read_line(self.process, SECONDS)) != END:
            assert line, (commands, lines, self.said("front.err"))
            lines.append(f"{line}\n")
        if FRONT in commands:
            self.wait_for_front()
        return "".join(lines)

    def wait_for_front(self) -> None:
        """Waits until one more front has let clients in."""
        self.fronts += 1
        wait_until(lambda: self.said("front.out").count("BOARD ") == self.fronts, SECONDS, "a front that comes up")

    def said(self, name: str) -> str:
        """The text of a file in the folder; empty if the file isn't there yet."""
        file = self.folder / name
        return shown(file.read_bytes()) if file.exists() else ""

    def end(self) -> None:
        """Kills it, with everything that it has started."""
        os.killpg(self.process.pid, signal.SIGKILL)
        self.process.communicate()


@pytest.fixture
def shell(program: Program, room: Path) -> Iterator[Shell]:
    """A shell in a folder with a definition, a certificate, and the configuration of docs/FRONT.md."""
    (room / "tools").symlink_to(TOP / "tools")
    (room / "definition.json").write_bytes(definition())
    words = "req -x509 -newkey rsa:2048 -nodes -days 30 -subj /CN=localhost -addext subjectAltName=DNS:localhost"
    files = ["-keyout", "front.key", "-out", "front.pem"]
    subprocess.run(["openssl", *words.split(), *files], cwd=room, check=True, capture_output=True, timeout=SECONDS)
    made = Shell(room, program)
    yield made
    made.end()


def written_pages() -> tuple[str, str]:
    """The page and the configuration of docs/FRONT.md, with free ports."""
    page = (TOP / "docs" / "AUCTION-DAY.md").read_text(encoding="utf-8")
    configuration = (TOP / "docs" / "FRONT.md").read_text(encoding="utf-8").split("```toml\n")[1].split("```")[0]
    ports = {"6000": str(free_port()), "8443": str(free_port())}
    assert all(port in configuration for port in ports) and len(set(ports.values())) == len(ports)
    form = re.compile(r"\b(" + "|".join(ports) + r")\b")
    return form.sub(lambda port: ports[port[0]], page), form.sub(lambda port: ports[port[0]], configuration)


@pytest.mark.timeout(300)
def test_the_commands_of_the_day_do_what_the_page_says(shell: Shell) -> None:
    """The page shows the output of some commands; for the others it says what to look at."""
    page, configuration = written_pages()
    (shell.folder / "front.toml").write_text(configuration)
    written = ""
    for step in steps(page):
        output = shell.type(step.commands)
        assert step.wanted in (None, output), (step, output)
        written += output
    assert "FORMATTED 1037\n" in written and "\nROUND 1 STAGE 1 OPEN REVENUE 0 COUNT 0\n" in written
    assert shell.said("kept.json") == shell.said("definition.json")
    assert '"name":"ann"' in written and '"outcome":"welcome"' in written
    assert "\nROUND 2 STAGE 2 OPEN REVENUE 100 COUNT 3\n" in written
    assert "So no choice of these bids brings more than 100.\n" in written
    assert re.search(r"ann +x +a +100$", shell.said("rounds.txt"), re.MULTILINE)
    assert "<title>Auction, round 2, open</title>" in shell.said("report.html")
    close, stopped = (line.split(" RECORD ") for line in shell.said("front.out").splitlines() if " RECORD " in line)
    assert (close[0], stopped[0]) == ("ROUND 2 STAGE 1 OPEN REVENUE 100 COUNT 2", "STOPPED 3")
    digest = close[1].split(" ")[1]
    assert any(line.startswith(f"{digest} ") for line in shell.said("auction.record").splitlines())
