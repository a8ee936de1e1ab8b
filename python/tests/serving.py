"""The program as the tests run it: a script, a file, and a server that is killed and started again."""
import pathlib
import random
import socket
import subprocess
from types import TracebackType

import hypothesis

ADDRESS = "127.0.0.1"
SECONDS = 60
# Ports below those that the system hands out by itself.
PORTS = range(10_000, 32_000)
EXAMPLES = pathlib.Path(__file__).resolve().parents[2] / "examples"
DEFINITION = EXAMPLES.joinpath("package-beats-parts.txt").read_bytes().split(b"\n")[0] + b"\n"


def few(examples: int) -> hypothesis.settings:
    """Settings for tests that run the program, which takes time: this number of examples, or 30 times as many in the long profile."""
    is_long = hypothesis.settings.default.max_examples > 1000
    return hypothesis.settings(max_examples=examples * (30 if is_long else 1))


class Program:
    """A built `hpb`."""

    def __init__(self, path: pathlib.Path) -> None:
        self.path = path

    def run(self, *words: object, text: bytes = b"") -> tuple[list[str], int]:
        """The lines that it writes, and its status."""
        ran = subprocess.run([str(self.path), *map(str, words)], input=text, capture_output=True, timeout=SECONDS)
        return ran.stdout.decode("latin-1").split("\n")[:-1], ran.returncode

    def script(self, definition: bytes, lines: list[str]) -> list[str]:
        """The answer to each line. A definition that is refused has one answer."""
        text = definition.rstrip(b"\n") + b"\n" + "".join(line + "\n" for line in lines).encode("latin-1")
        return self.run(text=text)[0]

    def format(self, file: pathlib.Path, definition: bytes, layout: int = 1, journal: int = 16) -> None:
        """Makes a file that holds an auction with this definition."""
        written, status = self.run("format", "--file", file, "--journal", journal, "--layout", layout, text=definition)
        assert (written[0].split()[0], status) == ("FORMATTED", 0), written


def free_port() -> int:
    """A free port below those that the system hands out by itself."""
    while True:
        port = random.choice(PORTS)
        with socket.socket() as probe:
            try:
                probe.bind((ADDRESS, port))
            except OSError:
                continue
            return port


class Server:
    """`hpb serve` on a file, which is made if there is none. It is killed at the end."""

    def __init__(self, program: Program, file: pathlib.Path, definition: bytes = DEFINITION, sessions: int = 32) -> None:
        self.program, self.file, self.sessions = program, file, sessions
        self.port = free_port()
        self.process: subprocess.Popen[bytes] | None = None
        if not file.exists():
            program.format(file, definition)

    def __enter__(self) -> "Server":
        self.start()
        return self

    def __exit__(self, kind: type[BaseException] | None, value: BaseException | None, trace: TracebackType | None) -> None:
        self.kill()

    def start(self) -> None:
        """Serves the file, on the same port each time."""
        words = ["serve", "--file", str(self.file), "--port", str(self.port), "--sessions", str(self.sessions)]
        self.process = subprocess.Popen(
            [str(self.program.path), *words], stdin=subprocess.DEVNULL, stdout=subprocess.PIPE, stderr=subprocess.DEVNULL
        )
        assert self.process.stdout is not None
        line = self.process.stdout.readline()
        assert line == f"LISTENING {self.port}\n".encode(), line

    def kill(self) -> None:
        """Kills it, as by `kill -9`. If it isn't running, nothing happens."""
        if self.process:
            self.process.kill()
            self.process.wait(SECONDS)
            assert self.process.stdout is not None
            self.process.stdout.close()
            self.process = None

    def lines(self, *lines: str) -> list[str]:
        """The answers to lines that are sent over a connection of their own."""
        with socket.create_connection((ADDRESS, self.port), SECONDS) as connection:
            connection.sendall("".join(line + "\n" for line in lines).encode())
            connection.shutdown(socket.SHUT_WR)
            with connection.makefile("r", encoding="latin-1") as answers:
                return answers.read().splitlines()
