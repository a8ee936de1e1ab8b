"""Fronts for the tests. Each has a folder of its own, with the file `F`, the record `R`, the tokens `T` and the configuration `C`.

Libraries loaded before a front aren't loaded before its server, which is started by the script `P`.
"""

from __future__ import annotations

import base64
import http.client
import json
import os
import signal
import socket
import ssl
import struct
import subprocess
import tempfile
import time
from collections.abc import Mapping
from dataclasses import dataclass, field
from pathlib import Path
from types import TracebackType

from harness.conditions import NORMAL, Conditions
from harness.fronts import children_of, descendants_of, is_running, tool_words, with_package, words_of
from harness.programs import Program, Ran, shown
from harness.serving import Client, Ended, read_line, wait_until

from hpb.record import Entry, read_record

ADDRESS = "127.0.0.1"
# How many seconds anything quick may take on a busy machine.
SECONDS = 60
# A front ends within ten seconds of SIGTERM; the machine gets five more.
STOP_SECONDS = 10 + 5

NAMES: Mapping[str, object] = {"desk": "auctioneer", "ann": ["x"], "bob": ["y", "z"], "carl": ["w"], "public": "observer"}


def token_of(name: str) -> str:
    """The token in the file `T` for a name."""
    return f"token-of-{name}-in-a-trial"


class StartsNot(AssertionError):
    """A front ended before it listened. `ran` has its output."""

    def __init__(self, ran: Ran) -> None:
        super().__init__(repr(ran))
        self.ran = ran


@dataclass
class Front:
    """A front that a test may start as often as it likes."""

    program: Program
    folder: Path
    names: Mapping[str, object] = field(default_factory=lambda: NAMES)
    limits: Mapping[str, int] = field(default_factory=dict)
    fields: Mapping[str, object] = field(default_factory=dict)
    tables: Mapping[str, Mapping[str, object]] = field(default_factory=dict)
    has_board: bool = False
    context: ssl.SSLContext | None = None

    def __post_init__(self) -> None:
        self.process: subprocess.Popen[bytes] | None = None
        self.said = tempfile.TemporaryFile()
        self.port = self.board_port = 0
        self.write_tokens({name: token_of(name) for name in self.names})
        script(self.folder / "P", f'unset LD_PRELOAD PYTHONMALLOC\nexec {self.program.path} "$@"')
        self.write_config()

    @property
    def file(self) -> Path:
        return self.folder / str(self.fields.get("file", "F"))

    @property
    def record(self) -> Path:
        return self.folder / str(self.fields.get("record", "R"))

    @property
    def tokens(self) -> Path:
        return self.folder / "T"

    @property
    def config(self) -> Path:
        return self.folder / "C"

    @property
    def log(self) -> Path:
        return self.folder / "R.log"

    def write_tokens(self, tokens: Mapping[str, str]) -> None:
        self.tokens.touch(mode=0o600)
        self.tokens.write_text("".join(f"{name} {token}\n" for name, token in tokens.items()))

    def write_config(self, **more: object) -> None:
        """Writes the configuration. `more` are fields that are added or replaced."""
        fields: dict[str, object] = {"file": "F", "record": "R", "tokens": "T", "listen": f"{ADDRESS}:0", "program": "./P"}
        tables: dict[str, Mapping[str, object]] = {"names": self.names, "limits": self.limits}
        if self.has_board:
            tables["board"] = {"listen": f"{ADDRESS}:0"}
        self.config.write_text(toml({**fields, **self.fields, **more}, {**tables, **self.tables}))

    def configure(self, limits: Mapping[str, int] | None = None, **fields: object) -> Front:
        """Writes the configuration with these limits, and with these fields in the place of others."""
        self.limits = self.limits if limits is None else limits
        self.fields = {**self.fields, **fields}
        self.write_config()
        return self

    def words(self, *words: str) -> list[str]:
        return [*tool_words("front"), "--config", str(self.config), *words]

    def begin(
        self, *words: str, conditions: Conditions = NORMAL, descriptors: tuple[int, ...] = (), errors: int | None = None
    ) -> subprocess.Popen[bytes]:
        """Starts it, and doesn't wait until it listens. `errors` may send its standard error elsewhere than to `words_said`."""
        self.said.seek(0)
        self.said.truncate()
        self.process = subprocess.Popen(
            self.words(*words),
            stdin=subprocess.DEVNULL,
            stdout=subprocess.PIPE,
            stderr=self.said if errors is None else errors,
            cwd=conditions.folder,
            env=with_package(conditions.variables()),
            preexec_fn=conditions.prepare,
            pass_fds=descriptors,
        )
        return self.process

    def start(self, *words: str, conditions: Conditions = NORMAL, descriptors: tuple[int, ...] = ()) -> Front:
        """Starts it, and returns once it listens. If it ends before that, StartsNot is raised; if it takes too long, AssertionError."""
        self.begin(*words, conditions=conditions, descriptors=descriptors)
        return self.listens()

    def listens(self) -> Front:
        """Returns once a front that was begun listens, or raises the same."""
        assert self.process
        first = read_line(self.process, SECONDS)
        if not first.startswith("LISTENING "):
            raise StartsNot(self.ended())
        self.port = int(first.split()[2])
        if self.has_board:
            self.board_port = int(read_line(self.process, SECONDS).removesuffix("/").rsplit(":", 1)[1])
        return self

    def run(self, *words: str, conditions: Conditions = NORMAL) -> Ran:
        """Runs it to its end."""
        self.begin(*words, conditions=conditions)
        return self.ended(SECONDS)

    def is_running(self) -> bool:
        return self.process is not None and self.process.poll() is None

    def signal(self, number: int) -> None:
        assert self.process
        self.process.send_signal(number)

    def stop(self, seconds: float = STOP_SECONDS) -> Ran:
        """Sends SIGTERM, and waits for the end. If that takes too long, AssertionError is raised."""
        self.signal(signal.SIGTERM)
        return self.ended(seconds)

    def ended(self, seconds: float = STOP_SECONDS) -> Ran:
        """The rest of its output, its messages, and its status. If it doesn't end in time, AssertionError is raised."""
        assert self.process
        began = time.monotonic()
        try:
            written, _ = self.process.communicate(timeout=seconds)
        except subprocess.TimeoutExpired:
            self.process.kill()
            self.process.communicate()
            raise AssertionError(f"the front didn't end within {seconds} seconds: {self.words_said()}") from None
        return Ran(shown(written), self.words_said(), self.process.returncode, time.monotonic() - began)

    def kill(self) -> None:
        """Ends it by SIGKILL if it runs, and waits until all that it has started has ended, too."""
        if self.process and self.process.poll() is None:
            left = descendants_of(self.process.pid)
            self.process.kill()
            self.process.communicate()
            wait_until(lambda: not any(map(is_running, left)), SECONDS, f"of the processes {left} some outlive their front")

    def __enter__(self) -> Front:
        return self

    def __exit__(self, kind: type[BaseException] | None, fault: BaseException | None, trace: TracebackType | None) -> None:
        self.kill()

    def words_said(self) -> str:
        """Its messages on standard error since it was started."""
        size = os.fstat(self.said.fileno()).st_size
        return shown(os.pread(self.said.fileno(), size, 0))

    def wait_until_said(self, words: str, seconds: float = SECONDS) -> None:
        end = time.monotonic() + seconds
        while words not in self.words_said():
            assert time.monotonic() < end, f"{words!r} isn't in {self.words_said()!r}"
            time.sleep(0.01)

    def child(self, word: str) -> int:
        """Its child process with a word that ends like this, such as `serve`; 0 if there is none."""
        assert self.process
        known = ((number, words_of(number)[:4]) for number in children_of(self.process.pid))
        return next((number for number, words in known if any(one.endswith(word.encode()) for one in words)), 0)

    def client(self, name: str | None = None, seconds: float = SECONDS, token: str | None = None) -> Client:
        """A connection; with a name, one that was welcomed. If it was ended before that, `Ended` is raised."""
        client = Client(self.port, seconds)
        if self.context:
            client.socket = self.context.wrap_socket(client.socket, server_hostname="localhost")
        if name or token:
            client.welcome = client.ask(f"TOKEN {token or token_of(name or '')}")  # type: ignore[attr-defined]
        return client

    def page(self, name: str, token: str | None = None, seconds: float = SECONDS) -> int:
        """The HTTP status of the page for a name."""
        said = base64.b64encode(f"{name}:{token or token_of(name)}".encode()).decode()
        if self.context:
            connection: http.client.HTTPConnection = http.client.HTTPSConnection("localhost", self.board_port, timeout=seconds, context=self.context)
        else:
            connection = http.client.HTTPConnection("localhost", self.board_port, timeout=seconds)
        try:
            connection.request("GET", "/", headers={"Authorization": f"Basic {said}"})
            return connection.getresponse().status
        finally:
            connection.close()

    def entries(self, *kinds: str) -> list[Entry]:
        """The record's entries of these kinds."""
        return [entry for entry in read_record(self.record)[0] if entry["kind"] in kinds]

    def accepted(self) -> list[tuple[str, str]]:
        """The record's commands, with their answers."""
        return [(entry["line"], entry["answer"]) for entry in self.entries("accepted")]

    def ask(self, name: str, line: str) -> str:
        """What a line of a name is answered, on a connection of its own."""
        caller = Caller(self, name)
        answer = caller.ask(line)
        caller.hang_up()
        return answer

    def log_lines(self, *kinds: str) -> list[dict[str, object]]:
        """The log's lines of these kinds, or all of them."""
        lines = [json.loads(line) for line in self.log.read_text().splitlines()]
        return [line for line in lines if not kinds or line["kind"] in kinds]


def rest_of(client: Client) -> list[str]:
    """The lines that still come, until the connection ends or breaks."""
    lines = []
    try:
        while True:
            lines.append(client.line())
    except (Ended, ConnectionError):
        return lines


def break_off(client: Client) -> None:
    """Resets a connection."""
    client.socket.setsockopt(socket.SOL_SOCKET, socket.SO_LINGER, struct.pack("ii", 1, 0))
    client.close()


def script(path: Path, text: str) -> Path:
    """A script of the shell, that may be run."""
    path.write_text(f"#!/bin/sh\n{text}\n")
    path.chmod(0o755)
    return path


def toml(fields: Mapping[str, object], tables: Mapping[str, Mapping[str, object]]) -> str:
    lines = [f"{name} = {json.dumps(value)}" for name, value in fields.items()]
    for table, rows in tables.items():
        lines += [f"[{table}]", *(f"{name} = {json.dumps(value)}" for name, value in rows.items())]
    return "\n".join(lines) + "\n"


@dataclass
class Caller:
    """Sends lines for a name as a client should. If a connection is lost, it makes a new one, and sends the last line again until
    it is answered.
    """

    front: Front
    name: str
    seconds: float = SECONDS
    client: Client | None = None
    # How many it has made.
    connections: int = 0

    def ask(self, line: str) -> str:
        """The answer. If there is none within this caller's time, TimeoutError is raised."""
        end = time.monotonic() + self.seconds
        while time.monotonic() < end:
            try:
                if self.client is None:
                    self.client = self.front.client(self.name, seconds=self.seconds)
                    self.connections += 1
                return self.client.ask(line)
            except (OSError, Ended):
                self.hang_up()
                time.sleep(0.05)
        raise TimeoutError(f"{self.name}: no answer to {line!r}")

    def hang_up(self) -> None:
        if self.client:
            self.client.close()
        self.client = None


def make_certificate(folder: Path, days: int = 2, name: str = "localhost") -> ssl.SSLContext:
    """Makes a certificate `S` and its key `K`, and returns the TLS context of clients that trust it."""
    words = f"req -x509 -newkey rsa:2048 -nodes -days {days} -subj /CN={name} -addext subjectAltName=DNS:{name} -keyout K -out S"
    subprocess.run(["openssl", *words.split()], cwd=folder, check=True, capture_output=True, timeout=SECONDS)
    (folder / "K").chmod(0o600)
    return ssl.create_default_context(cafile=folder / "S")


def listening_socket() -> socket.socket:
    """A socket that listens at a free port of this machine."""
    return socket.create_server((ADDRESS, 0))
