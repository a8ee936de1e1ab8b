"""Pages that follow an auction, for the tests: requests, events, the texts that have to stand there, and go-betweens."""

from __future__ import annotations

import base64
import http.client
import json
import re
import socket
import socketserver
import ssl
import threading
from collections.abc import Callable, Iterable, Mapping
from contextlib import ExitStack, suppress
from dataclasses import dataclass
from pathlib import Path
from types import TracebackType
from typing import Any, Protocol

from harness.auctions import definition
from harness.fronts import start_tool
from harness.markup import Page
from harness.serving import ADDRESS, read_line, wait_until

SECONDS = 60
RULES = definition(waivers=1)
FIELDS: dict[str, Any] = json.loads(RULES)
NODES = [node["name"] for node in FIELDS["nodes"]]
BIDDERS = [bidder["name"] for bidder in FIELDS["bidders"]]
CHECK, DASH = "\N{CHECK MARK}", "\N{EN DASH}"


class Asks(Protocol):
    """A client of a server, or a caller of a front."""

    def ask(self, line: str) -> str:
        """The answer to a line."""


@dataclass(frozen=True)
class Site:
    """The place of a page: a port. With a context it is reached over TLS; with a name, requests sign in by name and token."""

    port: int
    who: str | None = None
    token: str = ""
    context: ssl.SSLContext | None = None
    host: str | None = None
    seconds: float = SECONDS

    def ask(self, path: str = "/", method: str = "GET", host: str | None = None, **more: str) -> http.client.HTTPResponse:
        """The answer to a request, whose content is still to be read."""
        connection = http.client.HTTPConnection(ADDRESS, self.port, timeout=self.seconds)
        connection.sock = self.connect()
        connection.putrequest(method, path, skip_host=True, skip_accept_encoding=True)
        known = {"Authorization": f"Basic {self.known()}"} if self.who is not None else {}
        for name, value in {"Host": host or self.host or f"{ADDRESS}:{self.port}", **known, **more}.items():
            connection.putheader(name, value)
        connection.endheaders()
        return connection.getresponse()

    def connect(self) -> socket.socket:
        """A connection to it."""
        connection = socket.create_connection((ADDRESS, self.port), self.seconds)
        return self.context.wrap_socket(connection, server_hostname="localhost") if self.context else connection

    def known(self) -> str:
        """Name and token, as a browser sends them."""
        return base64.b64encode(f"{self.who}:{self.token}".encode()).decode()

    def get(self, path: str = "/", host: str | None = None, **more: str) -> tuple[int, Mapping[str, str], bytes]:
        """The status, the fields, and what came behind them."""
        answer = self.ask(path, "GET", host, **more)
        return answer.status, dict(answer.getheaders()), answer.read()

    def status(self, raw: bytes) -> int:
        """That of the answer to these bytes."""
        with self.connect() as connection:
            connection.sendall(raw)
            answer = http.client.HTTPResponse(connection)
            answer.begin()
            return answer.status

    def page(self) -> Page:
        """The page, as it is loaded now."""
        return Page(self.get()[2].decode())

    def shows(self, **texts: str) -> bool:
        """Whether the page is there, and these texts stand on it. Of a name `_` is `-`."""
        with suppress(OSError, http.client.HTTPException):
            found = self.page().texts()
            return all(found.get(name.replace("_", "-")) == text for name, text in texts.items())
        return False


class Viewer:
    """Takes the events of a page, and keeps what they come to."""

    def __init__(self, site: Site, path: str = "/events") -> None:
        self.texts: dict[str, str] = {}
        self.marks: dict[str, str] = {}
        self.lists: dict[str, list[str]] = {}
        self.said: list[str] = []
        self.seen: list[dict[str, str]] = []
        self.told: list[str] = []
        self.picture, self.bytes = "", 0
        self._changed = threading.Condition()
        self._answer = site.ask(path)
        threading.Thread(target=self._read, daemon=True).start()

    def _read(self) -> None:
        with suppress(OSError, ValueError, http.client.HTTPException):
            for line in self._answer:
                self.bytes += len(line)
                if line.startswith(b"data: {"):
                    self._take(json.loads(line[6:]))

    def _take(self, event: dict[str, Any]) -> None:
        with self._changed:
            self.texts |= event["texts"]
            self.marks |= event["marks"]
            self.lists |= event["lists"]
            self.picture = event["picture"]
            self.seen.append(dict(self.texts))
            self.told += [text for texts in event["lists"].values() for text in texts]
            self.said += [event["said"]] if event["said"] else []
            self._changed.notify_all()

    def wait(self, holds: Callable[[], bool], seconds: float = SECONDS) -> None:
        """Returns once this holds behind an event. AssertionError if it takes longer."""
        with self._changed:
            assert self._changed.wait_for(holds, seconds), (self.texts, self.marks, self.said)

    def sees(self, seconds: float = SECONDS, **texts: str) -> None:
        """Returns once these texts stand there. Of a name `_` is `-`."""
        wanted = {name.replace("_", "-"): text for name, text in texts.items()}
        self.wait(lambda: all(self.texts.get(name) == text for name, text in wanted.items()), seconds)

    def of(self, form: str, names: Iterable[str]) -> dict[str, str]:
        """The texts of each of these names, as `bidder-{}-outlook` has them."""
        return {name: self.texts[form.format(name)] for name in names}


class Tool:
    """A tool that asks, which runs. It is ended with its test."""

    def __init__(self, stack: ExitStack, name: str, *words: object, **how: Any) -> None:
        self.process = stack.enter_context(start_tool(name, *words, **how))
        stack.callback(self.process.kill)

    def line(self) -> str:
        """Its next line."""
        return read_line(self.process, SECONDS)

    def ended(self) -> tuple[str, str, int]:
        """What it still wrote, what it said, and its status."""
        written, said = self.process.communicate(timeout=SECONDS)
        return (written or b"").decode(), (said or b"").decode(), self.process.returncode

    def stop(self) -> tuple[str, str, int]:
        """The same, after SIGTERM."""
        self.process.terminate()
        return self.ended()


@dataclass
class Tools:
    """Starts boards and watches of an auction."""

    stack: ExitStack
    folder: Path
    rules: bytes = RULES

    def place(self, port: int, rules: bytes | None = None) -> list[object]:
        """The words by which a tool follows the server at a port."""
        path = self.folder / "definition.json"
        path.write_bytes(self.rules if rules is None else rules)
        return ["--port", port, "--definition", path]

    def start(self, name: str, *words: object, **how: Any) -> Tool:
        """One with these words alone."""
        return Tool(self.stack, name, *words, **how)

    def watch(self, port: int, *words: object, **how: Any) -> Tool:
        """`tools/watch` of a server."""
        return self.start("watch", *self.place(port), *words, **how)

    def board(self, port: int, *words: object) -> tuple[Tool, Site]:
        """`tools/board` of a server, once its page can be opened."""
        tool = self.start("board", *self.place(port), "--listen", f"{ADDRESS}:0", "--pace", "0.2", *words)
        found = re.fullmatch(r"BOARD http://127\.0\.0\.1:(\d+)/", tool.line())
        assert found
        return tool, Site(int(found[1]))


# What the server answers, as it has to stand on the page.


def least_activity(percentage: int, eligibility: int) -> int:
    """The least activity that is enough, by trying."""
    return next(activity for activity in range(eligibility + 1) if activity * 100 >= percentage * eligibility)


def shown_texts(session: Asks, fields: Mapping[str, Any] = FIELDS, bidders: Iterable[str] = ()) -> dict[str, str]:
    """Everything that the server answers now, by the names of its places."""
    _, round_, _, stage, status, _, revenue, _, count = session.ask("SHOW").split(" ")
    percentage = fields["stages"][int(stage) - 1]
    texts = {
        "round": round_,
        "stage": f"{stage} of {len(fields['stages'])}, at {percentage} percent",
        "status": {"OPEN": "open", "CLOSED": "over"}[status],
        "revenue": f"{int(revenue):,}",
        "count": f"{int(count):,}",
    }
    for node in fields["nodes"]:
        _, name, _, high, bidder, _, price, _, least, _, wins = session.ask(f"NODE {node['name']}").split(" ")
        bid = "no bid" if bidder == "-" else f"{int(high):,} of {bidder}"
        values = {"bid": bid, "price": f"{int(price):,}", "minimum": f"{int(least):,}", "win": f"{CHECK} wins" if wins == "yes" else DASH}
        texts |= {f"node-{name}-{what}": text for what, text in values.items()}
    units = {bidder["name"]: bidder["units"] for bidder in fields["bidders"]}
    for name in bidders:
        words = session.ask(f"WHO {name}").split(" ")
        values = {
            "eligibility": f"{int(words[3]):,} of {units[name]:,}",
            "activity": f"{int(words[5]):,}",
            "needed": f"{least_activity(percentage, int(words[3])):,}",
            "waivers": f"{words[9]} of {fields['waivers']}" if "waivers" in fields else "none",
            "ticket": str(int(words[7]) + 1),
        }
        texts |= {f"bidder-{name}-{what}": text for what, text in values.items()}
    return texts


def look_at_board(site: Site, viewer: Viewer, wanted: Mapping[str, str]) -> None:
    """Events, and a page that is loaded now, have these texts; both mark the winners, and the page is whole."""
    viewer.wait(lambda: wanted.items() <= viewer.texts.items())
    loaded = site.page()
    texts, marks = loaded.texts(), loaded.marks()
    assert {name: texts.get(name) for name in wanted} == wanted
    wins = {name for name in viewer.marks if name.startswith("node-") and "wins" in viewer.marks[name].split()}
    assert wins == {name.removesuffix("-win") for name in wanted if name.endswith("-win") and "wins" in wanted[name]}
    assert {name: marks[name] for name in viewer.marks} == viewer.marks
    assert loaded.faults == []


# Go-betweens.


class _Listener(socketserver.ThreadingTCPServer):
    daemon_threads = allow_reuse_address = True


class Running:
    """A listener of its own, in a thread, at `port`."""

    def __init__(self, handle: Callable[[socket.socket], None]) -> None:
        class Handler(socketserver.BaseRequestHandler):
            def handle(self) -> None:
                with suppress(OSError):
                    handle(self.request)

        self._listener = _Listener((ADDRESS, 0), Handler)
        self.port = int(self._listener.server_address[1])
        threading.Thread(target=self._listener.serve_forever, args=(0.05,), daemon=True).start()

    def __enter__(self) -> Any:
        return self

    def __exit__(self, kind: type[BaseException] | None, fault: BaseException | None, trace: TracebackType | None) -> None:
        self._listener.shutdown()
        self._listener.server_close()


class Between(Running):
    """Between a tool and a server: notes each line that the tool sends, and can be silent or cut the connection. Before a line that is
    among `before` goes on all lines before it are answered, and then that is done, once."""

    def __init__(self, port: int) -> None:
        self.lines: list[str] = []
        self.before: dict[str, Callable[[], object]] = {}
        self.silent = threading.Event()
        self.connections = self.answered = self.at_once = self.most = 0
        self._to, self._open = port, list[socket.socket]()
        super().__init__(self._handle)

    def _handle(self, client: socket.socket) -> None:
        with socket.create_connection((ADDRESS, self._to)) as server:
            self.connections += 1
            self.at_once += 1
            self.most = max(self.most, self.at_once)
            self._open = [client, server]
            threading.Thread(target=self._back, args=(client, server), daemon=True).start()
            try:
                for line in client.makefile("rb"):
                    self._forward(line, server)
            finally:
                self.at_once -= 1

    def _forward(self, line: bytes, server: socket.socket) -> None:
        self.lines.append(line.decode())
        wait_until(lambda: not self.silent.is_set(), SECONDS, "it isn't silent any more")
        if done := self.before.pop(line.decode(), None):
            wait_until(lambda: self.answered == len(self.lines) - 1, SECONDS, "all before is answered")
            done()
        server.sendall(line)

    def _back(self, client: socket.socket, server: socket.socket) -> None:
        with suppress(OSError):
            while part := server.recv(65_536):
                self.answered += part.count(b"\n")
                client.sendall(part)
        with suppress(OSError):
            client.shutdown(socket.SHUT_RDWR)

    def cut(self) -> None:
        """Ends the connection to both sides."""
        for one in self._open:
            with suppress(OSError):
                one.shutdown(socket.SHUT_RDWR)


def proxy_of(port: int, folder: str) -> Running:
    """Hands each request on without the folder that its path begins with."""

    def handle(taken: socket.socket) -> None:
        with taken.makefile("rb") as lines, socket.create_connection((ADDRESS, port), SECONDS) as server:
            server.sendall(lines.readline().replace(f" {folder}".encode(), b" /", 1))
            while (line := lines.readline()) not in (b"\r\n", b""):
                server.sendall(line)
            server.sendall(line)
            while part := server.recv(65_536):
                taken.sendall(part)

    return Running(handle)
