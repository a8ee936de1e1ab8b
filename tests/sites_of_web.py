"""Sites before a front, for the tests: started as an operator starts them, and asked over plain HTTP."""

from __future__ import annotations

import html
import http.client
import json
import re
import socket
import ssl
import urllib.parse
from collections.abc import Iterator, Mapping
from dataclasses import dataclass, field
from pathlib import Path
from typing import Any

from boards import Tool, Tools
from fronts import Front, token_of, toml
from harness.auctions import definition
from harness.serving import ADDRESS, free_port

SECONDS = 60
RULES = definition(waivers=1)


@dataclass
class Web:
    """A site of a front, at a port that stays the same."""

    tools: Tools
    front: Front
    fields: Mapping[str, object]
    rules: bytes = RULES
    tables: Mapping[str, Mapping[str, object]] = field(default_factory=dict)
    context: ssl.SSLContext | None = None
    port: int = 0

    def __post_init__(self) -> None:
        self.port = free_port()
        self.tool: Tool | None = None

    def start(self) -> Web:
        """Starts it, and returns once it can be reached."""
        folder = self.front.folder
        (folder / "definition.json").write_bytes(self.rules)
        known = {"definition": "definition.json", "front": f"localhost:{self.front.port}", "listen": f"{ADDRESS}:{self.port}"}
        is_plain: dict[str, object] = {"plain": True} if self.front.context is None else {"ca": "S"}
        (folder / "W").write_text(toml({**known, **is_plain, **self.fields}, self.tables))
        self.tool = self.tools.start("web", "--config", folder / "W")
        line = self.tool.line()
        assert re.fullmatch(rf"WEB https?://127\.0\.0\.1:{self.port}/", line), line
        return self

    def kill(self) -> None:
        """Ends it by SIGKILL."""
        assert self.tool
        self.tool.process.kill()
        self.tool.process.wait(SECONDS)

    def ask(self, method: str, path: str, name: str | None = "ann", document: object = None, **headers: str) -> tuple[int, Any]:
        """Status and document of the answer to a request of a name."""
        fields = {**({"Authorization": f"Bearer {token_of(name)}"} if name else {}), **headers}
        body = None if document is None else json.dumps(document).encode()
        connection = self.connection()
        try:
            connection.request(method, path, body, {**fields, **({"Content-Type": "application/json"} if body else {})})
            answer = connection.getresponse()
            data = answer.read()
        finally:
            connection.close()
        return answer.status, json.loads(data) if "json" in (answer.getheader("Content-Type") or "") else data.decode()

    def connection(self) -> http.client.HTTPConnection:
        """A connection; with a context over TLS."""
        if self.context:
            return http.client.HTTPSConnection("localhost", self.port, timeout=SECONDS, context=self.context)
        return http.client.HTTPConnection(ADDRESS, self.port, timeout=SECONDS)

    def raw(self, data: bytes) -> bytes:
        """All that comes back to these bytes, until the connection ends or nothing more comes for a while."""
        with socket.create_connection((ADDRESS, self.port), SECONDS) as connection:
            connection.sendall(data)
            connection.settimeout(2)
            found = b""
            try:
                while part := connection.recv(65_536):
                    found += part
            except (TimeoutError, ConnectionError):
                pass
            return found

    def events(self, name: str, last: str = "") -> Iterator[tuple[str, str, Any]]:
        """The events of a name: kind, id and document. Without an end, until the connection ends."""
        connection = self.connection()
        connection.request("GET", "/v1/events", headers={"Authorization": f"Bearer {token_of(name)}", **({"Last-Event-ID": last} if last else {})})
        answer = connection.getresponse()
        fields: dict[str, str] = {}
        for line in answer:
            word, _, value = line.decode().rstrip("\n").partition(": ")
            if word:
                fields[word] = value
            elif "event" in fields:
                yield fields["event"], fields["id"], json.loads(fields["data"])
                fields = {}


class Person:
    """Somebody with a browser: cookies, pages and forms. `status`, `text` and `fields` are those of the last page."""

    def __init__(self, site: Web, name: str = "") -> None:
        self.site, self.cookies = site, dict[str, str]()
        self.status, self.text, self.path = 0, "", ""
        self.fields: Mapping[str, str] = {}
        if name:
            self.sign_in(name)

    @property
    def origin(self) -> str:
        """The site's own origin."""
        return f"https://localhost:{self.site.port}" if self.site.context else f"http://{ADDRESS}:{self.site.port}"

    def ask(self, method: str, path: str, form: Mapping[str, str] | None = None, **headers: str) -> int:
        """The status of the answer to one request. No answer leads anywhere by itself."""
        cookies = {"Cookie": "; ".join(f"{name}={value}" for name, value in self.cookies.items())} if self.cookies else {}
        kind = {"Content-Type": "application/x-www-form-urlencoded"} if form is not None else {}
        body = None if form is None else urllib.parse.urlencode(form).encode()
        connection = self.site.connection()
        try:
            connection.request(method, path, body, {**cookies, **kind, **headers})
            answer = connection.getresponse()
            self.status, self.text, self.path, self.fields = answer.status, answer.read().decode(), path, dict(answer.getheaders())
            for line in answer.headers.get_all("Set-Cookie") or ():
                name, _, value = line.split(";")[0].partition("=")
                self.cookies = {known: one for known, one in [*self.cookies.items(), (name, value)] if one and (known != name or one == value)}
        finally:
            connection.close()
        return self.status

    def send(self, path: str, form: Mapping[str, str], **headers: str) -> int:
        """The same for a form that is sent from a page of the site."""
        return self.ask("POST", path, form, **{"Origin": self.origin, **headers})

    def form(self, path: str, action: str) -> dict[str, str]:
        """The hidden fields of the first form of a page that goes there."""
        self.ask("GET", path)
        found = re.search(rf'<form(?=[^>]* action="{action}")[^>]*>(.*?)</form>', self.text, re.DOTALL)
        assert found, (path, action, self.text)
        return {name: html.unescape(value) for name, value in re.findall(r'<input type="hidden" name="([^"]*)" value="([^"]*)"', found[1])}

    def sign_in(self, name: str, **fields: str) -> int:
        """Signs in."""
        return self.send("/signin", {**self.form("/signin", "/signin"), "name": name, "token": token_of(name), **fields})
