"""A browser without a window and without scripts: cookies, forms and links of a site in this process."""
from __future__ import annotations

from collections.abc import Mapping
from dataclasses import dataclass, field
from html.parser import HTMLParser
from typing import Any

from harness_of_html import faults_of
from web_front import token_of
from web_site import Visitor


@dataclass
class Form:
    """A form of a page: its path, its fields, and the words on its buttons."""

    action: str
    fields: dict[str, str] = field(default_factory=dict)
    buttons: list[str] = field(default_factory=list)


class _Forms(HTMLParser):
    def __init__(self, text: str) -> None:
        super().__init__()
        self.forms: list[Form] = []
        self.words: list[str] = []
        self._in_button = False
        self.feed(text)

    def handle_starttag(self, tag: str, attrs: list[tuple[str, str | None]]) -> None:
        """As `HTMLParser` calls it."""
        known = {name: value or "" for name, value in attrs}
        if tag == "form":
            self.forms.append(Form(known["action"]))
        if tag in ("input", "textarea") and known.get("type") != "file":
            self.forms[-1].fields[known["name"]] = known.get("value", "")
        self._in_button = tag == "button"
        if self._in_button:
            self.forms[-1].buttons.append("")

    def handle_endtag(self, tag: str) -> None:
        """As `HTMLParser` calls it."""
        self._in_button = False

    def handle_data(self, data: str) -> None:
        """As `HTMLParser` calls it."""
        self.words.append(data)
        if self._in_button:
            self.forms[-1].buttons[-1] += data


class Browser:
    """One browser, with its cookies. `status`, `text` and `path` are those of its last page."""

    def __init__(self, visitor: Visitor) -> None:
        self.visitor = visitor
        self.cookies: dict[str, str] = {}
        self.status, self.text, self.path = 0, "", ""
        self.headers: Mapping[str, str] = {}

    @property
    def origin(self) -> str:
        """The site's own origin."""
        url = self.visitor.client.make_url("/")
        return f"http://{url.host}:{url.port}"

    async def go(self, path: str) -> str:
        """Opens a page."""
        return await self._ask("GET", path)

    async def send(self, form: Form, origin: str | None = "", /, **fields: str) -> str:
        """Sends a form with these fields in it. Without an origin of its own it is that of the site; None leaves it out."""
        return await self._ask("POST", form.action, {**form.fields, **fields}, origin)

    async def _ask(self, method: str, path: str, data: dict[str, str] | None = None, origin: str | None = "") -> str:
        headers = {"Cookie": "; ".join(f"{name}={value}" for name, value in self.cookies.items())} if self.cookies else {}
        if method == "POST" and origin is not None:
            headers["Origin"] = origin or self.origin
        answer: Any = await self.visitor.ask(method, path, None, headers=headers, data=data)
        for line in answer.headers.getall("Set-Cookie", []):
            name, _, rest = line.partition("=")
            value, *words = [word.strip() for word in rest.split(";")]
            assert {"Path=/", "Secure", "HttpOnly", "SameSite=Strict"} <= set(words) and not any(word.startswith("Domain") for word in words), line
            self.cookies.pop(name, None)
            if value:
                self.cookies[name] = value
        self.status, self.text, self.path, self.headers = answer.status, await answer.text(), path, answer.headers
        if answer.status == 303:
            return await self.go(answer.headers["Location"])
        if answer.content_type == "text/html":
            assert faults_of(self.text) == [], (path, faults_of(self.text))
        return self.text

    def forms(self) -> list[Form]:
        """The forms of the page."""
        return _Forms(self.text).forms

    def form(self, action: str) -> Form:
        """The first form that goes there."""
        return next(form for form in self.forms() if form.action == action)

    def words(self) -> str:
        """The words of the page."""
        return " ".join(" ".join(_Forms(self.text).words).split())

    async def sign_in(self, name: str, token: str | None = None, **more: str) -> Browser:
        """Signs in. `more` are other fields of the form."""
        await self.go("/signin")
        await self.send(self.form("/signin"), name=name, token=token or token_of(name), **more)
        return self
