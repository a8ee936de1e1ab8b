"""Faults of a page's markup."""
from __future__ import annotations

from html.parser import HTMLParser

VOID = {"meta", "br", "hr", "img", "input", "link"}


class _Page(HTMLParser):
    def __init__(self) -> None:
        super().__init__()
        self.faults: list[str] = []
        self.open: list[str] = []
        self.ids: set[str] = set()

    def handle_starttag(self, tag: str, attrs: list[tuple[str, str | None]]) -> None:
        """As `HTMLParser` calls it."""
        self.look(tag, attrs)
        if tag not in VOID:
            self.open.append(tag)

    def handle_startendtag(self, tag: str, attrs: list[tuple[str, str | None]]) -> None:
        """As `HTMLParser` calls it."""
        self.look(tag, attrs)
        if tag not in VOID:
            self.faults.append(f"<{tag}/> ends itself")

    def look(self, tag: str, attrs: list[tuple[str, str | None]]) -> None:
        """An id stands once, and nothing has a style or a script of its own."""
        for name, value in attrs:
            if name == "id" and value in self.ids:
                self.faults.append(f"the id {value} stands twice")
            if name == "style" or name.startswith("on"):
                self.faults.append(f"<{tag} {name}>")
            if name == "id" and value:
                self.ids.add(value)

    def handle_endtag(self, tag: str) -> None:
        """As `HTMLParser` calls it."""
        if not self.open or self.open.pop() != tag:
            self.faults.append(f"</{tag}> ends nothing")


def faults_of(text: str) -> list[str]:
    """The faults of a page."""
    page = _Page()
    page.feed(text)
    page.close()
    return page.faults + [f"<{tag}> isn't ended" for tag in page.open]
