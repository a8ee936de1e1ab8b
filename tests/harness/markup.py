"""Pages that a tool made, as trees of elements, and the faults of their markup."""

from __future__ import annotations

from collections import Counter
from collections.abc import Iterator
from html.parser import HTMLParser
from xml.etree.ElementTree import Element, TreeBuilder

VOID = {"meta", "br", "hr", "img", "input", "link"}
# Elements of SVG that may end themselves.
SHAPES = {"rect", "path", "line"}
ACTIVE = {"script", "iframe", "object", "embed", "base", "form", "image"}
Attributes = list[tuple[str, str | None]]


class Page(HTMLParser):
    """A page by its elements. Each has to be ended in order, and each id to stand once: `faults` names what isn't so."""

    def __init__(self, text: str) -> None:
        super().__init__()
        self.faults: list[str] = []
        self._open: list[str] = []
        self._builder = TreeBuilder()
        self._builder.start("page", {})
        self.feed(text)
        self.close()
        self.faults += [f"<{tag}> isn't ended" for tag in self._open]
        for tag in [*reversed(self._open), "page"]:
            self._builder.end(tag)
        self.root: Element = self._builder.close()
        ids = Counter(element.get("id") for element in self.root.iter() if element.get("id"))
        self.faults += [f"the id {name} stands {count} times" for name, count in ids.items() if count > 1]

    def handle_starttag(self, tag: str, attrs: Attributes) -> None:
        """As `HTMLParser` calls it."""
        self._builder.start(tag, {name: value or "" for name, value in attrs})
        if tag in VOID | SHAPES:
            self._builder.end(tag)
        else:
            self._open.append(tag)

    def handle_startendtag(self, tag: str, attrs: Attributes) -> None:
        """As `HTMLParser` calls it."""
        if tag not in VOID | SHAPES:
            self.faults.append(f"<{tag}/> ends itself")
        self._builder.start(tag, {name: value or "" for name, value in attrs})
        self._builder.end(tag)

    def handle_endtag(self, tag: str) -> None:
        """As `HTMLParser` calls it."""
        if not self._open or self._open[-1] != tag:
            self.faults.append(f"</{tag}> in <{self._open[-1] if self._open else 'nothing'}>")
        else:
            self._builder.end(self._open.pop())

    def handle_data(self, data: str) -> None:
        """As `HTMLParser` calls it."""
        self._builder.data(data)

    def all(self, *tags: str) -> list[Element]:
        """The elements with one of these tags, in order; all, if none is named."""
        return [element for element in self.root.iter() if not tags or element.tag in tags]

    def texts(self) -> dict[str, str]:
        """What stands in the elements that have an id."""
        return {element.attrib["id"]: text_in(element) for element in self.all() if "id" in element.attrib}

    def marks(self) -> dict[str, str | None]:
        """Their marks, `data-mark`."""
        return {element.attrib["id"]: element.get("data-mark") for element in self.all() if "id" in element.attrib}


def text_in(element: Element) -> str:
    """All text of an element, but for styles."""
    return "".join(_texts_in(element))


def _texts_in(element: Element) -> Iterator[str]:
    if element.tag != "style":
        yield element.text or ""
        for child in element:
            yield from _texts_in(child)
            yield child.tail or ""


class ReportPage(Page):
    """A page of `tools/report`. It has no script and needs no other file; its tables have captions, its pictures titles."""

    def __init__(self, text: str) -> None:
        super().__init__(text)
        self.text = text_in(self.root)
        # By their captions; each row by the titles of its columns.
        self.tables: dict[str, list[dict[str, str]]] = {}
        for table in self.all("table"):
            self._take(table)
        self.pictures = self.all("svg")
        known = {element.get("id") for element in self.all()}
        self.faults += [fault for element in self.all() for fault in _faults_of(element, known)]

    def notices(self) -> list[str]:
        """What it says of urgent things."""
        return self._of_class("notice")

    def sums(self) -> list[str]:
        """The sums that are written out."""
        return self._of_class("sum")

    def _of_class(self, kind: str) -> list[str]:
        return [text_in(element) for element in self.all() if element.get("class", "").split(" ")[0] == kind]

    def _take(self, table: Element) -> None:
        caption = "".join(text_in(element) for element in table.iter("caption"))
        head, *rows = [[text_in(cell) for cell in row if cell.tag in ("th", "td")] for row in table.iter("tr")]
        self.tables[caption] = [dict(zip(head, row)) for row in rows]
        self.faults += [f"a row of {caption} has {len(row)} cells" for row in rows if len(row) != len(head)]
        self.faults += [] if caption else ["a table without a caption"]


def _faults_of(element: Element, known: set[str | None]) -> Iterator[str]:
    labels = element.get("aria-labelledby", "").split()
    yield from (f"there is no id {label}" for label in labels if label not in known)
    yield from (f"<{element.tag} {name}>" for name in element.attrib if name in ("src", "href", "action") or name.startswith("on"))
    if element.tag in ACTIVE:
        yield f"<{element.tag}>"
    if element.tag == "th" and element.get("scope") not in ("col", "row"):
        yield "a <th> without a scope"
    if element.tag == "html" and not element.get("lang"):
        yield "no language"
    if element.tag == "svg" and (element.get("role") != "img" or len(labels) != 2):
        yield "a picture without a title or a description"


def picture_kind(picture: Element) -> str:
    """In which way a picture draws the tree, by the id of its title."""
    return picture.get("aria-labelledby", "").split("-")[0]


def picture_texts(picture: Element) -> list[str]:
    """What stands in a picture."""
    return [text_in(text) for text in picture.iter("text")]


def picture_says(picture: Element, tag: str) -> str:
    """The title (`title`) or the description (`desc`) of a picture."""
    return "".join(text_in(element) for element in picture.iter(tag))
