"""The page of tools/board: its HTML, the events that keep it up to date, and the picture of the tree.

Everything that may change on the page is in a `Model`: texts, marks and lists by the names of elements. The page is written from a
model. An event carries the differences to the next model, so the page's script knows nothing about auctions. All text is escaped,
and the page loads nothing from elsewhere (`HEADERS`). A server of the page uses `Page.html`, `Page.assets`, `Page.picture` and
`Page.event`.
"""
import base64
import hashlib
import json
import pathlib
from collections.abc import Iterator, Sequence
from typing import Final

from hpb.amounts import counted
from hpb.drawing.tree import MOST_ROWS, whole_picture
from hpb.drawing.tree import STYLE as PICTURE_STYLE
from hpb.markup import Markup, element
from hpb.pages.model import BIDDER_FIELDS, NODE_FIELDS, SUMMARY, Model, digest
from hpb.pages.telling import NOBODY
from hpb.pages.view import View
from hpb.rounds import MOCK, NOTICE
from hpb.rules.mock import is_mock
from hpb.rules.tree import Tree
from hpb.rules.writing import definition_line

STATIC: Final = pathlib.Path(__file__).resolve().parent / "static"
_ASSETS = {"board.css": "text/css; charset=utf-8", "board.js": "text/javascript; charset=utf-8", "board.svg": "image/svg+xml"}
_ICON = "board.svg"
# A picture that is opened alone has no link to its icon; browsers then ask for this one.
ICONS: Final = {"favicon.ico": _ICON}
_POLICY = (
    "default-src 'none'; script-src 'self'; style-src 'self'; img-src 'self'; connect-src 'self'; base-uri 'none'; form-action 'none'; "
    "frame-ancestors 'none'; require-trusted-types-for 'script'; trusted-types 'none'"
)
_STYLE_DIGEST = base64.b64encode(hashlib.sha256(PICTURE_STYLE.encode()).digest()).decode()
PICTURE_POLICY: Final = f"default-src 'none'; style-src 'sha256-{_STYLE_DIGEST}'; frame-ancestors 'none'"
HEADERS: Final = {
    "Content-Security-Policy": _POLICY,
    "X-Content-Type-Options": "nosniff",
    "Referrer-Policy": "no-referrer",
    "Cross-Origin-Resource-Policy": "same-origin",
    "Cache-Control": "no-store",
}

PICTURE: Final = "tree.svg"
_NODE_COLUMNS = ("High bid", "Minimum", "Price", "Wins")


def _without_end(tag: str, **attributes: object) -> Markup:
    """An element of HTML without an end tag, besides those that `element` knows."""
    return Markup(element(tag, **attributes).removesuffix(f"</{tag}>"))


class Page:
    """The page for one definition and these bidders."""

    def __init__(self, tree: Tree, bidders: Sequence[str]) -> None:
        self.tree, self.bidders = tree, bidders
        self.is_mock = is_mock(tree.definition)
        self.title = f"{MOCK} auction" if self.is_mock else "Auction"
        self.assets = {name: (kind, (STATIC / name).read_bytes()) for name, kind in _ASSETS.items()}
        told = json.dumps([definition_line(tree.definition), list(bidders)]).encode()
        # If a page was loaded from another program or for another auction, it reloads itself.
        parts = [pathlib.Path(__file__).read_bytes(), told, *(data for _, data in self.assets.values())]
        self.mark = digest(b"".join(parts))

    def picture(self, view: View) -> bytes | None:
        """The tree as an SVG file, or None while nothing is known."""
        return whole_picture(self.tree, view.seen.standing).encode() if view.seen else None

    def event(self, old: Model | None, new: Model, said: str = "") -> bytes:
        """The event that tells the page what differs. Without an old model, it carries everything."""
        told: dict[str, object] = {"page": self.mark, "picture": new.picture, "said": said}
        for part in ("texts", "marks", "lists"):
            known = getattr(old, part) if old else {}
            told[part] = {name: value for name, value in getattr(new, part).items() if known.get(name) != value}
        return f"event: change\ndata: {json.dumps(told)}\n\n".encode()

    def html(self, model: Model) -> bytes:
        """The whole page for a model."""
        head = element(
            "head",
            element("meta", charset="utf-8"),
            element("title", self.title),
            element("meta", name="viewport", content="width=device-width, initial-scale=1"),
            element("meta", name="color-scheme", content="light dark"),
            _without_end("link", rel="icon", href=_ICON, type="image/svg+xml"),
            _without_end("link", rel="stylesheet", href="board.css"),
            element("script", src="board.js", defer="defer"),
        )
        body = element("body", *self._head_of(model), self._main_of(model), self._foot_of())
        return Markup("<!DOCTYPE html>\n" + element("html", head, body, lang="en", data_page=self.mark)).encode()

    def _head_of(self, model: Model) -> Iterator[Markup]:
        links = {**({"own": "My bidders"} if self.bidders else {}), "changes": "What changed", "tree": "The tree"}
        yield element(
            "nav", *(element("a", text, href=f"#{name}") for name, text in links.items()), class_="skip", aria_label="On this page"
        )
        summary = [element("div", element("dt", text), element("dd", model.texts[name], id=name)) for name, text in SUMMARY.items()]
        yield element(
            "header",
            element("h1", self.title),
            *([element("p", NOTICE, id="mock", class_="mock")] if self.is_mock else []),
            _marked(model, "p", "contact", class_="contact"),
            _marked(model, "p", "rounds", class_="rounds"),
            _marked(model, "p", "seal", class_="rounds"),
            _listed(model, "news-list", "News of the auctioneer and the round clock"),
            element("dl", *summary, class_="summary"),
            _marked(model, "p", "outlook", class_="outlook"),
            element("noscript", element("p", "Without scripts this page doesn't follow: load it again to see changes.")),
        )

    def _foot_of(self) -> Markup:
        clock = element(
            "p", "The board was last heard at ", element("span", NOBODY, id="clock"), ". It asks questions alone, and sends no command."
        )
        return element("footer", clock, element("p", id="said", class_="quiet", aria_live="polite"))

    def _main_of(self, model: Model) -> Markup:
        beside = element("div", *self._own_of(model), self._changes_of(model), class_="beside")
        return element("main", beside, element("div", self._tree_of(model), self._picture_of(model)))

    def _own_of(self, model: Model) -> Iterator[Markup]:
        if self.bidders:
            cards = [self._card(model, name) for name in self.bidders]
            yield _section("own", "My bidders", element("div", *cards, class_="cards"))

    def _card(self, model: Model, name: str) -> Markup:
        rows = [
            element("div", element("dt", text), element("dd", model.texts[f"bidder-{name}-{field}"], id=f"bidder-{name}-{field}"))
            for field, text in BIDDER_FIELDS.items()
        ]
        told = element("p", model.texts[f"bidder-{name}-outlook"], id=f"bidder-{name}-outlook", class_="told")
        mark = model.marks.get(f"bidder-{name}", "")
        return element("article", element("h3", name), told, element("dl", *rows), id=f"bidder-{name}", data_mark=mark)

    def _changes_of(self, model: Model) -> Markup:
        return _section(
            "changes",
            "What changed",
            element("h3", "The last close"),
            element("p", model.texts["closes"], id="closes"),
            _listed(model, "close-list", "What the last close changed"),
            element("h3", "Since then"),
            _listed(model, "round-list", "What changed since the last close"),
        )

    def _tree_of(self, model: Model) -> Markup:
        head = element("tr", *(element("th", text, scope="col", role="columnheader") for text in ("Node", *_NODE_COLUMNS)), role="row")
        caption = element("caption", "Results of closed rounds. If the last close changed a value, its earlier one stands with it.")
        table = element(
            "table",
            caption,
            element("thead", head, role="rowgroup"),
            element("tbody", *(self._row(model, name) for name in self.tree.nodes), role="rowgroup"),
            role="table",
        )
        return _section("tree", "The tree", table)

    def _row(self, model: Model, name: str) -> Markup:
        """Levels are given in words too. The roles keep it a table even when it is laid out as cards."""
        node = self.tree.nodes[name]
        kind = f"{'licence' if node.is_licence else 'package'}, {counted(self.tree.units[name], 'unit')}"
        within = element("span", f" in {node.parent}" if node.parent else " at the top", class_="quiet")
        first = element(
            "th",
            element("span", name, class_="name"),
            within,
            element("small", kind),
            scope="row",
            role="rowheader",
            class_=f"level-{self.tree.level[name]}",
        )
        cells = [
            element(
                "td",
                element("span", text, class_="label", aria_hidden="true"),
                element("span", model.texts[(key := f"node-{name}-{field}")], id=key),
                element("small", model.texts[f"{key}-was"], id=f"{key}-was"),
                role="cell",
                class_=field,
            )
            for field, text in zip(NODE_FIELDS, _NODE_COLUMNS)
        ]
        return element("tr", first, *cells, id=f"node-{name}", role="row", data_mark=model.marks.get(f"node-{name}", ""))

    def _picture_of(self, model: Model) -> Markup:
        alt = "The tree as a picture; the table has all that it shows"
        image = _without_end("img", src=f"{PICTURE}?{model.picture}", alt=alt, id="picture-image")
        # A picture higher than a screen is shown only on request.
        is_open = "open" if len(self.tree.all_licences) <= MOST_ROWS else None
        scrolled = element("div", image, class_="picture", role="region", aria_label="Picture", tabindex="0")
        return _section(
            "picture", "The tree as a picture", element("details", element("summary", "Shown or hidden"), scrolled, open=is_open)
        )


def _section(name: str, title: str, *inside: Markup) -> Markup:
    return element("section", element("h2", title, id=f"{name}-title"), *inside, id=name, aria_labelledby=f"{name}-title")


def _marked(model: Model, tag: str, name: str, **attributes: str) -> Markup:
    return element(tag, model.texts[name], id=name, data_mark=model.marks.get(name, ""), **attributes)


def _listed(model: Model, name: str, label: str) -> Markup:
    """A list that can be scrolled with the keyboard."""
    return element("ul", *(element("li", text) for text in model.lists[name]), id=name, aria_label=label, tabindex="0")
