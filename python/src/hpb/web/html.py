"""Parts of the site's pages. All text is escaped, and nothing is loaded from elsewhere."""
from collections.abc import Callable, Iterable, Mapping, Sequence
from typing import Final, TypeVar

from hpb.markup import Markup, element, joined
from hpb.rounds import Schedule
from hpb.pages.rounds import clock_says

STYLE: Final = "/site.css"
FORM: Final = "form"
NO_TEXT: Final = Markup("")
# So many rows stand in one table.
MOST_ROWS: Final = 32

Row = TypeVar("Row")


def without_end(tag: str, **attributes: object) -> Markup:
    """An element of HTML without an end tag."""
    return Markup(element(tag, **attributes).removesuffix(f"</{tag}>"))


def hidden(fields: Mapping[str, object]) -> Markup:
    """Fields of a form that nobody sees."""
    return joined(without_end("input", type="hidden", name=name, value=value) for name, value in fields.items())


def form(action: str, token: str, *inside: object, **fields: object) -> Markup:
    """A form of a session. Each has the session's token."""
    return element("form", hidden({FORM: token, **fields}), *inside, method="post", action=action)


def button(text: str, **attributes: object) -> Markup:
    """A button that sends its form."""
    return element("button", text, type="submit", **attributes)


def field(label: str, name: str, **attributes: object) -> Markup:
    """A labelled field of a form."""
    return element("label", element("span", label), without_end("input", name=name, **attributes))


def table(caption: str, columns: Sequence[str], rows: Iterable[Sequence[object]], marks: Sequence[str] = (), **attributes: object) -> Markup:
    """A table whose rows begin with their head. `marks` are those of the rows, if they have any."""
    head = element("tr", *(element("th", text, scope="col") for text in columns))
    made = [
        element("tr", element("th", first, scope="row"), *(element("td", cell) for cell in rest), data_mark=marks[place] if marks else None)
        for place, (first, *rest) in enumerate(rows)
    ]
    whole = element("table", element("caption", caption), element("thead", head), element("tbody", *made), **attributes)
    return element("div", whole, class_="scrolled", role="region", aria_label=caption, tabindex="0")


def in_halves(rows: Sequence[Row], caption: str, made: Callable[[Sequence[Row], str], Markup]) -> Markup:
    """Rows as a table. Of many, two tables stand side by side if there is room."""
    if len(rows) <= MOST_ROWS:
        return made(rows, caption)
    half = -(-len(rows) // 2)
    return element("div", made(rows[:half], caption), made(rows[half:], f"{caption}, the rest"), class_="halves")


def facts(pairs: Mapping[str, object]) -> Markup:
    """Names with their values."""
    return element("dl", *(element("div", element("dt", name), element("dd", value)) for name, value in pairs.items()), class_="facts")


def section(title: str, *inside: object, name: str) -> Markup:
    """A part of a page with its title."""
    return element("section", element("h2", title, id=f"{name}-title"), *inside, id=name, aria_labelledby=f"{name}-title")


def notice(text: object, mark: str = "warn") -> Markup:
    """Something that must not be missed: `warn`, `good` or `bad`."""
    return element("p", text, class_="notice", data_mark=mark, role="status" if mark == "good" else "alert")


def clock_line(schedule: Schedule) -> Markup:
    """The round clock in words, if there is one."""
    said = clock_says(schedule)
    return element("p", said, class_="clock", data_mark=schedule.state) if said else NO_TEXT


def page(title: str, heading: str, parts: Iterable[object], bar: object = NO_TEXT, refresh: int = 0) -> bytes:
    """A whole page. `bar` stands at its top. With `refresh` the browser loads it again after so many seconds."""
    head = element(
        "head",
        without_end("meta", charset="utf-8"),
        element("title", f"{heading} \N{EN DASH} {title}"),
        without_end("meta", name="viewport", content="width=device-width, initial-scale=1"),
        without_end("meta", name="color-scheme", content="light dark"),
        without_end("meta", http_equiv="refresh", content=refresh) if refresh else NO_TEXT,
        without_end("link", rel="stylesheet", href=STYLE),
    )
    skip = element("a", "To the content", href="#content", class_="skip")
    top = element("header", element("p", title, class_="title"), bar)
    body = element("body", skip, top, element("main", element("h1", heading), *parts, id="content"))
    return Markup("<!DOCTYPE html>\n" + element("html", head, body, lang="en")).encode()


def bar(name: str, role: str, token: str) -> Markup:
    """The name that is signed in, its pages, and the way out."""
    links = {"bidder": {"/bid": "Bid", "/drafts": "My bids", "/results": "Results"}, "auctioneer": {"/desk": "Desk", "/results": "Results"}}
    pages = links.get(role, {"/results": "Results"})
    nav = element("nav", *(element("a", text, href=path) for path, text in pages.items()), aria_label="Pages")
    return joined([nav, element("p", f"{name}, {role}", class_="who"), form("/signout", token, button("Sign out"))])
