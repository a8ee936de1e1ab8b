"""Parts of a page that is read, printed and checked by adding up: tables, sections and paragraphs. `report.css` gives their layout."""
from collections.abc import Collection, Iterator, Mapping, Sequence
from dataclasses import dataclass
from typing import TypeAlias

from hpb.amounts import money
from hpb.markup import Markup, element

# Tables with at most so many rows aren't broken over two sheets.
_MOST_SHORT = 12
# If a table's longest words need more characters than this side by side, it is set in small letters.
_MOST_BROAD = 75

# The first cell names the row's subject.
Row: TypeAlias = Sequence[str | int]


@dataclass(frozen=True, slots=True)
class Column:
    """A table's column: its title and kind. The kinds are numbers, names and other text, and a few words that are better not broken
    (`phrase`).
    """

    title: str
    kind: str = "number"


def text_column(title: str) -> Column:
    """A column of names and other text."""
    return Column(title, "text")


def table(caption: str, columns: Sequence[Column], rows: Sequence[Row], last: Row | None = None, marked: Collection[str] = ()) -> Markup:
    """A table with at least one row. Rows whose first text is in `marked` stand out; `last` is a row below the others. On a narrow
    screen a row becomes a list, with the titles before the values.
    """
    head = element("tr", *(_cell("th", column, column.title, scope="col", role="columnheader") for column in columns), role="row")
    body = (element("tr", *_cells(columns, row), role="row", class_="marked" if row[0] in marked else None) for row in rows)
    parts = [
        element("caption", caption), element("thead", head, role="rowgroup"), element("tbody", *body, role="rowgroup"),
        *([element("tfoot", element("tr", *_cells(columns, last), role="row"), role="rowgroup")] if last else []),
    ]
    names = ["short"] * (len(rows) <= _MOST_SHORT) + ["dense"] * (_breadth_of(columns, rows) > _MOST_BROAD)
    return element("table", *parts, role="table", class_=" ".join(names) or None)


def _breadth_of(columns: Sequence[Column], rows: Sequence[Row]) -> int:
    """The number of characters in the longest words of all columns together."""
    return sum(max(len(word) for row in rows for word in str(row[place]).split()) for place in range(len(columns)))


def _cells(columns: Sequence[Column], row: Row) -> Iterator[Markup]:
    for place, (column, value) in enumerate(zip(columns, row)):
        if place:
            yield _cell("td", column, value, role="cell", data_label=column.title)
        else:
            yield _cell("th", column, value, scope="row", role="rowheader")


def _cell(tag: str, column: Column, value: str | int, **attributes: str) -> Markup:
    return element(tag, money(value) if isinstance(value, int) else value, class_=column.kind, **attributes)


def section(name: str, title: str, *parts: object) -> Markup:
    """A part of the page, with a heading and a name for links."""
    return element("section", element("h2", title, id=name), *parts, aria_labelledby=name)


def paragraph(*parts: object, **attributes: object) -> Markup:
    """Texts one after the other."""
    return element("p", *parts, **attributes)


def strong(text: str) -> Markup:
    """A text that stands out."""
    return element("strong", text)


def notice(*parts: object, is_fault: bool) -> Markup:
    """Something that a reader has to see first: a fault, or a warning."""
    return paragraph(*parts, class_="notice fault" if is_fault else "notice warning", role="note")


def sum_of(amounts: Mapping[str, int]) -> str:
    """The amounts of these nodes, as a sum."""
    return " + ".join(f"{name} {money(amount)}" for name, amount in amounts.items()) if amounts else "0"


def equation(amounts: Mapping[str, int], wanted: int) -> Markup:
    """The sum of these amounts. If it should be another number, that is said too."""
    together = sum(amounts.values())
    is_right = together == wanted
    told = f"{sum_of(amounts)} = {money(together)}"
    return paragraph(told, "" if is_right else f", and the revenue is {money(wanted)}", class_="sum" if is_right else "sum fault")
