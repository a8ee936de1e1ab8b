"""A picture of the tree of packages and licences, in columns or as an outline. A page may show it smaller."""
from collections.abc import Iterator
from typing import ClassVar, Final

from hpb.amounts import money
from hpb.lines import NodeShown
from hpb.markup import Markup, element
from hpb.rounds import MOCK
from hpb.rules.mock import is_mock
from hpb.rules.told import Told
from hpb.rules.tree import Tree

# The number of rows that fit on a sheet of paper.
MOST_ROWS: Final = 20
STYLE: Final = """
.tree-picture { font: 12px ui-monospace, "DejaVu Sans Mono", monospace; color: #1a1f24; }
.tree-picture text { fill: currentColor; }
.tree-picture rect { fill: #f3f5f7; stroke: #9aa5b1; }
.tree-picture .wins rect { fill: #d5efdc; stroke: #1f6f3f; stroke-width: 2; }
.tree-picture .name { font-weight: bold; }
@media screen and (prefers-color-scheme: dark) {
.tree-picture { color: #e6e9ec; }
.tree-picture rect { fill: #242a31; stroke: #65707c; }
.tree-picture .wins rect { fill: #17452a; stroke: #5fc486; }
}
"""

# In pixels.
_CHARACTER, _LINE, _ROW, _GAP, _MARGIN, _INDENT = 7.3, 16, 42, 4, 8, 14
# How wide a tree in columns may be on a narrow screen, and on paper.
_MOST_NARROW, _MOST_WIDE = 440, 900
_WINS, _GOES_ON = " \N{CHECK MARK} wins", " \N{HORIZONTAL ELLIPSIS}"

# Name, bid, price and minimum of a node.
_Texts = tuple[str, str, str, str]


class Picture:
    """A tree in rows, cut into parts that each fit on a sheet of paper."""

    kind: ClassVar[str] = ""
    width: int

    def __init__(self, tree: Tree, told: Told, most_rows: int = MOST_ROWS) -> None:
        """`told` has to be of the tree's definition."""
        self.tree, self.told = tree, told
        self.texts = {name: _texts_of(node) for name, node in told.nodes.items()}
        # For each node, its first row and the row after its last.
        self.rows: dict[str, tuple[int, int]] = {}
        self.count = 0
        for name in tree.tops:
            self.count = self._place(name, self.count)
        cuts = self._cuts(most_rows)
        self._spans = list(zip(cuts, cuts[1:]))

    def parts(self) -> Iterator[Markup]:
        """Each part as an SVG element, from the top down."""
        for number in range(1, len(self._spans) + 1):
            yield self.part(number)

    def part(self, number: int, style: str | None = None) -> Markup:
        """One part, counted from 1. It may have a style of its own."""
        first, last = self._spans[number - 1]
        height = (last - first) * _ROW - _GAP
        mock = [_text(0, height, 0, f"{MOCK} auction")] if is_mock(self.tree.definition) else []
        height += _LINE * len(mock) + _GAP * len(mock)
        title = f"{f'{MOCK} auction: the' if mock else 'The'} tree of packages and licences" + (f", part {number} of {len(self._spans)}" if len(self._spans) > 1 else "")
        told = "; ".join(", ".join(self.texts[name]) for name in self.tree.nodes if self._is_told(name, first, last))
        ids = [f"{self.kind}-{number}-{what}" for what in ("title", "desc")]
        return element(
            "svg", element("title", title, id=ids[0]), element("desc", told, id=ids[1]),
            *([element("style", Markup(style))] if style else []),
            *(self._box(name, first, last) for name in self.tree.nodes if self._overlap(name, first, last)), *mock,
            xmlns="http://www.w3.org/2000/svg", viewBox=f"-1 -1 {self.width + 2} {height + 2}", width=self.width + 2, height=height + 2,
            role="img", class_="tree-picture", aria_labelledby=" ".join(ids),
        )

    def _place(self, name: str, first: int) -> int:
        """Gives rows to a node and to all nodes under it, and returns the row after them."""
        raise NotImplementedError

    def _sides(self, name: str) -> tuple[int, int]:
        """The left and right edges of a node's box."""
        raise NotImplementedError

    def _lines(self, name: str, top: int) -> Iterator[Markup]:
        """The texts in a node's box."""
        raise NotImplementedError

    def _cuts(self, most_rows: int) -> list[int]:
        """The first row of each part, and the row after the last part. Each cut is made at the row with the least harm (`_harm`)."""
        cuts = [0]
        while self.count - cuts[-1] > most_rows:
            choices = range(cuts[-1] + most_rows // 2, cuts[-1] + most_rows + 1)
            cuts.append(min(choices, key=lambda row: (self._harm(row), -row)))
        return [*cuts, self.count]

    def _harm(self, row: int) -> int:
        """How many nodes a cut before this row goes through."""
        return sum(1 for first, last in self.rows.values() if first < row < last)

    def _overlap(self, name: str, first: int, last: int) -> int:
        return max(0, min(last, self.rows[name][1]) - max(first, self.rows[name][0]))

    def _is_told(self, name: str, first: int, last: int) -> bool:
        """Whether a node's texts stand in this part: they stand in the part that has most of its rows."""
        return first == max(self._spans, key=lambda span: (self._overlap(name, *span), -span[0]))[0]

    def _box(self, name: str, first: int, last: int) -> Markup:
        left, right = self._sides(name)
        top = (max(self.rows[name][0], first) - first) * _ROW
        height = self._overlap(name, first, last) * _ROW - _GAP
        rect = element("rect", x=left, y=top, width=right - left, height=height, rx=3)
        texts = self._lines(name, top) if self._is_told(name, first, last) else iter([_text(left + _MARGIN, top, 0, name + _GOES_ON)])
        return element("g", rect, *texts, class_="wins" if self.told.nodes[name].wins else None)

    def _two_lines(self, name: str, left: int, top: int) -> Iterator[Markup]:
        """Two lines, each with a text at the left and one at the right: name and bid, price and minimum."""
        for place, (first, second) in enumerate(_pairs(self.texts[name])):
            yield _text(left, top, place, first)
            yield element("text", second, x=self.width - _MARGIN, y=top + _LINE * (place + 1), text_anchor="end")

    def _room_for_two_lines(self, name: str) -> int:
        return max(_breadth(first + "  " + second) for first, second in _pairs(self.texts[name])) + 2 * _MARGIN


class Columns(Picture):
    """A column for each level and a row for each licence. A package is as high as its licences together."""

    kind = "columns"

    def __init__(self, tree: Tree, told: Told, most_rows: int = MOST_ROWS) -> None:
        super().__init__(tree, told, most_rows)
        packages = [name for name, node in tree.nodes.items() if not node.is_licence]
        self.columns = [0]
        for level in range(1, max((tree.level[name] for name in packages), default=0) + 1):
            most = max(_breadth(text) for name in packages if tree.level[name] == level for text in self.texts[name])
            self.columns.append(self.columns[-1] + most + 2 * _MARGIN + _GAP)
        self.width = self.columns[-1] + max(self._room_for_two_lines(name) for name in tree.all_licences)

    def _place(self, name: str, first: int) -> int:
        behind = first + self.tree.nodes[name].is_licence
        for child in self.tree.children[name]:
            behind = self._place(child, behind)
        self.rows[name] = (first, behind)
        return behind

    def _harm(self, row: int) -> int:
        """A cut through a package of two licences leaves no room for its texts in either part, so it counts 100."""
        return sum(100 if last - first == 2 else 1 for first, last in self.rows.values() if first < row < last)

    def _sides(self, name: str) -> tuple[int, int]:
        level = self.tree.level[name]
        return self.columns[level - 1], self.width if self.tree.nodes[name].is_licence else self.columns[level] - _GAP

    def _lines(self, name: str, top: int) -> Iterator[Markup]:
        if self.tree.nodes[name].is_licence:
            yield from self._two_lines(name, self.columns[-1] + _MARGIN, top)
            return
        for place, text in enumerate(self.texts[name]):
            yield _text(self._sides(name)[0] + _MARGIN, top, place, text)


class Outline(Picture):
    """A row for each node. The nodes under a package stand below it, indented."""

    kind = "outline"

    def __init__(self, tree: Tree, told: Told, most_rows: int = MOST_ROWS) -> None:
        super().__init__(tree, told, most_rows)
        self.width = max(self._left(name) + self._room_for_two_lines(name) for name in tree.nodes)

    def _place(self, name: str, first: int) -> int:
        self.rows[name] = (first, first + 1)
        behind = first + 1
        for child in self.tree.children[name]:
            behind = self._place(child, behind)
        return behind

    def _left(self, name: str) -> int:
        return _INDENT * (self.tree.level[name] - 1)

    def _sides(self, name: str) -> tuple[int, int]:
        return self._left(name), self.width

    def _lines(self, name: str, top: int) -> Iterator[Markup]:
        return self._two_lines(name, self._left(name) + _MARGIN, top)


def pictures(tree: Tree, told: Told) -> list[Picture]:
    """The tree in columns, or as an outline if the columns are too wide. If only a narrow screen has no room for the columns, both."""
    columns = Columns(tree, told)
    if columns.width <= _MOST_NARROW:
        return [columns]
    outline = Outline(tree, told)
    return [columns, outline] if columns.width <= _MOST_WIDE else [outline]


def whole_picture(tree: Tree, told: Told) -> str:
    """The whole tree in one part with its own style, as an SVG file."""
    kind = type(pictures(tree, told)[0])
    return kind(tree, told, most_rows=len(tree.nodes)).part(1, STYLE) + "\n"


def bid_of(node: NodeShown) -> str:
    """A high bid in words. A front may hide whose it is."""
    if node.bidder:
        return f"{money(node.high)} of {node.bidder}"
    return money(node.high) if node.high else "no bid"


def _texts_of(node: NodeShown) -> _Texts:
    bid = bid_of(node)
    return node.name + (_WINS if node.wins else ""), bid, f"price {money(node.price)}", f"minimum {money(node.minimum)}"


def _pairs(texts: _Texts) -> tuple[tuple[str, str], tuple[str, str]]:
    name, bid, price, minimum = texts
    return (name, bid), (price, minimum)


def _breadth(text: str) -> int:
    return round(len(text) * _CHARACTER)


def _text(x: int, top: int, place: int, text: str) -> Markup:
    return element("text", text, x=x, y=top + _LINE * (place + 1), class_="name" if place == 0 else None)
