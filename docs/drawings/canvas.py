"""A drawing: boxes, lines and texts, in a light and a dark scheme of colours."""
from collections.abc import Sequence
from dataclasses import dataclass
from typing import Final

from drawings.measure import SIZES, breadth, size_of, wrapped
from hpb.markup import Markup, element, joined

# The width of a page's text.
WIDTH: Final = 800
MARGIN: Final = 16
_LINE: Final = 1.35
_HEAD: Final = 7
_SANS: Final = 'system-ui, -apple-system, "Segoe UI", Roboto, "DejaVu Sans", sans-serif'
_MONO: Final = 'ui-monospace, "SFMono-Regular", Menlo, Consolas, "DejaVu Sans Mono", monospace'

# The fill and the edge of each kind, in the light scheme and in the dark one.
_KINDS: Final = {
    "plain": ("#f3f5f7", "#7d8894", "#232a32", "#76828f"),
    "faint": ("#ffffff", "#a4aeb8", "#161b21", "#5c6873"),
    "thread": ("#dfeafa", "#2b62ad", "#17324f", "#6aa6ee"),
    "kept": ("#d9f0e0", "#1f6f3f", "#16402a", "#5fc486"),
    "torn": ("#fdefcc", "#946400", "#453410", "#e0b04a"),
    "lost": ("#fbe0dc", "#a8321f", "#4a1d17", "#ef8b7b"),
    "lock": ("#ece4f7", "#6a3d9a", "#33244a", "#b493e6"),
    "test": ("#ece4f7", "#6a3d9a", "#33244a", "#b493e6"),
}
_LIGHT: Final = {"paper": "#ffffff", "ink": "#1a1f24", "soft": "#4a545f"}
_DARK: Final = {"paper": "#12161b", "ink": "#e6e9ec", "soft": "#aeb8c2"}


@dataclass(frozen=True, slots=True)
class Box:
    """A rectangle, in pixels from the left and from the top."""

    left: float
    top: float
    width: float
    height: float

    @property
    def right(self) -> float:
        """Its right edge."""
        return self.left + self.width

    @property
    def bottom(self) -> float:
        """Its lower edge."""
        return self.top + self.height

    @property
    def middle(self) -> float:
        """Halfway from the left to the right."""
        return self.left + self.width / 2

    @property
    def centre(self) -> float:
        """Halfway from the top to the bottom."""
        return self.top + self.height / 2

    def inset(self, by: float) -> "Box":
        """A box that is smaller by so many pixels on each side."""
        return Box(self.left + by, self.top + by, self.width - 2 * by, self.height - 2 * by)


class Canvas:
    """A drawing that grows downwards. Title and description are for readers who don't see it."""

    def __init__(self, name: str, title: str, description: str) -> None:
        """`name` is the name of its file, without `.svg`."""
        self.name, self._title, self._description = name, title, description
        self._parts: list[Markup] = []

    def box(self, box: Box, kind: str = "plain", looks: str = "", radius: int = 4) -> Box:
        """A rectangle of a kind. With `dashed` among its looks, its edge is dashed."""
        classes = f"{kind} {looks}".strip()
        self._parts.append(element("rect", **_numbers(x=box.left, y=box.top, width=box.width, height=box.height, rx=radius), class_=classes))
        return box

    def text(self, left: float, base: float, text: str, looks: str = "") -> None:
        """One line of text that begins at `left`. With `middle` or `end` among its looks, it stands around or before that place."""
        width = breadth(text, looks)
        before = width / 2 if "middle" in looks.split() else width if "end" in looks.split() else 0
        if left - before < 0 or left - before + width > WIDTH:
            raise ValueError(f"{self.name}: no room for {text!r}")
        self._parts.append(element("text", text, **_numbers(x=left, y=base), class_=looks or None))

    def paragraph(self, box: Box, text: str, looks: str = "") -> float:
        """A text that begins at the top of a box and takes as many lines as it needs. Returns the top of the next line."""
        step = round(size_of(looks) * _LINE)
        left = box.middle if "middle" in looks.split() else box.left
        base = box.top + size_of(looks)
        for line in wrapped(text, box.width, looks):
            self.text(left, base, line, looks)
            base += step
        if base - step > box.bottom + 0.5:
            raise ValueError(f"{self.name}: {text!r} is {base - step - box.bottom:.0f} pixels too high")
        return base - size_of(looks)

    def label(self, box: Box, text: str, looks: str = "") -> None:
        """A text in the middle of a box, in lines that fit into it. With `beginning` among its looks, the lines start at the box's
        left side.
        """
        is_middle = "beginning" not in looks.split()
        lines = list(wrapped(text, box.width - (6 if is_middle else 0), looks))
        step = round(size_of(looks) * _LINE)
        if step * len(lines) > box.height + 4:
            raise ValueError(f"{self.name}: {text!r} is too high for its box")
        base = box.centre - step * (len(lines) - 1) / 2 + size_of(looks) * 0.36
        for line in lines:
            self.text(box.middle if is_middle else box.left, base, line, f"{looks} middle".strip() if is_middle else looks.replace("beginning", "").strip())
            base += step

    def card(self, box: Box, name: str, text: str, kind: str = "plain") -> None:
        """A box with a name above a text."""
        inner = self.box(box, kind).inset(8)
        behind = self.paragraph(Box(inner.left, inner.top - 2, inner.width, inner.height), name, "name")
        if text:
            self.paragraph(Box(inner.left, behind + 1, inner.width, inner.bottom + 4 - behind), text, "small")

    def line(self, points: Sequence[tuple[float, float]], looks: str = "") -> None:
        """A line from point to point."""
        path = " L".join(f"{_number(x)} {_number(y)}" for x, y in points)
        self._parts.append(element("path", d=f"M{path}", class_=f"line {looks}".strip()))

    def arrow(self, points: Sequence[tuple[float, float]], looks: str = "") -> None:
        """A line with a head at its last point. Its last stretch is level or upright."""
        (x, y), (end, low) = points[-2], points[-1]
        dx, dy = (end > x) - (end < x), (low > y) - (low < y)
        self.line([*points[:-1], (end - dx * (_HEAD - 2), low - dy * (_HEAD - 2))], looks)
        back, side = (end - dx * _HEAD, low - dy * _HEAD), (dy * _HEAD / 2, dx * _HEAD / 2)
        corners = [(end, low), (back[0] + side[0], back[1] + side[1]), (back[0] - side[0], back[1] - side[1])]
        path = " L".join(f"{_number(a)} {_number(b)}" for a, b in corners)
        head = " ".join(look for look in looks.split() if look != "dashed")
        self._parts.append(element("path", d=f"M{path} Z", class_=f"head {head}".strip()))

    def badge(self, left: float, centre: float, text: str) -> float:
        """A number in a circle, whose left edge is given. Returns the left edge of a text behind it."""
        width = max(18.0, breadth(text, "small") + 10)
        self.box(Box(left, centre - 9, width, 18), "badge", radius=9)
        self.text(left + width / 2, centre + 4, text, "small middle")
        return left + width + 7

    def legend(self, top: float, entries: Sequence[tuple[str, str]]) -> None:
        """The meaning of each kind of box, in a row."""
        left = float(MARGIN)
        for kind, text in entries:
            self.box(Box(left, top, 16, 12), kind, radius=2)
            self.text(left + 22, top + 10, text, "small soft")
            left += 22 + breadth(text, "small") + 20

    def drawn(self, height: float) -> str:
        """The SVG file, `height` pixels high."""
        ids = {part: f"{self.name}-{part}" for part in ("title", "desc")}
        head = [
            element("title", self._title, id=ids["title"]), element("desc", self._description, id=ids["desc"]),
            element("style", Markup(_style())),
            element("rect", **_numbers(x=0.5, y=0.5, width=WIDTH - 1, height=height - 1, rx=6), class_="paper"),
        ]
        size = _numbers(width=WIDTH, height=height)
        return element(
            "svg", *head, joined(Markup(f"\n{part}") for part in self._parts), Markup("\n"),
            xmlns="http://www.w3.org/2000/svg", viewBox=f"0 0 {_number(WIDTH)} {_number(height)}", **size,
            role="img", aria_labelledby=" ".join(ids.values()),
        ) + "\n"


def _number(value: float) -> str:
    return f"{value:.1f}".removesuffix(".0")


def _numbers(**values: float) -> dict[str, object]:
    return {name: _number(value) for name, value in values.items()}


def _colours(is_dark: bool) -> list[str]:
    plain = _DARK if is_dark else _LIGHT
    rules = [
        f".paper {{ fill: {plain['paper']}; stroke: {_KINDS['faint'][3 if is_dark else 1]}; }}",
        f"text {{ fill: {plain['ink']}; }} .soft {{ fill: {plain['soft']}; }}",
        f".line {{ stroke: {plain['soft']}; }} .head {{ fill: {plain['soft']}; }}",
        f".badge {{ fill: {plain['paper']}; stroke: {plain['soft']}; }}",
    ]
    for kind, colours in _KINDS.items():
        fill, edge = colours[2:] if is_dark else colours[:2]
        rules.append(f"rect.{kind} {{ fill: {fill}; stroke: {edge}; }}")
        rules.append(f".line.{kind} {{ stroke: {edge}; }} .head.{kind} {{ fill: {edge}; }}")
    return rules


def _style() -> str:
    rules = [
        f"text {{ font: {SIZES['plain']}px {_SANS}; }}",
        f".small {{ font-size: {SIZES['small']}px; }} .heading {{ font-size: {SIZES['heading']}px; font-weight: bold; }}",
        f".name {{ font-weight: bold; }} .code {{ font-family: {_MONO}; }}",
        ".middle { text-anchor: middle; } .end { text-anchor: end; }",
        ".line { fill: none; stroke-width: 1.5; } .thick { stroke-width: 3; } .dashed { stroke-dasharray: 4 3; }",
        *_colours(is_dark=False), "@media (prefers-color-scheme: dark) {", *_colours(is_dark=True), "}",
    ]
    return "\n" + "\n".join(rules) + "\n"
