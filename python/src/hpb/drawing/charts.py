"""Lines over rounds as SVG."""
from collections.abc import Iterator, Mapping, Sequence
from typing import Final

from hpb.amounts import money
from hpb.markup import Markup, element, joined

# In pixels.
_WIDTH, _LEFT, _RIGHT, _TOP, _BOTTOM, _GAP = 960, 120, 170, 34, 34, 16
_LEAST_HEIGHT, _LABEL = 180, 13
_MOST_TICKS = 10
_COLOURS: Final = ["#1f5fa8", "#b3402e", "#2c7a46", "#8a5a00", "#6a3d9a", "#007c89", "#a3336f", "#55600d", "#444c56", "#c05a00"]
_DASHES: Final = [None, "6 3", "2 3", "8 3 2 3", "12 4", "1 2", "4 4"]
_STYLE: Final = """
.rounds { font: 12px system-ui, "DejaVu Sans", sans-serif; background: #fff; }
.rounds text { fill: #1a1f24; }
.rounds .title { font-size: 15px; font-weight: bold; }
.rounds .grid { stroke: #d5dae0; }
.rounds .series { fill: none; stroke-width: 2; }
"""


class Panel:
    """A chart. Each series has one value from before the first close, and one for each close. Values are whole numbers from 0 up."""

    def __init__(self, title: str, unit: str, series: Mapping[str, Sequence[int]]) -> None:
        """All series have the same number of values, at least one."""
        self.title, self.unit, self.series = title, unit, series
        self.height = max(_LEAST_HEIGHT, _LABEL * len(series))
        self._most = _rounded_up(max((value for values in series.values() for value in values), default=0))
        self._last = max(len(values) for values in series.values()) - 1

    def drawn(self, at: int) -> Markup:
        """The chart, `at` pixels below the top of a picture."""
        parts = [element("text", f"{self.title}, in {self.unit}", x=_LEFT, y=18, class_="title")]
        parts += [*self._amounts(), *self._rounds()]
        ends = self._label_places()
        for place, (name, values) in enumerate(self.series.items()):
            parts.append(self._line(place, name, values))
            parts.append(element("text", name, x=self._x(self._last) + 8, y=ends[name] + 4, style=f"fill: {_colour(place)}"))
        return element("g", *parts, transform=f"translate(0 {at})")

    def _x(self, place: int) -> int:
        return _LEFT + (_WIDTH - _LEFT - _RIGHT) * place // max(self._last, 1)

    def _y(self, value: int) -> int:
        return _TOP + self.height - self.height * value // self._most

    def _line(self, place: int, name: str, values: Sequence[int]) -> Markup:
        points = " L".join(f"{self._x(number)} {self._y(value)}" for number, value in enumerate(values))
        shown = element("title", f"{name}: {', '.join(money(value) for value in values)}")
        dash = _DASHES[place // len(_COLOURS) % len(_DASHES)]
        return element("g", shown, element("path", d=f"M{points}", class_="series", stroke=_colour(place), stroke_dasharray=dash))

    def _amounts(self) -> Iterator[Markup]:
        for fifth in range(6):
            value = self._most * fifth // 5
            yield element("line", x1=_LEFT, y1=self._y(value), x2=_WIDTH - _RIGHT, y2=self._y(value), class_="grid")
            yield element("text", money(value), x=_LEFT - 8, y=self._y(value) + 4, text_anchor="end")

    def _rounds(self) -> Iterator[Markup]:
        step = -(-max(self._last, 1) // _MOST_TICKS)
        for place in range(0, self._last + 1, step):
            text = "start" if place == 0 else f"round {place}" if place == step else str(place)
            yield element("text", text, x=self._x(place), y=_TOP + self.height + 18, text_anchor="middle")

    def _label_places(self) -> dict[str, int]:
        """Each name stands beside the end of its line, or as near to it as the other names allow."""
        order = sorted(self.series, key=lambda name: self._y(self.series[name][-1]))
        places, free = dict[str, int](), _TOP
        for left, name in zip(range(len(order), 0, -1), order):
            lowest = _TOP + self.height - _LABEL * (left - 1)
            places[name] = max(free, min(self._y(self.series[name][-1]), lowest))
            free = places[name] + _LABEL
        return places


def picture(title: str, panels: Sequence[Panel]) -> str:
    """Panels one below the other, as an SVG file."""
    at, parts = 0, list[Markup]()
    for panel in panels:
        parts.append(panel.drawn(at))
        at += _TOP + panel.height + _BOTTOM + _GAP
    head = [element("title", title), element("style", _STYLE)]
    view = f"0 0 {_WIDTH} {at}"
    return element("svg", *head, joined(parts), xmlns="http://www.w3.org/2000/svg", viewBox=view, class_="rounds", role="img") + "\n"


def _colour(place: int) -> str:
    return _COLOURS[place % len(_COLOURS)]


def _rounded_up(value: int) -> int:
    """The least number of 5, 10, 20, 50, 100 and so on that is at least the value."""
    most = 5
    while most < value:
        most = most * 5 // 2 if str(most).startswith("2") else most * 2
    return most
