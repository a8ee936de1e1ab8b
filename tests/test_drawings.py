"""The drawings of `docs/drawings`: texts that don't fit or overlap, crates without a storey, and what viewers need."""

from __future__ import annotations

from collections.abc import Iterator
from itertools import combinations
from pathlib import Path
from typing import NamedTuple
from xml.etree import ElementTree

import pytest

from drawings.__main__ import DRAWINGS
from drawings.canvas import WIDTH, Box, Canvas
from drawings.measure import breadth, size_of, wrapped
from drawings.storeys import check_storeys, crates, nearest

DOCS = Path(__file__).resolve().parents[1] / "docs"
SVG = "{http://www.w3.org/2000/svg}"
NAMES = sorted(DRAWINGS)


class Extent(NamedTuple):
    """The place of a text: its left and right sides, and its upper and lower edges."""

    text: str
    left: float
    right: float
    top: float
    bottom: float

    def lies_on(self, other: Extent) -> bool:
        """Whether the two have a point in common."""
        return self.left < other.right and other.left < self.right and self.top < other.bottom and other.top < self.bottom


@pytest.fixture
def canvas() -> Canvas:
    return Canvas("trial", "A trial", "Nothing is on it.")


def read(name: str) -> ElementTree.Element:
    """A drawing from the repository."""
    return ElementTree.fromstring((DOCS / "pictures" / f"{name}.svg").read_text(encoding="utf-8"))


def extents(drawing: ElementTree.Element) -> Iterator[Extent]:
    """The place of each text, with the widths of the widest font."""
    for element in drawing.iter(f"{SVG}text"):
        text, looks = element.text or "", element.get("class", "")
        left, base, width = float(element.get("x", "nan")), float(element.get("y", "nan")), breadth(text, looks)
        left -= width / 2 if "middle" in looks else width if "end" in looks else 0
        yield Extent(text, left, left + width, base - 0.7 * size_of(looks), base + 0.15 * size_of(looks))


@pytest.mark.parametrize("name", NAMES)
def test_no_text_lies_on_another_or_leaves_the_drawing(name: str) -> None:
    drawing = read(name)
    height = float(drawing.get("height", "nan"))
    places = list(extents(drawing))
    assert len(places) > 10
    assert [place for place in places if place.left < 0 or place.right > WIDTH or place.top < 0 or place.bottom > height] == []
    assert [(one.text, other.text) for one, other in combinations(places, 2) if one.lies_on(other)] == []


@pytest.mark.parametrize("name", NAMES)
def test_a_drawing_has_words_for_readers_and_both_schemes(name: str) -> None:
    drawing = read(name)
    title, description, style = list(drawing)[:3]
    assert drawing.get("role") == "img"
    assert drawing.get("aria-labelledby") == f"{title.get('id')} {description.get('id')}"
    assert title.text and description.text and len(description.text) > 100
    assert "@media (prefers-color-scheme: dark)" in (style.text or "")


@pytest.mark.parametrize("name", NAMES)
def test_a_drawing_stands_in_a_page(name: str) -> None:
    assert any(f"](pictures/{name}.svg)" in page.read_text(encoding="utf-8") for page in DOCS.glob("*.md"))


def test_a_text_is_cut_into_lines_that_fit() -> None:
    assert list(wrapped("iiii iiii iiii", breadth("iiii iiii"))) == ["iiii iiii", "iiii"]
    with pytest.raises(ValueError, match="WWWW has"):
        list(wrapped("a WWWW", breadth("WWWW") - 1))


def test_a_text_that_does_not_fit_is_refused(canvas: Canvas) -> None:
    with pytest.raises(ValueError, match="no room"):
        canvas.text(WIDTH - 10, 20, "too long")
    with pytest.raises(ValueError, match="no room"):
        canvas.text(10, 20, "too long", "end")
    with pytest.raises(ValueError, match="too high"):
        canvas.paragraph(Box(0, 0, 60, 14), "three words here")
    with pytest.raises(ValueError, match="too high"):
        canvas.label(Box(0, 0, 60, 14), "three words here")


def test_crates_and_storeys_agree() -> None:
    known = crates()
    check_storeys(known)
    with pytest.raises(ValueError, match="differs in hpb_new"):
        check_storeys({**known, "hpb_new": []})
    with pytest.raises(ValueError, match="differs in hpb_money"):
        check_storeys({name: others for name, others in known.items() if name != "hpb_money"})
    with pytest.raises(ValueError, match="hpb_disk stands below hpb_house"):
        check_storeys({**known, "hpb_disk": ["hpb_house"]})


def test_nearest_crates_are_those_that_no_other_stands_on() -> None:
    known: dict[str, list[str]] = {"low": [], "middle": ["low"], "aside": ["low"], "top": ["low", "middle", "aside"]}
    assert nearest(known, "top") == ["middle", "aside"]
    assert nearest(known, "low") == []
