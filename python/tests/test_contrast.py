"""The colours of all pages, light and dark: text can be read, and what can be pressed can be seen (WCAG 2.2, 1.4.3 and 1.4.11)."""
from __future__ import annotations

import importlib.resources
import re

import pytest

# For each sheet: grounds, what stands on all of them as text, and pairs of text and ground besides.
SHEETS = {
    ("hpb.web", "site.css"): (("ground", "card", "good", "bad", "warn"), ("text", "soft", "link", "good-text", "bad-text", "warn-text"), [("on-head", "head"), ("card", "link"), ("card", "bad-text")]),
    ("hpb.pages", "static/board.css"): (("ground", "card", "wins", "falls-ground", "short-ground"), ("text", "soft", "link", "wins-text", "changed", "falls"), [("on-head", "head")]),
}


def luminance(colour: str) -> float:
    """The relative luminance of a colour, as WCAG defines it."""
    parts = [int(colour[place : place + 2], 16) / 255 for place in (1, 3, 5)]
    red, green, blue = (part / 12.92 if part <= 0.04045 else ((part + 0.055) / 1.055) ** 2.4 for part in parts)
    return 0.2126 * red + 0.7152 * green + 0.0722 * blue


def contrast(one: str, other: str) -> float:
    """The contrast of two colours, from 1 to 21."""
    low, high = sorted((luminance(one), luminance(other)))
    return (high + 0.05) / (low + 0.05)


def test_contrast_by_hand() -> None:
    assert contrast("#000000", "#ffffff") == pytest.approx(21) and contrast("#777777", "#ffffff") == pytest.approx(4.48, abs=0.01)


@pytest.mark.parametrize("sheet", SHEETS)
def test_all_text_can_be_read(sheet: tuple[str, str]) -> None:
    package, name = sheet
    grounds, texts, pairs = SHEETS[sheet]
    text = importlib.resources.files(package).joinpath(*name.split("/")).read_text()
    blocks = [dict(re.findall(r"--([\w-]+): (#[0-9a-f]{6})", block)) for block in re.findall(r":root \{(.*?)\}", text, re.DOTALL)]
    light, dark = [block for block in blocks if block]
    assert set(light) >= {*grounds, *texts} and set(dark) == set(light), "each colour has its dark one"
    assert not re.findall(r"(?:color|background|border)[^;{]*: [^;{}]*#[0-9a-f]{3}", re.sub(r":root \{.*?\}", "", text, flags=re.DOTALL)), "no colour stands elsewhere"
    for colours in (light, dark):
        for one, ground in [*((one, ground) for one in texts for ground in grounds), *pairs]:
            assert contrast(colours[one], colours[ground]) >= 4.5, (one, ground, colours[one], colours[ground])
        # The border of a field, and the ring round what has the keyboard.
        assert contrast(colours["soft"], colours["card"]) >= 3 and contrast(colours["link"], colours["card"]) >= 3
