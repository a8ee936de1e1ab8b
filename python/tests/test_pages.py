"""Views of some bidders have them alone, and the page's colours can be read."""
import math
import pathlib
import re

import pytest

from hpb.pages import page
from hpb.pages.view import Begin, Contact, Seen, State, View
from hpb.rules import read_definition
from hpb.rules.told import read_told
from hpb.rules.tree import tree_of
from serving import DEFINITION

STATIC = pathlib.Path(page.__file__).parent / "static"
TREE = tree_of(read_definition(DEFINITION.replace(b'"nodes"', b'"waivers":1,"nodes"', 1)))


def test_of_a_view_some_bidders_are_left() -> None:
    """Wherever it has any."""
    lines = ["ROUND 1 STAGE 1 OPEN REVENUE 0 COUNT 0", *(f"NODE {name} HIGH 0 - PRICE 0 MIN 100 WIN no" for name in TREE.nodes)]
    told = read_told(TREE, [*lines, *(f"WHO {name} ELIGIBILITY 1 ACTIVITY 0 TICKET 0 WAIVERS 1" for name in TREE.bidders)])
    view = View(Seen(told, told, Begin(told.shown, told.whos, True)), Contact(State.LIVE, 0, 1))
    found = view.only(["w", "x"])
    assert found.seen and view.seen
    assert [list(part.whos) for part in found.seen if part] == [["w", "x"]] * 3
    assert [list(part.whos) for part in view.seen if part] == [list(TREE.bidders)] * 3
    assert View(None, view.contact).only(["x"]).seen is None


# Colours of texts, and the grounds that each stands on.
GROUNDS = {
    "text": "card wins falls-ground short-ground flash",
    "soft": "card wins falls-ground short-ground ground",
    "changed": "card wins short-ground",
    "wins-text": "wins card",
    "falls": "falls-ground",
    "on-head": "head",
    "link": "card",
}


def light(colour: str) -> float:
    parts = [int(colour[at : at + 2], 16) / 255 for at in (1, 3, 5)]
    red, green, blue = (part / 12.92 if part <= 0.04045 else math.pow((part + 0.055) / 1.055, 2.4) for part in parts)
    return 0.2126 * red + 0.7152 * green + 0.0722 * blue


def contrast(one: str, other: str) -> float:
    """By the rules of WCAG, of two colours."""
    lighter, darker = sorted((light(one), light(other)), reverse=True)
    return (lighter + 0.05) / (darker + 0.05)


def test_contrast_by_hand() -> None:
    assert (round(contrast("#000000", "#ffffff"), 6), contrast("#777777", "#777777")) == (21, 1)


@pytest.mark.parametrize("scheme", [0, 1], ids=["light", "dark"])
def test_each_colour_of_text_can_be_read_on_its_grounds(scheme: int) -> None:
    blocks = re.findall(r":root \{(.*?)\}", (STATIC / "board.css").read_text(), re.S)
    assert len(blocks) == 2
    colours = dict(re.findall(r"--([a-z-]+): (#[0-9a-f]{6});", blocks[scheme]))
    pairs = [(text, ground) for text, grounds in GROUNDS.items() for ground in grounds.split()]
    assert [pair for pair in pairs if contrast(colours[pair[0]], colours[pair[1]]) < 4.5] == []
