"""Pictures of a tree: no box meets another one, and each text lies in its box, beside the others."""
import json
import xml.etree.ElementTree
from collections.abc import Iterator

import pytest

from generators import questions_of
from hpb.drawing.tree import MOST_ROWS, Columns, Outline, Picture
from hpb.lines import Accepted, format_answer
from hpb.rules import answer, begin, read_definition
from hpb.rules.told import Told, read_told
from hpb.rules.tree import Tree
from serving import DEFINITION

SVG = "{http://www.w3.org/2000/svg}"
CHECK, DOTS = "\N{CHECK MARK}", "\N{HORIZONTAL ELLIPSIS}"
# How wide a character of a picture is: its fonts have 12 pixels, and take 0.602 of that for each at most. Its capitals are 11 high.
CHARACTER, HEIGHT = 7.23, 11

# Left, top, right and bottom.
Box = tuple[float, float, float, float]


def great_definition() -> bytes:
    """127 nodes in seven levels and 64 bidders, all with names of 16 characters."""
    nodes: list[dict[str, object]] = []
    for place in range(127):
        terms = {"units": 1, "opening": 100} if place >= 63 else {}
        nodes.append({"name": f"n{place:015}", "parent": f"n{(place - 1) // 2:015}" if place else None, **terms})
    bidders = [{"name": f"b{place:015}", "units": 64} for place in range(64)]
    return json.dumps({"step": 10, "percent": 10, "stages": [80], "nodes": nodes, "bidders": bidders}).encode()


def pair_at_a_cut() -> bytes:
    """A package of two licences across the end of a part of four rows: neither part has room for its texts."""
    under = {"w": None, "l0": "w", "l1": "w", "l2": "w", "p": "w", "l3": "p", "l4": "p", "l5": "w", "l6": "w"}
    terms = {"units": 1, "opening": 100}
    nodes: list[dict[str, object]] = [
        {"name": name, "parent": parent, **(terms if name[0] == "l" else {})} for name, parent in under.items()
    ]
    return json.dumps({"step": 10, "percent": 10, "stages": [80], "nodes": nodes, "bidders": [{"name": "x", "units": 7}]}).encode()


FIRST_ROUND = ["BID x 1 a 100", "BID y 1 b 150", "BID z 1 all 500", "BID w 1 c 100", "CLOSE 1"]
AUCTIONS = {
    "first": (DEFINITION.strip(), FIRST_ROUND),
    "greatest": (great_definition(), [f"BID b{0:015} 1 n{0:015} 1000000000000", "CLOSE 1"]),
    "pair": (pair_at_a_cut(), ["BID x 1 p 200", "CLOSE 1"]),
}


def stand(text: bytes, lines: list[str]) -> tuple[Tree, Told]:
    """How an auction stands after lines that are all accepted."""
    auction = begin(read_definition(text))
    for number, line in enumerate(lines, 1):
        auction, answered = answer(auction, line)
        assert answered == Accepted(number)
    return auction.tree, read_told(auction.tree, [format_answer(answer(auction, line)[1]) for line in questions_of(auction.tree.definition)])


def drawn_boxes(svg: str) -> Iterator[tuple[Box, list[tuple[Box, str]]]]:
    """Each box of a picture, with the boxes of its texts."""
    for group in xml.etree.ElementTree.fromstring(svg).findall(f"{SVG}g"):
        rect, texts = group.find(f"{SVG}rect"), group.findall(f"{SVG}text")
        assert rect is not None and texts
        title = texts[0].text or ""
        assert title.endswith(DOTS) or (group.get("class") == "wins") == (CHECK in title), title
        x, y, width, height = (float(rect.attrib[name]) for name in ("x", "y", "width", "height"))
        yield (x, y, x + width, y + height), [box_of(text) for text in texts]


def box_of(text: xml.etree.ElementTree.Element) -> tuple[Box, str]:
    said = text.text or ""
    size = len(said) * CHARACTER
    left, bottom = float(text.attrib["x"]) - (size if text.get("text-anchor") == "end" else 0), float(text.attrib["y"])
    return (left, bottom - HEIGHT, left + size, bottom), said


def meet(one: Box, other: Box) -> bool:
    return one[0] < other[2] and other[0] < one[2] and one[1] < other[3] and other[1] < one[3]


def some_meet(boxes: list[Box]) -> bool:
    return any(meet(box, other) for place, box in enumerate(boxes) for other in boxes[:place])


@pytest.mark.parametrize("most", [MOST_ROWS, 4, 2, 127])
@pytest.mark.parametrize("kind", [Columns, Outline])
@pytest.mark.parametrize("name", AUCTIONS)
def test_boxes_and_texts_fit(name: str, kind: type[Picture], most: int) -> None:
    tree, told = stand(*AUCTIONS[name])
    count = 0
    for part in kind(tree, told, most).parts():
        boxes = list(drawn_boxes(part))
        assert not some_meet([box for box, _ in boxes])
        for box, texts in boxes:
            assert not some_meet([text for text, _ in texts])
            assert [said for text, said in texts if not (box[0] < text[0] and text[2] <= box[2] and box[1] < text[1] and text[3] < box[3])] == []
        count += sum(not said.endswith(DOTS) for _, texts in boxes for _, said in texts)
    assert count == 4 * len(tree.nodes)


def test_boxes_that_meet_are_seen() -> None:
    """That the test above can fail."""
    assert some_meet([(0, 0, 10, 10), (9, 9, 20, 20)]) and not some_meet([(0, 0, 10, 10), (10, 0, 20, 10)])
