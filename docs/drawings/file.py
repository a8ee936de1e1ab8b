"""An auction's file in both layouts, byte by byte, with the numbers of the package's reader."""
from typing import Final

from drawings.canvas import MARGIN, WIDTH, Box, Canvas
from hpb.file.frames import RECORD
from hpb.file.layout import BODY, CELL, HEAD_PAGES, JOURNAL, PAGE, SLOT_BODY, SLOTS, Layout

_BATCH_HEAD, _CELL_HEAD, _MOST_RECORDS = 24, 16, 64
_IN_FIRST: Final = (CELL - BODY - _BATCH_HEAD) // RECORD.size
_IN_NEXT: Final = (CELL - _CELL_HEAD) // RECORD.size
_LEFT, _INNER = 132, WIDTH - 132 - MARGIN
_SLOT_PAGES: Final = 1 + SLOT_BODY // PAGE

# A part of a strip: its words, its width in proportion to the others, and its kind.
_Part = tuple[str, float, str]


def drawn() -> str:
    """The drawing."""
    canvas = Canvas("file", "The file of an auction, in both layouts of its journal", (
        f"Pages of {PAGE} bytes: {HEAD_PAGES} of the head, two slots of {_SLOT_PAGES} pages each from byte {SLOTS[0]} and {SLOTS[1]} on, and from "
        f"byte {JOURNAL} on the frames of the journal. In pages a frame is one page: a gate, 15 bytes that aren't read, and a batch of up to "
        f"{_MOST_RECORDS} records. In cells a frame is three cells of {CELL} bytes, of which a batch takes as many as its records need: "
        f"{_IN_FIRST} records in the first, {_IN_NEXT} in each other."))
    canvas.text(MARGIN, 32, "The file", "heading")
    top = _whole(canvas, 44)
    top = _parts_of_pages(canvas, top + 24)
    top = _frames(canvas, top + 24)
    canvas.legend(top + 8, (("torn", "gate, one byte: open at 0xA5"), ("plain", "not read"), ("kept", "body"), ("faint", "zero, or not taken")))
    return canvas.drawn(top + 34)


def _strip(canvas: Canvas, top: float, name: str, parts: list[_Part], about: str) -> float:
    """A row of parts after its name, with an explanation below it. Returns the top of the next row."""
    canvas.text(MARGIN, top + 22, name, "name")
    unit = _INNER / sum(part[1] for part in parts)
    left = float(_LEFT)
    for words, share, kind in parts:
        box = canvas.box(Box(left, top, share * unit, 34), kind, radius=0)
        if words:
            canvas.label(box, words, "small")
        left = box.right
    return canvas.paragraph(Box(_LEFT, top + 39, _INNER, 34), about, "small soft") + 8


def _whole(canvas: Canvas, top: float) -> float:
    parts: list[_Part] = [
        ("head", 3, "thread"), ("first slot", 3.4, "thread"), ("second slot", 3.4, "thread"),
        ("frame 0", 2, "test"), ("frame 1", 2, "test"), ("..", 1, "faint"), ("frame J - 1", 2.6, "test"),
    ]
    unit = _INNER / sum(part[1] for part in parts)
    canvas.text(MARGIN, top + 26, "pages", "name")
    left = float(_LEFT)
    starts = {"head": 0, "first slot": SLOTS[0], "second slot": SLOTS[1], "frame 0": JOURNAL}
    counts = {"head": f"{HEAD_PAGES} pages", "first slot": f"{_SLOT_PAGES} pages", "second slot": f"{_SLOT_PAGES} pages"}
    for words, share, kind in parts:
        box = canvas.box(Box(left, top, share * unit, 44), kind, radius=0)
        if words in counts:
            canvas.text(box.middle, top + 19, words, "small name middle")
            canvas.text(box.middle, top + 35, counts[words], "small middle")
        else:
            canvas.label(box, words, "small")
        if words in starts:
            canvas.text(box.left, top + 59, f"{starts[words]:,}", "small soft code")
        left = box.right
    canvas.text(MARGIN, top + 59, "at byte", "small soft")
    about = (
        f"Batch b stands in frame b mod J. In pages the file has {JOURNAL // PAGE} + J pages, with a J of 4 to 1,024; in cells "
        f"{JOURNAL // PAGE} + 3 * J / 8, with a J of 16 to 1,024 in eights. The file never grows."
    )
    return canvas.paragraph(Box(_LEFT, top + 68, _INNER, 34), about, "small soft")


def _parts_of_pages(canvas: Canvas, top: float) -> float:
    canvas.text(MARGIN, top + 14, "Head and slot, the same in both layouts", "heading")
    top = _strip(canvas, top + 26, "head", [
        ("gate", 1, "torn"), ("15", 0.8, "plain"), ("HPBAUCT1, rules, J", 3.4, "kept"), ("nodes, 32 bytes each", 3.6, "kept"),
        ("bidders, 24 bytes each", 3.8, "kept"),
    ], f"A page each: text, layout, format and rules with J; nodes; bidders. {HEAD_PAGES * PAGE - BODY:,} bytes are written once, then the gate.")
    return _strip(canvas, top + 2, "slot", [
        ("gate", 1, "torn"), (f"{PAGE - 1:,}", 1.4, "plain"), ("chunk 0", 2, "kept"), ("chunk 1", 2, "kept"), ("chunk 2", 2, "kept"),
        ("chunk 3", 2, "kept"),
    ], f"A page with the gate, then the state in four chunks of {PAGE:,} bytes: the auction, and how many batches it covers.")


def _frames(canvas: Canvas, top: float) -> float:
    canvas.text(MARGIN, top + 14, f"A frame in pages: {Layout.PAGES.frame:,} bytes", "heading")
    left = PAGE - BODY - _BATCH_HEAD - _MOST_RECORDS * RECORD.size
    top = _strip(canvas, top + 26, "page", [
        ("gate", 1, "torn"), ("15", 0.8, "plain"), ("index, number, count", 3, "kept"), (f"1 to {_MOST_RECORDS} records of {RECORD.size} bytes", 4.4, "kept"),
        ("zero", 3, "faint"),
    ], f"One write of {PAGE - BODY:,} bytes, whatever the batch has; at least {left:,} of them are zero. The gate is a write of its own.")
    canvas.text(MARGIN, top + 26, f"A frame in cells: {Layout.CELLS.frame:,} bytes, three cells of {CELL}", "heading")
    first = _strip(canvas, top + 38, "cell 0", [
        ("gate", 1, "torn"), ("15", 0.8, "plain"), ("index, number, count", 3, "kept"), (f"records 1 to {_IN_FIRST}", 5.6, "kept"), ("8 zero", 1.2, "faint"),
    ], f"A batch of up to {_IN_FIRST} records takes this cell alone: a write of {CELL - BODY} bytes.")
    second = _IN_FIRST + _IN_NEXT
    next_top = _strip(canvas, first + 2, "cell 1", [
        ("index", 1.4, "kept"), ("1", 0.6, "kept"), ("7 zero", 1.2, "faint"), (f"records {_IN_FIRST + 1} to {second}", 8.4, "kept"),
    ], f"Up to {second} records take two cells: a write of {2 * CELL - BODY:,} bytes.")
    return _strip(canvas, next_top + 2, "cell 2", [
        ("index", 1.4, "kept"), ("2", 0.6, "kept"), ("7 zero", 1.2, "faint"), (f"records {second + 1} to {_MOST_RECORDS}", 3.4, "kept"), ("zero", 5, "faint"),
    ], f"More take all three: a write of {3 * CELL - BODY:,} bytes. The bytes of a cell that a batch doesn't take decide nothing.")
