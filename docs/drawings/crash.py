"""A life with a crash: the acknowledged batches, the bytes that the crash may leave, and the opened auction."""
from dataclasses import dataclass
from typing import Final

from drawings.canvas import MARGIN, WIDTH, Box, Canvas

_TIME, _HEIGHT = 96, 42
# The four turns of the batch in flight: their call, left edge, width and kind.
_TURNS: Final = (
    ("write the body", 348, 112, "torn"), ("sync", 464, 58, "kept"), ("write the gate", 526, 104, "torn"), ("sync", 634, 58, "kept"),
)
_GAP: Final = 12
_CARD: Final = (WIDTH - 2 * MARGIN - 2 * _GAP) / 3


@dataclass(frozen=True, slots=True)
class Crash:
    """A crash: its stretch on the line of time, the fourth frame at that time, the batches that the opening finds, and the client's
    next step.
    """

    name: str
    span: tuple[float, float]
    gate: tuple[str, str]
    body: tuple[str, str]
    left: str
    opened: tuple[str, ...]
    client: str


CRASHES: Final = (
    Crash("Before the gate is written", (348, 522), ("faint", "closed"), ("torn", "any bytes"),
          "Behind a closed gate nothing is read, so batch 4 isn't there.", ("1 2 3",),
          "It has no answer and sends its command again. The command is judged now."),
    Crash("From then to the end of the sync", (526, 692), ("torn", "any byte"), ("kept", "batch 4"),
          "The body is whole. If the gate's byte reads open, the batch is there.", ("1 2 3", "1 2 3 4"),
          "It has no answer and sends its command again. If the command was kept, it gets its number; else it is judged now."),
    Crash("After the sync", (696, 784), ("kept", "open"), ("kept", "batch 4"),
          "Each crash leaves the batch whole.", ("1 2 3 4",),
          "It may have its OK, and the command is kept. If the OK was lost on its way, the same line gets the same number."),
)


def drawn() -> str:
    """The drawing."""
    canvas = Canvas("crash", "A life with a crash", "Batches 1 to 3 are acknowledged and batch 4 is in flight. " + " ".join(
        f"{crash.name}: gate {crash.gate[1]}, body {crash.body[1]}. {crash.left} Opened with batches {' or '.join(crash.opened)}. "
        f"The client of batch 4: {crash.client}" for crash in CRASHES))
    canvas.paragraph(
        Box(MARGIN, MARGIN, WIDTH - 2 * MARGIN, 34),
        "Time goes to the right. Each batch takes four turns, and its answers leave after the fourth. Batches 1 to 3 are acknowledged; batch 4 "
        "is in flight when a crash comes.", "soft")
    _draw_time(canvas)
    bottom = 0.0
    for number, crash in enumerate(CRASHES):
        bottom = _draw(canvas, crash, MARGIN + number * (_CARD + _GAP))
    canvas.paragraph(
        Box(MARGIN, bottom + 14, WIDTH - 2 * MARGIN, 34),
        "All acknowledged batches are there, whole and without a gap, with at most the batch in flight behind them. The auction goes on from "
        "there. A crash in a checkpoint changes nothing of this.", "soft")
    return canvas.drawn(bottom + 62)


def _draw_time(canvas: Canvas) -> None:
    canvas.arrow([(MARGIN, _TIME - 22), (WIDTH - MARGIN, _TIME - 22)])
    for number in range(3):
        box = canvas.box(Box(MARGIN + number * 110, _TIME, 104, _HEIGHT), "kept")
        canvas.text(box.middle, box.top + 18, f"batch {number + 1}", "small name middle")
        canvas.text(box.middle, box.top + 34, "OK left", "small middle")
    for call, left, width, kind in _TURNS:
        canvas.label(canvas.box(Box(left, _TIME, width, _HEIGHT), kind), call, "small")
    canvas.label(canvas.box(Box(696, _TIME, 88, _HEIGHT), "plain"), "OK leaves", "small")


def _draw(canvas: Canvas, crash: Crash, left: float) -> float:
    first, last = crash.span
    under = _TIME + _HEIGHT + 8
    card = Box(left, _TIME + 104, _CARD, 280)
    canvas.line([(first, under), (first, under + 6), (last, under + 6), (last, under)], "lost")
    middle, turn = (first + last) / 2, {MARGIN: under + 20}.get(int(left), under + 34)
    canvas.arrow([(middle, under + 6), (middle, turn), (card.middle, turn), (card.middle, card.top)], "lost")
    canvas.box(card, "faint")
    inner = card.inset(10)
    head = canvas.box(Box(card.left, card.top, card.width, 30), "lost")
    canvas.label(head, crash.name, "small name")
    canvas.text(inner.left, card.top + 50, "the file may hold", "small soft")
    _frames(canvas, Box(inner.left, card.top + 58, inner.width, 28), crash)
    behind = canvas.paragraph(Box(inner.left, card.top + 94, inner.width, 48), crash.left, "small")
    canvas.text(inner.left, behind + 22, "opened with", "small soft")
    place = inner.left
    for number, batches in enumerate(crash.opened):
        if number:
            canvas.text(place, behind + 46, "or", "small soft")
            place += 22
        for batch in batches.split():
            canvas.label(canvas.box(Box(place, behind + 30, 22, 24), "kept", radius=2), batch, "small")
            place += 25
        place += 8
    canvas.text(inner.left, behind + 80, "the client of batch 4", "small soft")
    canvas.paragraph(Box(inner.left, behind + 86, inner.width, card.bottom - behind - 86), crash.client, "small")
    return card.bottom


def _frames(canvas: Canvas, box: Box, crash: Crash) -> None:
    """Three open frames, and the fourth with its gate and its body."""
    left = box.left
    for number in range(3):
        canvas.label(canvas.box(Box(left, box.top, 24, box.height), "kept", radius=2), str(number + 1), "small")
        left += 27
    left += 4
    gate = canvas.box(Box(left, box.top, 62, box.height), crash.gate[0], radius=0)
    canvas.label(gate, crash.gate[1], "small")
    canvas.label(canvas.box(Box(gate.right, box.top, box.right - gate.right, box.height), crash.body[0], radius=0), crash.body[1], "small")
