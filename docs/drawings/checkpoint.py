"""A checkpoint, step by step: its calls, and the contents of the two slots and of the frames."""
from dataclasses import dataclass
from typing import Final

from drawings.canvas import MARGIN, WIDTH, Box, Canvas

_ROW, _FIRST = 50, 112
# The left edges of the columns.
_CALL, _OLDER, _NEWEST, _FRAMES, _LEFT = 62, 214, 362, 470, 608


@dataclass(frozen=True, slots=True)
class Step:
    """A row: its number, its call, its slot's gate and body, which slot counts, its frames, and what a crash may leave."""

    number: str
    call: str
    gate: tuple[str, str]
    body: tuple[str, str]
    counts: str
    frames: str
    left: str


_OLD: Final = ("plain", "older state")
_OPEN: Final = ("kept", "open")
_CLOSED: Final = ("faint", "closed")
_ANY: Final = ("torn", "any")
_NEW: Final = ("kept", "new state")
STEPS: Final = (
    Step("", "before", ("plain", "open"), _OLD, "newest", "NNNNCC", "the newest slot counts"),
    Step("1", "write: gate closed", _ANY, _OLD, "newest", "NNNNCC", "the newest slot counts"),
    Step("2", "sync", _CLOSED, _OLD, "newest", "NNNNCC", "the same"),
    Step("3 to 6", "four writes of a page", _CLOSED, ("torn", "any bytes"), "newest", "NNNNCC", "the same: a body behind a closed gate isn't read"),
    Step("7", "sync", _CLOSED, _NEW, "newest", "NNNNCC", "the same, and the new state whole beside it"),
    Step("8", "write: gate open", _ANY, _NEW, "either", "NNNNCC", "either slot counts: the old one with its batches, or the new"),
    Step("9", "sync", _OPEN, _NEW, "new", "OOOOCC", "the new slot counts"),
    Step("10 to 9 + m", "m writes: a frame's gate closed", _OPEN, _NEW, "new", "AAOOCC", "any byte in such a gate: its batch is covered"),
    Step("10 + m", "sync", _OPEN, _NEW, "new", "CCCCCC", "the new slot counts, and m more frames are clean"),
)
# The states of a frame: an opening needs its batch, it holds an older batch, its gate may be any byte, or it is clean.
_FRAME_KINDS: Final = {"N": "kept", "O": "plain", "A": "torn", "C": "faint"}


def drawn() -> str:
    """The drawing."""
    canvas = Canvas("checkpoint", "A checkpoint, step by step", " ".join(
        f"Step {step.number or 'none'}: {step.call}. Gate {step.gate[1]}, body {step.body[1]}. A crash leaves: {step.left}." for step in STEPS))
    canvas.paragraph(
        Box(MARGIN, MARGIN, WIDTH - 2 * MARGIN, 34),
        "A checkpoint goes into the slot that isn't the newest. Each row has a step's call, then what the file may hold until the next step. "
        "Here m is 4, and two of six frames are clean at the start.", "soft")
    for left, name in ((MARGIN, "step"), (_CALL + 14, "call"), (_OLDER, "slot to be written"), (_NEWEST, "newest slot"), (_FRAMES, "frames"),
                       (_LEFT, "a crash leaves")):
        canvas.text(left, 84, name, "name")
    canvas.line([(MARGIN, 94), (WIDTH - MARGIN, 94)], "faint")
    for number, step in enumerate(STEPS):
        _draw(canvas, step, _FIRST + number * _ROW)
    end = _FIRST + len(STEPS) * _ROW
    canvas.legend(end, (("kept", "counts, or is needed"), ("torn", "any byte"), ("plain", "covered, or old"), ("faint", "closed, or clean")))
    return canvas.drawn(end + 28)


def _draw(canvas: Canvas, step: Step, top: float) -> None:
    def part(left: float, right: float) -> Box:
        return Box(left, top - 13, right - left - 8, 40)

    canvas.label(part(MARGIN, _CALL + 14), step.number, "small name beginning")
    canvas.label(part(_CALL + 14, _OLDER), step.call, "small beginning")
    _slot(canvas, Box(_OLDER, top - 8, 132, 30), step.gate, step.body)
    is_newest = step.counts != "new"
    kind, state = ("kept", "newest") if is_newest else ("plain", "older")
    _slot(canvas, Box(_NEWEST, top - 8, 92, 30), (kind, ""), (kind, state))
    for number, letter in enumerate(step.frames):
        canvas.box(Box(_FRAMES + number * 20, top - 4, 16, 22), _FRAME_KINDS[letter], radius=2)
    canvas.label(part(_LEFT, WIDTH - MARGIN + 8), step.left, "small beginning")
    canvas.line([(MARGIN, top + 31), (WIDTH - MARGIN, top + 31)], "faint")


def _slot(canvas: Canvas, box: Box, gate: tuple[str, str], body: tuple[str, str]) -> None:
    """A gate with its body behind it."""
    width = 50.0 if gate[1] else 14.0
    canvas.label(canvas.box(Box(box.left, box.top, width, box.height), gate[0], radius=0), gate[1], "small")
    canvas.label(canvas.box(Box(box.left + width, box.top, box.width - width, box.height), body[0], radius=0), body[1], "small")
