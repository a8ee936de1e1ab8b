"""The places of the parts in an auction's file, for both layouts of its journal (docs/DEVICE.md). All numbers count bytes."""
from enum import IntEnum
from typing import Final

PAGE: Final = 4096
CELL: Final = 512
OPEN_GATE: Final = 0xA5
HEAD_PAGES: Final = 3
LEAST_PAGES: Final = 17
# The gates of the two slots. A slot's body is the four pages after the page of its gate.
SLOTS: Final = (3 * PAGE, 8 * PAGE)
SLOT_BODY: Final = 4 * PAGE
JOURNAL: Final = 13 * PAGE
# After the gate of a frame, and of the head, come 15 bytes that aren't read.
BODY: Final = 16
MOST_FRAMES: Final = 1024


class Layout(IntEnum):
    """The layout of frames in a file: a page each, or three cells of 512 bytes each."""

    PAGES = 1
    CELLS = 2

    @property
    def frame(self) -> int:
        """The number of bytes in a frame."""
        return PAGE if self is Layout.PAGES else 3 * CELL

    @property
    def least_frames(self) -> int:
        """The least number of frames in a journal."""
        return 4 if self is Layout.PAGES else 16

    def has(self, frames: int) -> bool:
        """Whether a journal can have this number of frames: 4 to 1,024 pages, or in cells a multiple of 8 from 16 to 1,024."""
        return self.least_frames <= frames <= MOST_FRAMES and (self is Layout.PAGES or frames % 8 == 0)

    def length(self, frames: int) -> int:
        """The number of bytes in a file with so many frames."""
        return JOURNAL + frames * self.frame

    def frame_at(self, frames: int, batch: int) -> int:
        """The place of the first byte of a batch's frame. Batches count from 0."""
        return JOURNAL + batch % frames * self.frame


def gate_is_open(image: bytes, at: int) -> bool:
    """Whether the bytes after a gate count."""
    return image[at] == OPEN_GATE
