"""The layouts of a journal by their numbers, and the making of a file in each."""
import subprocess

PAGE_BYTES = 4_096
JOURNAL_AT = 13 * PAGE_BYTES
OPEN = 0xA5


class Layout:
    """A layout: the number of bytes in a frame, and the least number of frames in a journal."""

    def __init__(self, number, name, frame_bytes, least):
        self.number, self.name, self.frame_bytes, self.least = number, name, frame_bytes, least

    def bytes(self, journal):
        """The bytes in a file whose journal has so many frames."""
        return JOURNAL_AT + self.frame_bytes * journal

    def gates(self, image):
        """The first byte of each frame."""
        return image[JOURNAL_AT::self.frame_bytes]

    def words(self, program, file, journal):
        """The command that makes a file. The first layout needs no option."""
        chosen = ["--layout", str(self.number)] if self.number > 1 else []
        return [program, "format", "--file", file, "--journal", str(journal), *chosen]

    def format(self, program, definition, file, journal):
        """Makes a file. Returns the ended process, and whether its output is right."""
        words = self.words(program, file, journal)
        made = subprocess.run(words, input=definition, capture_output=True, text=True)
        line = f"FORMATTED {self.bytes(journal) // PAGE_BYTES}\n"
        return made, (made.stdout, made.returncode) == (line, 0)


LAYOUTS = {1: Layout(1, "pages", PAGE_BYTES, 4), 2: Layout(2, "cells", 3 * 512, 16)}


def add_layouts(words, both):
    """Adds the option that chooses layouts. Its default is both, or else the first."""
    default = list(LAYOUTS) if both else [1]
    words.add_argument(
        "--layout", type=int, choices=LAYOUTS, nargs="+" if both else None, default=default if both else 1,
        help=f"of the journal: 1 pages, 2 cells (default {' '.join(map(str, default))})",
    )
