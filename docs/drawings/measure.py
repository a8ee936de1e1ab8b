"""The width of a text in pixels, by the widths of DejaVu Sans: the other fonts of a drawing are narrower."""
from collections.abc import Iterator
from typing import Final

# The widths of the characters from the space to the tilde, in hundredths of the font's size.
_PLAIN: Final = (
    32, 40, 46, 84, 64, 95, 78, 27, 39, 39, 50, 84, 32, 36, 32, 34, 64, 64, 64, 64, 64, 64, 64, 64, 64, 64, 34, 34, 84, 84, 84, 53, 100,
    68, 69, 70, 77, 63, 58, 77, 75, 29, 29, 66, 56, 86, 75, 79, 60, 79, 69, 63, 61, 73, 68, 99, 69, 61, 69, 39, 34, 39, 84, 50, 50,
    61, 63, 55, 63, 62, 35, 63, 63, 28, 28, 58, 28, 97, 63, 61, 63, 63, 41, 52, 39, 63, 59, 82, 59, 59, 52, 64, 34, 64, 84,
)
_OTHER, _BOLDER, _CODE = 100, 1.12, 60.2
# The size in pixels for each look. A text without one of these looks has the first size.
SIZES: Final = {"plain": 12.5, "small": 11.5, "heading": 15.0}


def size_of(looks: str) -> float:
    """The size of a text with these looks, in pixels."""
    return next((size for look, size in SIZES.items() if look in looks.split()), SIZES["plain"])


def breadth(text: str, looks: str = "") -> float:
    """The greatest width of a text with these looks."""
    if "code" in looks.split():
        hundredths = len(text) * _CODE
    else:
        hundredths = sum(_PLAIN[ord(sign) - 32] if " " <= sign <= "~" else _OTHER for sign in text)
    is_bold = "name" in looks.split() or "heading" in looks.split()
    return hundredths * size_of(looks) / 100 * (_BOLDER if is_bold and "code" not in looks.split() else 1)


def wrapped(text: str, room: float, looks: str = "") -> Iterator[str]:
    """The text in lines that fit into `room` pixels. If a word alone doesn't fit, `ValueError` is raised."""
    line = ""
    for word in text.split():
        if breadth(word, looks) > room:
            raise ValueError(f"{word} has {breadth(word, looks):.0f} pixels, and there are {room:.0f}")
        if line and breadth(f"{line} {word}", looks) > room:
            yield line
            line = word
        else:
            line = f"{line} {word}".strip()
    if line:
        yield line
