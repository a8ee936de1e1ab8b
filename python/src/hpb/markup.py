"""Elements of HTML and SVG. Any text put into an element is escaped."""
from collections.abc import Iterable
from typing import TypeAlias
from xml.sax.saxutils import escape, quoteattr


class Markup(str):
    """Text that is markup already, and isn't escaped again."""


Part: TypeAlias = object

# Elements without an end tag.
_ALONE = {"meta", "br", "rect", "path", "line"}


def element(tag: str, *inside: Part, **attributes: object) -> Markup:
    """An element of HTML or SVG. In the name of an attribute, `_` stands for `-`, and one at the end is dropped. Attributes that
    are None aren't written.
    """
    words = [tag]
    for name, value in attributes.items():
        if value is not None:
            words.append(f"{name.rstrip('_').replace('_', '-')}={quoteattr(str(value))}")
    if tag in _ALONE:
        return Markup(f"<{' '.join(words)}/>")
    return Markup(f"<{' '.join(words)}>{joined(inside)}</{tag}>")


def joined(parts: Iterable[Part]) -> Markup:
    """Parts one after the other: markup stays as it is, everything else is escaped."""
    return Markup("".join(part if isinstance(part, Markup) else escape(str(part)) for part in parts))
