"""Texts from others, made safe for a terminal."""


def plain(text: object) -> str:
    """A text that a terminal only displays, whatever was written into it: everything but the printable characters of ASCII is escaped."""
    return "".join(one if " " <= one <= "~" else one.encode("unicode_escape").decode() for one in str(text))
