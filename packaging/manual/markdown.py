"""Sections of a page of docs/ as parts of a manual page."""
import re
from collections.abc import Iterator
from pathlib import Path

from manual.mdoc import filled, joined, literal, tagged

HEADING = re.compile(r"(#+) (.*)")
LINK = re.compile(r"!?\[([^\]]*)\]\([^)]*\)")
# Columns that stand behind the words of a row.
NUMBERS = ("Default", "Range")
# A bar in a cell that isn't its end.
BAR = "\\|"


def section_of(path: Path, title: str) -> list[str]:
    """The lines of a section, up to the next heading of any level."""
    lines = path.read_text(encoding="utf-8").splitlines()
    start = next(place for place, line in enumerate(lines) if (found := HEADING.fullmatch(line)) and found[2] == title) + 1
    end = next((place for place in range(start, len(lines)) if HEADING.fullmatch(lines[place])), len(lines))
    return lines[start:end]


def plain(text: str) -> str:
    """A text without links and without the marks of bold words."""
    return LINK.sub(r"\1", text).replace("**", "").replace(BAR, "|")


def parts_of(lines: list[str]) -> Iterator[list[str]]:
    """Paragraphs, tables, and blocks between fences, each a list of lines."""
    part: list[str] = []
    is_fenced = False
    for line in lines:
        if line.startswith("```"):
            is_fenced = not is_fenced
        if not line and not is_fenced:
            if part:
                yield part
            part = []
        else:
            part.append(line)
    if part:
        yield part


def converted(lines: list[str]) -> Iterator[str]:
    """The lines of a section in mdoc."""
    for part in parts_of(lines):
        if part[0].startswith("```"):
            yield from literal(part[1:-1])
        elif part[0].startswith("    "):
            yield from literal(part)
        elif part[0].startswith("|"):
            yield from tagged(rows_of(part))
        elif part[0].startswith("- "):
            yield from listed(part)
        else:
            yield ".Pp"
            yield from filled(plain("\n".join(part)))


def rows_of(table: list[str]) -> Iterator[tuple[str, str]]:
    """The rows of a table: the first cell is the name, and the others are its words. An empty first cell is that of the row before."""
    head = cells_of(table[0])
    name = ""
    for row in table[2:]:
        first, *others = cells_of(row)
        name = first or name
        words = [text for title, text in zip(head[1:], others) if title not in NUMBERS]
        words += [f"{title}: {text}" for title, text in zip(head[1:], others) if title in NUMBERS]
        yield name.replace("`", ""), ". ".join(f"{word[0].upper()}{word[1:]}" for word in words if word) + "."


def cells_of(row: str) -> list[str]:
    return [plain(cell.strip()) for cell in re.split(r"(?<!\\)\|", row)[1:-1]]


def listed(lines: list[str]) -> Iterator[str]:
    yield ".Bl -bullet"
    for one in joined(plain("\n".join(lines)).split("\n")):
        yield ".It"
        yield from filled(one)
    yield ".El"
