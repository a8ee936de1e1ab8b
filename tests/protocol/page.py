"""docs/PROTOCOL.md as the tests read it: its sentences, tables and blocks of code."""

from __future__ import annotations

import re
from collections.abc import Callable, Iterator
from dataclasses import dataclass, field
from pathlib import Path
from typing import TypeVar

Test = TypeVar("Test")
TOP = Path(__file__).resolve().parents[2]
LINK = re.compile(r"\[([^\[\]]*)\]\([^()\s]+\)")
ITEM = re.compile(r"^\s*(?:-|\d+\.) ")
CODE = re.compile(r"(`+)(?!`)(.+?)(?<!`)\1(?!`)")
END = re.compile(r"(?<=[^ ][.?!]) (?=[A-Z`\"(0-9])")


def plain(text: str) -> str:
    """These words on one line, without the marks of emphasis and of links."""
    return " ".join(LINK.sub(r"\1", text).replace("**", "").split())


def codes(text: str) -> list[str]:
    """The words between grave accents."""
    return [found[2] for found in CODE.finditer(text)]


@dataclass
class Table:
    """The cells of a table: its head, and its rows."""

    head: list[str]
    rows: list[list[str]] = field(default_factory=list)

    def pairs(self) -> list[tuple[str, str]]:
        """The code of the first two cells of each row: mostly a line and its answer."""
        return [(codes(row[0])[0], codes(row[1])[0]) for row in self.rows]


class Page:
    """A page of Markdown. Code and headings have no sentences; a row of a table is one."""

    def __init__(self, text: str) -> None:
        self.sentences: list[str] = []
        self.tables: list[Table] = []
        self.blocks: list[str] = []
        lines: list[str] = []
        before = ""
        for kind, line in [*kinds(text), ("none", "")]:
            if kind != "text" or not line.strip() or ITEM.match(line):
                self.sentences += [sentence for sentence in END.split(plain(" ".join(lines))) if sentence]
                lines.clear()
            if kind == "code":
                self.blocks[-1:] = [self.blocks[-1] + line] if before == "code" else [*self.blocks[-1:], line]
            elif kind == "row":
                self._take_row([cell.strip() for cell in line.strip()[1:-1].split("|")], before == "row")
            elif kind == "text":
                lines.append(ITEM.sub("", line))
            before = kind

    def _take_row(self, cells: list[str], goes_on: bool) -> None:
        if not goes_on:
            self.tables.append(Table(cells))
        elif not cells[0].startswith("---"):
            self.tables[-1].rows.append(cells)

    def table(self, *head: str) -> Table:
        """The one table of this head."""
        (found,) = [table for table in self.tables if table.head == list(head)]
        return found

    def block(self, front: str) -> str:
        """The first block of code that begins so."""
        return next(block for block in self.blocks if block.startswith(front))

    @property
    def definition(self) -> str:
        """That of the first example, with its LF."""
        return self.block('{"step"')

    def held(self, anchor: str) -> list[str]:
        """The sentences that begin so; or all rows of the table whose head is this."""
        rows = [(table, plain(" | ".join(row))) for table in self.tables for row in table.rows]
        return [words for words in self.sentences if words.startswith(anchor)] + [
            words for table, words in rows if words.startswith(anchor) or plain(" | ".join(table.head)) == anchor
        ]

    def all_held(self) -> set[str]:
        """All sentences, and all rows."""
        return {*self.sentences, *(plain(" | ".join(row)) for table in self.tables for row in table.rows)}


def kinds(text: str) -> Iterator[tuple[str, str]]:
    """Each line with its kind: `code` without its indentation, `row` of a table, `text`, or `none`."""
    is_fenced, is_list, indent = False, False, 0
    for line in text.splitlines(keepends=True):
        is_list = bool(ITEM.match(line)) or (is_list and (line.startswith(" ") or not line.strip()))
        if line.lstrip().startswith("```"):
            is_fenced, indent = not is_fenced, line.index("`")
            yield "none", line
        elif is_fenced or (line.startswith("    ") and not is_list):
            yield "code", line[indent if is_fenced else 4 :]
        else:
            yield ("none" if line.startswith("#") else "row" if line.startswith("|") else "text"), line


def sentences(_fronts: str) -> Callable[[Test], Test]:
    """Marks a test of the sentences of the page that begin with these words, each with two points behind it."""
    return lambda test: test


PAGE = Page((TOP / "docs" / "PROTOCOL.md").read_text(encoding="utf-8"))
