"""Parts of a page of docs/ that can be run: tables, dumps, and blocks of commands with their output."""

from __future__ import annotations

import re
from collections.abc import Iterator
from dataclasses import dataclass

from harness.auctions import EXAMPLES

TOP = EXAMPLES.parent
DOCS = TOP / "docs"

Row = list[str]


def read_page(name: str) -> str:
    """The text of a page of docs/."""
    return (DOCS / name).read_text(encoding="utf-8")


def tables(text: str) -> Iterator[tuple[Row, list[Row]]]:
    """Each table: its head, and its rows, cell by cell."""
    for table in re.findall(r"(?:^\|.*\n)+", text, re.MULTILINE):
        rows = [[cell.strip() for cell in line.strip("|").split(" | ")] for line in table.splitlines()]
        yield rows[0], rows[2:]


def code(cell: str) -> str:
    """What stands in a cell between grave accents, or between pairs of them."""
    found = re.match(r"(`+)(.*?)\1(?!`)", cell)
    assert found is not None, cell
    return found[2]


def unindented(block: str) -> str:
    """An indented block as it is typed or printed."""
    return "".join(f"{line[4:]}\n" for line in block.splitlines())


@dataclass(frozen=True)
class Command:
    """The words that a reader types at a shell, the lines that go in, and the output of them: None if the page shows none."""

    typed: str
    lines: str
    printed: str | None


def commands_of(text: str) -> Iterator[Command]:
    """The indented blocks of commands, each with its output: the block that follows it with nothing but an empty line between. A block that
    runs lines has the next table of lines and answers instead. Blocks that prove something or cut the power are left out."""
    typed = [rows for head, rows in tables(text) if head == ["You type", "Answer"]]
    parts = re.findall(r"((?:^(?! {4}).*\n)*)((?:^ {4}.*\n)+)", text, re.MULTILINE)
    blocks = [(between.strip() == "", unindented(block)) for between, block in parts]
    at = 0
    while at < len(blocks):
        words, at = blocks[at][1], at + 1
        printed = None
        if at < len(blocks) and blocks[at][0]:
            printed, at = blocks[at][1], at + 1
        if "rt run" in words or "kill" in words:
            continue
        if printed is None and words.startswith("hpb run"):
            lines, answers = ("".join(f"{code(row[place])}\n" for row in typed[0]) for place in range(2))
            typed.pop(0)
            yield Command(words, lines, answers)
        else:
            yield Command(words, "", printed)


@dataclass(frozen=True)
class Step:
    """Words that a reader types at one of three terminals, and the output there."""

    terminal: str
    typed: str
    shown: str


def served_steps(text: str) -> Iterator[Step]:
    """Those of a text that names the terminal before each block and each table."""
    parts = re.split(r"((?:^ {4}.*\n)+|(?:^\|.*\n)+)", text, flags=re.MULTILINE)
    terminal, typed = "", None
    for between, block in zip(parts[::2], parts[1::2]):
        named = re.findall(r"\b(first|second|third) terminal", between)
        if block.startswith("|"):
            for row in next(tables(block))[1]:
                yield Step(named[-1] if named else terminal, f"{code(row[0])}\n", f"{code(row[1])}\n")
            continue
        words = unindented(block)
        if typed is not None and between.strip() == "":
            yield Step(terminal, typed, words)
            typed = None
            continue
        if typed is not None:
            yield Step(terminal, typed, "")
        terminal, typed = named[-1] if named else terminal, words
        # A client that is left there is typed into by a table.
        if words.startswith("tools/client"):
            yield Step(terminal, typed, "")
            typed = None


def dumps_of(device: str) -> list[list[str]]:
    """The blocks that hexdump shows, line by line."""
    return [block[1:].splitlines() for block in device.split("```")[1::2] if re.match(r"\n[0-9a-f]{8}\b", block)]


def dump_line(image: bytes, at: int) -> str:
    """Sixteen bytes as `hexdump -C` shows them; behind the end the length alone."""
    part = image[at : at + 16]
    if not part:
        return f"{len(image):08x}"
    halves = [" ".join(f"{byte:02x}" for byte in half) for half in (part[:8], part[8:])]
    letters = "".join(chr(byte) if 32 <= byte < 127 else "." for byte in part)
    return f"{at:08x}  {halves[0]}  {halves[1]}  |{letters}|"
