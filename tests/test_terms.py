"""docs/DEFINITIONS.md has a row for each term that PROTOCOL and PROMISES explain, once and in order."""

from __future__ import annotations

import re
from pathlib import Path

import pytest

DOCS = Path(__file__).resolve().parents[1] / "docs"
BOLD = re.compile(r"\*\*([a-z][a-z ]*)\*\*")


def terms(page: str) -> list[str]:
    """The first cells of the table of terms."""
    section = page.split("\n## Terms\n")[1].split("\n## ")[0]
    return [row.split("|")[1].strip() for row in section.splitlines() if row.startswith("| ")][1:]


def lacking(page: str, rows: list[str]) -> list[str]:
    """Terms that a page explains and that have no row. A term is in bold there, perhaps in the plural."""
    single = {term for row in rows for term in row.split(", ")}
    return [term for term in BOLD.findall(page) if term not in single and term.removesuffix("s") not in single]


ROWS = terms((DOCS / "DEFINITIONS.md").read_text())


def test_each_term_stands_there_once_and_in_order() -> None:
    assert len(ROWS) > 50
    assert ROWS == sorted(set(ROWS))


@pytest.mark.parametrize("name", ["PROTOCOL.md", "PROMISES.md"])
def test_each_term_of_a_page_has_a_row(name: str) -> None:
    text = (DOCS / name).read_text()
    assert len(BOLD.findall(text)) > 3
    assert lacking(text, ROWS) == []


def test_a_term_without_a_row_is_seen() -> None:
    assert lacking("A **seat** and **rings** have rows, a **quorum** has none.", ROWS) == ["quorum"]
