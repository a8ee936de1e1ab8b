"""`docs/check-rooms`: clauses that a crate's page names and its sources lack, and callers whose quotes differ from the sources."""

from __future__ import annotations

import runpy
import subprocess
from collections.abc import Callable, Iterable
from pathlib import Path

import pytest

CHECK = Path(__file__).resolve().parents[1] / "docs" / "check-rooms"
FAULTS: Callable[[Path], Iterable[str]] = runpy.run_path(str(CHECK))["faults_of"]
SOURCE = """\
/// A sum.
pub fn sum(a: u8, b: u8) -> u8
    requires { a + b < 256 }
    ensures value { result ≡ a + b }
    // A remark.
    ensures most { result ≤ 255 }
{
    a + b
}

fn hidden() -> u8
    ensures value { result ≡ 0 }
{
    0
}

pub fn plain() -> u8 {
    0
}

impl Pair {
    pub fn first(&self) -> u8
        ensures { result ≡ self.0 }
    {
        self.0
    }
}

pub trait Frames {
    ghost laws: Type 0;

    fn open(&mut self)
        ensures* after { done self };
}
"""


def found(tmp_path: Path, page: str) -> list[str]:
    """The faults in the page of a crate with the source above."""
    (tmp_path / "src").mkdir()
    (tmp_path / "src" / "lib.rt").write_text(SOURCE, encoding="utf-8")
    readme = tmp_path / "README.md"
    readme.write_text(page, encoding="utf-8")
    return list(FAULTS(readme))


def table(by: str) -> str:
    """A page with one row."""
    return f"# `x`\n\n| What holds | By |\n|---|---|\n| A sum \\| is one | {by} |\n"


@pytest.mark.parametrize(
    "by",
    [
        "`sum`: `value`, `most`",
        "`sum`: `value` (`of`, `it`), `most`; `Pair::first`: `result`",
        "`sum`",
        "`Frames::open`: `after`",
        "`Frames::open`: `laws`",
    ],
)
def test_clauses_that_are_there_pass(tmp_path: Path, by: str) -> None:
    assert found(tmp_path, table(by)) == []


@pytest.mark.parametrize(
    ("by", "fault"),
    [
        ("`sum`: `least`", "sum has no clause least"),
        ("`sum`: `value`, `result`", "sum has no clause result"),
        ("`hidden`: `value`", "there is no public hidden"),
        ("`Pair::second`: `result`", "there is no public Pair::second"),
        ("`plain`", "plain has no clause"),
        ("sum: value", "`FUNCTION`: `CLAUSE`, .. is wanted, and not sum: value"),
    ],
)
def test_clauses_that_are_not_there_are_named(tmp_path: Path, by: str, fault: str) -> None:
    assert found(tmp_path, table(by)) == [f"5: {fault}"]


def test_other_tables_are_left_alone(tmp_path: Path) -> None:
    assert found(tmp_path, "| Test | What it shows |\n|---|---|\n| `nobody` | `nothing` |\n") == []


@pytest.mark.parametrize(
    ("lines", "is_there"),
    [
        ("{\n    a + b\n}", True),
        ("pub fn sum(a: u8, b: u8) -> u8\n// ..\na + b", True),
        ("a + b\n// ..\npub fn sum(a: u8, b: u8) -> u8", False),
        ("a + c", False),
    ],
)
def test_a_caller_is_quoted_as_it_is(tmp_path: Path, lines: str, is_there: bool) -> None:
    source = tmp_path / "src" / "lib.rt"
    page = f"# `x`\n\n<!-- {source} -->\n```rust\n{lines}\n```\n"
    assert found(tmp_path, page) == ([] if is_there else [f"3: not so in {source}"])


def test_a_caller_names_its_file(tmp_path: Path) -> None:
    page = "# `x`\n\nA caller:\n```rust\na + b\n```\n"
    assert found(tmp_path, page) == ["3: no file of the repository is named before this block"]


def test_the_pages_of_the_crates_pass() -> None:
    ran = subprocess.run([CHECK], stdout=subprocess.PIPE, text=True, timeout=60, check=False)
    assert (ran.stdout, ran.returncode) == ("", 0)
