"""`docs/check-english`: sentences that it has to find, and others that it has to accept."""

from __future__ import annotations

import runpy
import subprocess
from collections.abc import Callable, Iterable
from pathlib import Path

import pytest

CHECK = Path(__file__).resolve().parents[1] / "docs" / "check-english"
FAULTS: Callable[[str], Iterable[tuple[int, str, str]]] = runpy.run_path(str(CHECK))["faults"]
LONG = "One " + "more word and " * 10 + "none."


def found(text: str) -> list[tuple[int, str]]:
    """The line and the pattern of each place in a page."""
    return [(line, pattern) for line, pattern, _ in FAULTS(text)]


def run(*pages: Path) -> tuple[str, int]:
    """The output of the check for some pages, and its status."""
    ran = subprocess.run([CHECK, *pages], stdout=subprocess.PIPE, text=True, timeout=60, check=False)
    return ran.stdout, ran.returncode


@pytest.mark.parametrize(
    ("sentence", "patterns"),
    [
        ("It is refused where the file is full.", ["where"]),
        ("Where it is full, and where it is gone, it ends.", ["where", "where"]),
        ("It keeps what is written.", ["what is"]),
        ("It holds what were bids.", ["what is"]),
        ("A bidder is told the price.", ["is told"]),
        ("All of them have been told, and more will be told.", ["is told", "is told"]),
        ("This page is for who bids.", ["for who"]),
        ("Who bids begins here.", ["who"]),
        ("Whose letters they are nobody knows.", ["who"]),
        ("It is known to who gathered them.", ["who"]),
        ("Bids cost nothing; who wins pays.", ["who"]),
        (LONG, ["32 words"]),
        ("It keeps *what is* written.", ["what is"]),
        ("The [page where it stands](#there) is long.", ["where"]),
        ("- It keeps\n  what is written.", ["what is"]),
        ("1. It keeps what is written.", ["what is"]),
        ("| It keeps what is written. | It is told. |", ["what is", "is told"]),
    ],
)
def test_what_is_hard_to_read_is_found(sentence: str, patterns: list[str]) -> None:
    assert [pattern for _, pattern in found(sentence + "\n")] == patterns


@pytest.mark.parametrize(
    "text",
    [
        "It is refused if the file is full.",
        "Everywhere, somewhere, whereas.",
        "What is a batch?",
        "Who wins?",
        "| Who wins | the winners |",
        "Anyone who bids reads this. It says who wins, for those who ask.",
        "The bidder told it.",
        "One " + "more word and " * 9 + "no more.",
        "One " + "more word and " * 9 + "done. And " + "one more word " * 9 + "here.",
        "The words `where` and `what is` and ``is `told` where`` are code.",
        'It says "Where is what is told", and ends.',
        "```\nWhere is what is told.\n```",
        "    where is what is told",
        "- A list:\n\nAnd a block:\n\n    where",
        "## What is promised, and where",
        "> Who bids is told what is so.",
        "<!-- Where this comes from -->",
        "| " + "more words | " * 20,
        "- One " + "more word and " * 7 + "\n- and one " + "more word and " * 7,
        "A version .. " + "and more " * 9 + "of it.",
    ],
)
def test_what_is_plain_is_left_alone(text: str) -> None:
    assert found(text + "\n") == []


def test_a_place_has_its_line() -> None:
    page = "# A page\n\nIt says\nnothing. It keeps\nwhat is there.\n\n| Head |\n|---|\n| where |\n\n```\nwhere\n```\nIt is\ntold.\n"
    assert found(page) == [(4, "what is"), (9, "where"), (14, "is told")]


def test_a_page_above_its_bound_is_refused(tmp_path: Path) -> None:
    good, bad = tmp_path / "GOOD.md", tmp_path / "BAD.md"
    good.write_text("All is plain.\n", encoding="utf-8")
    bad.write_text("All is plain. It keeps\n**what is** there.\n", encoding="utf-8")
    told = f"{bad}:1: what is: It keeps what is there.\n{bad}: 1 places to be said more plainly, and 0 are allowed\n"
    assert run(good) == ("", 0)
    assert run(good, bad) == (told, 1)


@pytest.mark.parametrize(
    ("name", "source", "places"),
    [
        ("a.rt", "//! What is here.\n\n/// All is\n/// told. It is\n/// told.\nfn f() {}", ["1: what is", "3: is told", "4: is told"]),
        ("a.rt", "fn f() {\n    // Where it is.\n    g(); // what is done\n}", ["2: where", "3: what is"]),
        ("a.rt", 'const A: &[u8] = b"// where \\" // where"; // is told\nconst B: u8 = b\'"\'; // where', ["1: is told", "2: where"]),
        ("a.rt", 'const A: &str = r#"a " // where"#;\nfn f<\'a>(x: &\'a str) {} // where\'s', ["2: where"]),
        ("a.rt", "/// It is\nenum A {\n    B, // told\n    C, // told\n}", []),
        ("a.rt", "/// Some code:\n///\n///     where\n///\n/// - where\n", ["5: where"]),
        ("a.antt", "-- Where it is.\nf : ℕ -- what is it\nwhere\n", ["1: where", "2: what is"]),
        ("a.antt", 'f = codes "-- where" ++ ◌--where -- is told\n-- ---- where\n', ["1: is told", "2: where"]),
        ("a.antt", "-- It ends.\n--\n-- It is\n-- told.\n", ["3: is told"]),
        ("a.edit", "old: where\nnew: where\n-- wrong body: is told\n-- refused at: a::where: b (what is (so))\n", ["3: is told", "4: what is"]),
        ("a.c", '/* It\n * is told. */\nchar *a = "// where /*"; // where\n', ["1: is told", "3: where"]),
        ("a.py", '"""It says\nwhere.\n\n    where\n"""\na = "where"  # what is\n# told\n', ["1: where", "6: what is"]),
        ("a.py", 'def f() -> None:\n    """Plain.\n\n    It is told.\n\n        where\n    """\n    # It is\n    # told.\n', ["4: is told", "8: is told"]),
        ("a", '#!/usr/bin/env python3\n"""Where."""\n', ["2: where"]),
        ("a.py", 'f("It keeps\\n"\n  "what is there.")\ng("where it", "WHO x is 4")\n', ["1: what is"]),
        ("a.py", 'def f(x: str) -> str:\n    return f"{x} is told {x:>{9}}" + "p { where: it is }" + r"\\bwhere it \\w"\n', ["2: is told"]),
        ("tests/a.py", 'f("It keeps what is there.")\n', []),
        ("a.css", "/* Where it is. */\np { margin: 0 }\n", ["1: where"]),
    ],
)
def test_the_comments_and_messages_of_a_source_are_read(tmp_path: Path, name: str, source: str, places: list[str]) -> None:
    path = tmp_path / name
    path.parent.mkdir(exist_ok=True)
    path.write_text(source, encoding="utf-8")
    lines = run(path)[0].splitlines()
    assert [":".join(line.removeprefix(f"{path}:").split(":")[:2]) for line in lines[:-1]] == places


def test_a_folder_has_the_sources_below_it(tmp_path: Path) -> None:
    texts = {"src/a.rt": "// where", "out/a.rt": "// where", "a.md": "where", "run": "#!/bin/bash\n# where", "b/c.py": "# told\n# where"}
    for name, text in texts.items():
        (tmp_path / name).parent.mkdir(exist_ok=True)
        (tmp_path / name).write_text(text, encoding="utf-8")
    told = [f"{tmp_path}/b/c.py:1: where: told where", f"{tmp_path}/src/a.rt:1: where: where"]
    assert run(tmp_path)[0].splitlines() == [*told, f"{tmp_path}: 2 places to be said more plainly, and 0 are allowed"]


def test_the_pages_and_folders_that_have_a_bound_keep_it() -> None:
    assert run() == ("", 0)
