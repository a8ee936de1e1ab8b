"""Pages of `tools/report` against docs/RULES.md and numbers by hand; programs that lie; files that stay as they are."""

from __future__ import annotations

import hashlib
import json
import os
import re
import resource
import shutil
import subprocess
from collections.abc import Callable
from pathlib import Path
from unittest import mock

import pytest
from harness.auctions import FIRST_ROUND, PAGE, definition, text_of
from harness.conditions import Conditions
from harness.fronts import run_tool, start_tool
from harness.markup import Page, ReportPage, text_in
from harness.programs import Program, shown
from harness.serving import Serve
from reports import EFFECT, MISSING, NEEDED, NOW, WARNING, page_text, read, read_page, report

from hpb import program as asking
from hpb.markup import element

TOP = Path(__file__).resolve().parents[1]
SECONDS = 60


@pytest.fixture
def first(program: Program, memory: Path) -> Path:
    """The file of the first example after its close."""
    return program.keep(memory / "F", FIRST_ROUND)


# What each of these eligibilities needs in each of these stages.
LEAST = {
    50: {1: 1, 3: 2, 10: 5, 25: 13, 99: 50, 64_000_000: 32_000_000},
    67: {1: 1, 3: 3, 10: 7, 25: 17, 99: 67, 64_000_000: 42_880_000},
    95: {1: 1, 3: 3, 10: 10, 25: 24, 99: 95, 64_000_000: 60_800_000},
    100: {1: 1, 3: 3, 10: 10, 25: 25, 99: 99, 64_000_000: 64_000_000},
}


def test_how_much_activity_is_needed(program: Program, memory: Path) -> None:
    nodes = [{"name": "a", "parent": None, "units": 1, "opening": 10}]
    bidders = [{"name": f"b{units}", "units": units} for units in LEAST[50]]
    rules = {"step": 10, "percent": 10, "stages": list(LEAST), "nodes": nodes, "bidders": bidders}
    file = program.keep(memory / "F", (), json.dumps(rules).encode() + b"\n")
    for stage, wanted in enumerate(LEAST.values(), 1):
        rows = read_page(program, file).tables[NOW]
        assert [read(row[NEEDED]) for row in rows] == [read(row[MISSING]) for row in rows] == list(wanted.values())
        assert {row[EFFECT] for row in rows} == {"falls to 0"}
        program.run_lines(file, text_of([f"STAGE {stage}"]))


# The auctions of docs/RULES.md with stages, and with waivers over three rounds: x, y, z and w. The columns of a bidder: eligibility,
# activity, needed, missing, at a close now, and waivers left if there are some.
BEFORE_CLOSE_1 = "10 10 8 0 keeps 10; 10 10 8 0 keeps 10; 40 40 32 0 keeps 40; 25 20 20 0 keeps 25"
STAGE_2 = "10 0 10 10 falls to 0; 10 0 10 10 falls to 0; 40 40 38 0 keeps 40; 25 20 24 4 falls to 21"
ROUND_2 = (
    "10 0 8 8 keeps 10 by its own waiver 0; 10 0 8 8 keeps 10, a waiver is taken 1; 40 40 32 0 keeps 40 1; "
    "25 0 20 20 keeps 25, a waiver is taken 1"
)
ROUND_3 = "10 0 8 8 falls to 0 0; 10 0 8 8 falls to 0 0; 40 40 32 0 keeps 40 1; 25 0 20 20 falls to 0 0"
AT_THE_END = "0 0 0; 0 0 0; 40 40 1; 0 0 0"
STAGES = [*FIRST_ROUND, "STAGE 2", "BID w 2 c 250"]
WAIVERS = [*FIRST_ROUND, "WAIVE x 2", "CLOSE 2", "CLOSE 3"]


@pytest.mark.parametrize(
    ("waivers", "lines", "wanted", "ends"),
    [
        (0, STAGES[:4], BEFORE_CLOSE_1, False),
        (0, STAGES, STAGE_2, False),
        (1, WAIVERS[:-2], ROUND_2, False),
        (1, WAIVERS[:-1], ROUND_3, True),
        (1, WAIVERS, AT_THE_END, False),
    ],
    ids=["before close 1", "in stage 2", "in round 2", "in round 3", "at the end"],
)
def test_bidders_as_the_tables_of_the_rules_have_them(
    program: Program, memory: Path, waivers: int, lines: list[str], wanted: str, ends: bool
) -> None:
    found = read_page(program, program.keep(memory / "F", lines, definition(waivers)))
    assert "; ".join(" ".join([*row.values()][2:]) for row in found.tables[NOW]) == wanted
    assert [notice[: len(WARNING)] for notice in found.notices()] == [WARNING] * ends


FACTS = ["open, in round 2", "1 of 2, 80 percent", "500 dollars", "3 of 4", "5", "2"]
PASSED_DOWN = [["all", "500", "350", "500", "150", "0", "east 75, c 75"], ["east", "0", "250", "250", "0", "75", "a 38, b 37"]]


def test_the_first_example(program: Program, first: Path) -> None:
    """Round 1 of docs/RULES.md, by its tables."""
    found = read_page(program, first)
    rows = {caption: [list(row.values()) for row in table] for caption, table in found.tables.items()}
    assert rows["The winners after the last close"] == [["all", "z", "a, b, c", "500"], ["Together", "", "", "500"]]
    assert found.sums() == ["all 500 = 500", "a 138 + b 187 + c 175 + d 0 = 500"]
    assert rows["Packages, from the high bids"] == PASSED_DOWN
    assert [fact for fact in FACTS if fact not in found.text] == []
    assert "Winners, revenue and the prices of 6 nodes are those that the program tells." in found.text
    assert rows["How much activity each stage wants"] == [["1", "80", "now"], ["2", "95", "not yet"]]


def test_the_same_bytes_give_the_same_page_and_stay(program: Program, first: Path) -> None:
    other = Path(shutil.copyfile(first, first.with_name("another name")))
    before = first.read_bytes(), first.stat().st_mtime_ns
    pages = {report(program, first).output, report(program, other).output, page_text(program, first)}
    assert len(pages) == 1
    assert (first.read_bytes(), first.stat().st_mtime_ns) == before
    sums = [row["Sum"] for row in ReportPage(pages.pop()).tables["SHA-256"]]
    assert sums[:2] == [hashlib.sha256(data).hexdigest() for data in (before[0], definition())]
    assert sorted(path.name for path in first.parent.iterdir()) == ["F", "another name"]


def test_the_picture_of_the_document(program: Program, first: Path) -> None:
    """docs/REPORT.md shows what the tool makes now."""
    named = re.search(r"\]\((pictures/[a-z-]+\.svg)\)", (TOP / "docs" / "REPORT.md").read_text())
    assert named
    ran = report(program, first, "--picture")
    assert (ran.output, ran.errors, ran.status) == ((TOP / "docs" / named[1]).read_text(), "", 0)


# Files in use, and streams.


def test_a_file_in_use_has_its_definition_alone(program: Program, memory: Path, serve: Serve) -> None:
    """The head of a file never changes."""
    file = program.keep(memory / "F")
    serve(file)
    ran = report(program, file)
    assert (ran.output, ran.errors[:32], ran.status) == ("", "report: 91 device: it is in use;", 1)
    assert run_tool("definition", file).output.encode() == definition()


@pytest.mark.parametrize("name", ["report", "definition"])
def test_nothing_is_written_into_the_file_that_is_read(program: Program, memory: Path, name: str) -> None:
    file = program.keep(memory / "F")
    before = file.read_bytes()
    words = ["--program", program.path] if name == "report" else []
    with open(file, "ab") as stream, start_tool(name, file, *words, output=stream) as process:
        assert shown(process.communicate(timeout=SECONDS)[1]) == f"{name}: 91 device: it is one of the standard streams\n"
    assert process.returncode == 1
    assert file.read_bytes() == before and len(before) == 17 * PAGE


def test_a_full_disk_is_told(program: Program, memory: Path) -> None:
    file = program.keep(memory / "F")
    with open("/dev/full", "wb") as full, start_tool("definition", file, output=full) as process:
        assert process.communicate(timeout=SECONDS)[1] == b"definition: 92 stream: writing: No space left on device\n"
    assert process.returncode == 1


@pytest.mark.parametrize(
    ("limit", "most", "said"),
    [
        (resource.RLIMIT_FSIZE, PAGE, "no copy of the file can be made in /dev/shm: File too large"),
        (resource.RLIMIT_NOFILE, 6, "the program can't be started: [Errno 24] Too many open files"),
    ],
)
def test_a_system_that_refuses_a_copy_is_told(program: Program, room: Path, limit: int, most: int, said: str) -> None:
    """As a full /dev/shm does. Before, the tool showed an error of Python's."""
    file = program.keep(room / "F")
    ran = run_tool("report", file, "--program", program.path, conditions=Conditions(limits={limit: most}))
    assert (ran.output, ran.errors, ran.status) == ("", f"report: {said}\n", 1)


def test_a_copy_that_cannot_be_written_leaves_no_folder(tmp_path: Path, monkeypatch: pytest.MonkeyPatch) -> None:
    """Nor does one that is removed when there is no descriptor left, with which a folder could be looked through."""
    monkeypatch.setattr(asking, "MEMORY", str(tmp_path))
    with asking.Copy("hpb", b"an auction"), monkeypatch.context() as patch:
        assert len(list(tmp_path.iterdir())) == 1
        patch.setattr(os, "scandir", mock.Mock(side_effect=OSError(24, "Too many open files")))
    assert os.listdir(tmp_path) == []

    def write_bytes(path: Path, data: bytes) -> int:
        path.touch()
        raise OSError(28, "No space left on device")

    monkeypatch.setattr(Path, "write_bytes", write_bytes)
    with pytest.raises(asking.NotAnswered, match=f"^no copy of the file can be made in {tmp_path}: No space left on device$"):
        with asking.Copy("hpb", b"an auction"):
            pass
    assert os.listdir(tmp_path) == []


# Programs that lie.

LIES = [
    ("s/PRICE 138/PRICE 139/", "the licences' prices are 501 together"),
    ("s/PRICE 138 MIN 160/PRICE 139 MIN 160/; s/PRICE 187/PRICE 186/", "by the high bids the price of a is 138, and by the program 139"),
    ("s/REVENUE 500/REVENUE 510/", "the winners bid 500 together, and the revenue is 510"),
    ("s/all HIGH 500 z/all HIGH 500 x/", "the high bid on all, which has 40 units, is of x, who has 10"),
    ("s/100 x PRICE/100 renamed PRICE/", "the high bid on a is of renamed, who is no bidder of the definition"),
    ("s/MIN 550 WIN yes/MIN 550 WIN no/", "by the high bids all win, and by the program none"),
    ("s/MIN 160/MIN 170/", "the minimum of a is 170, and by its price it is 160"),
    ("s/WHO w ELIGIBILITY 0/WHO w ELIGIBILITY 1/", "by the rules a close leaves w 0 units and 0 waivers, and the program 1 and 0"),
    ("s/WHO z ELIGIBILITY 40 ACTIVITY 40/WHO z ELIGIBILITY 40 ACTIVITY 31/", "by the rules a close leaves z 38 units and 0 waivers"),
]
BROKEN = [
    ("s/NODE east/NODE <b>/", "this is no whole answer"),
    ("s/WHO x/WHO q/", "the program tells of another stage, or of other bidders"),
    ("s/STAGE 1/STAGE 7/", "this is no whole answer"),
    ("s/STAGE 1/STAGE 2/", "the program doesn't close its copy"),
    ("s/^OK 6/ERR 15 gap/", "the program doesn't close its copy"),
    ("/NODE c/d", "no answer to NODE c"),
    ("/WHO c/d; /WHO y/d", "lines got"),
    ("s/ROUND/round/", "no answer to SHOW"),
]

Liar = Callable[[str], Path]


@pytest.fixture
def liar(program: Program, room: Path) -> Liar:
    """A program whose answers are changed, by the words of `sed`."""

    def makes(change: str) -> Path:
        script = room / "liar"
        script.write_text(f'#!/bin/bash\nset -o pipefail\n"{program.path}" "$@" | sed \'{change}\'\n')
        script.chmod(0o755)
        return script

    return makes


@pytest.mark.parametrize(("change", "said"), LIES)
def test_what_is_not_right_is_named_at_the_top(first: Path, liar: Liar, change: str, said: str) -> None:
    ran = report(liar(change), first)
    found = ReportPage(ran.output)
    assert (ran.status, found.faults, said in ran.errors) == (3, [], True), ran.errors
    assert any(said in notice for notice in found.notices()), found.notices()
    assert "are those that the program tells" not in ran.output
    if "REVENUE" in change:
        more = ", and the revenue is 510"
        assert found.sums() == [f"all 500 = 500{more}", f"a 138 + b 187 + c 175 + d 0 = 500{more}"]


@pytest.mark.parametrize(("change", "said"), BROKEN)
def test_what_is_no_answer_is_refused(first: Path, liar: Liar, change: str, said: str) -> None:
    ran = report(liar(change), first)
    assert (ran.output, said in ran.errors, ran.status) == ("", True, 1), ran.errors


def test_a_program_that_does_not_lie_is_believed(first: Path, liar: Liar) -> None:
    assert report(liar("s/x/x/"), first).status == 0


def test_text_becomes_no_markup_and_markup_is_escaped_once() -> None:
    inner = element("b", "<&\"'>")
    whole = element("p", inner, "</p><script>", title="\"'<&>\n")
    found = Page(whole)
    assert inner == "<b>&lt;&amp;\"'&gt;</b>"
    assert (found.faults, [tag.tag for tag in found.all()], text_in(found.root)) == ([], ["page", "p", "b"], "<&\"'></p><script>")
    assert found.all("p")[0].attrib == {"title": "\"'<&>\n"}


@pytest.mark.parametrize("name", ["report", "definition", "verify", "explain", "client"])
def test_help(name: str) -> None:
    """By the scripts of `tools/`, which start the package's commands."""
    ran = subprocess.run([TOP / "tools" / name, "--help"], capture_output=True, text=True, timeout=SECONDS)
    assert (f"tools/{name} " in ran.stdout, ran.stderr, ran.returncode) == (True, "", 0)
    assert run_tool(name).status == 2
