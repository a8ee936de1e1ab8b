"""The things that a page of `tools/report` has to show of a file: the program's numbers, sums that add up, and the effect of a close of a copy."""

from __future__ import annotations

import re
import shutil
from collections import Counter
from collections.abc import Sequence
from pathlib import Path

from harness.auctions import text_of
from harness.fronts import run_tool
from harness.markup import ReportPage, picture_kind, picture_says, picture_texts
from harness.programs import Program, Ran

from hpb.file import read_head, read_image
from hpb.report.closing import read_report
from hpb.report.page import page
from hpb.rules.writing import fields_of

WARNING = "A close now ends the auction, for good."
CHECK, DASH, DOTS = "\N{CHECK MARK}", "\N{EN DASH}", "\N{HORIZONTAL ELLIPSIS}"
NODES, NOW = "Each node after the last close, in the order of the definition", "Each bidder now"
EFFECT, NEEDED, MISSING = "At a close now", "Activity needed", "Missing"
_LEFT = re.compile(r"(keeps|falls to) ([0-9]+(?:,[0-9]{3})*)(.*)")


def report(program: Program | Path, file: Path, *words: str) -> Ran:
    """Runs the tool on a file."""
    return run_tool("report", file, "--program", program.path if isinstance(program, Program) else program, *words)


def page_text(program: Program, file: Path) -> str:
    """The page, as the package makes it."""
    return str(page(read_report(program.path, read_image(file))))


def read_page(program: Program, file: Path) -> ReportPage:
    """A page whose markup is right, and on which nothing is said to be wrong."""
    text = page_text(program, file)
    found = ReportPage(text)
    assert [notice for notice in found.notices() if "Not right" in notice] == []
    assert found.faults == []
    assert text.startswith('<!DOCTYPE html>\n<html lang="en"><head>')
    return found


def plain(number: str | int) -> str:
    """What a page shows by a number."""
    return f"{int(number):,}"


def read(text: str) -> int:
    """The number that a page shows."""
    return int(text.replace(",", ""))


def copy_run(program: Program, file: Path, lines: Sequence[str]) -> list[str]:
    """The answers of a copy, which is then gone."""
    copy = Path(shutil.copyfile(file, file.with_name("copy")))
    answers = program.run_lines(copy, text_of(lines)).lines()
    copy.unlink()
    return answers


class Told:
    """What the program shows of a file, word by word, and of a close of a copy."""

    def __init__(self, program: Program, file: Path) -> None:
        self.definition = fields_of(read_head(file.read_bytes()).definition)
        self.bidders = [bidder["name"] for bidder in self.definition["bidders"]]
        questions = [f"WHO {name}" for name in self.bidders]
        self.shown, *nodes = (line.split(" ") for line in program.check(file).lines())
        self.nodes = {words[1]: words for words in nodes}
        round_now, stage = int(self.shown[1]), int(self.shown[3])
        self.percentage: int = self.definition["stages"][stage - 1]
        lines = [*questions, f"CLOSE {round_now + stage - 1}", "SHOW", *questions]
        answers = [line.split(" ") for line in copy_run(program, file, lines)]
        self.whos, (_, shown_after, *self.after) = answers[: len(questions)], answers[len(questions) :]
        self.is_open = self.shown[4] == "OPEN"
        self.ends = self.is_open and shown_after[4] == "CLOSED"

    @property
    def licences(self) -> list[str]:
        """The nodes that have units."""
        return [node["name"] for node in self.definition["nodes"] if "units" in node]

    def is_under(self, name: str | None, package: str) -> bool:
        """Whether a node is a package, or lies in it."""
        parents = {node["name"]: node["parent"] for node in self.definition["nodes"]}
        while name is not None and name != package:
            name = parents[name]
        return name == package


def look_at_page(program: Program, file: Path) -> tuple[ReportPage, Told]:
    """Compares a page with what the program shows."""
    found, told = read_page(program, file), Told(program, file)
    look_at_nodes(found, told)
    look_at_sums(found, told)
    look_at_packages(found, told)
    look_at_pictures(found, told)
    look_at_bidders(found, told)
    if told.is_open:
        look_at_close(found, told)
    assert any(notice.startswith(WARNING) for notice in found.notices()) == told.ends
    return found, told


def look_at_nodes(found: ReportPage, told: Told) -> None:
    """All nodes, with the same numbers."""
    wanted = []
    for _, name, _, high, bidder, _, price, _, least, _, wins in told.nodes.values():
        bid = ["none", DASH] if bidder == "-" else [plain(high), bidder]
        wanted.append([name, *bid, plain(price), plain(least), wins])
    titles = ("Node", "High bid", "Bidder", "Price", "Minimum", "Wins")
    assert [[row[title] for title in titles] for row in found.tables[NODES]] == wanted


def amounts_in(text: str) -> tuple[dict[str, int], str]:
    """Those of a sum, each behind its name, and what they are said to be together."""
    terms, _, together = text.partition(" = ")
    named = [term.split(" ") for term in terms.split(" + ")] if terms != "0" else []
    return {name: read(amount) for name, amount in named}, together


def look_at_sums(found: ReportPage, told: Told) -> None:
    """They have the program's numbers, and add up."""
    revenue, prices = int(told.shown[6]), {name: int(words[6]) for name, words in told.nodes.items()}
    bids = {name: int(words[3]) for name, words in told.nodes.items() if words[10] == "yes"}
    sums = [amounts_in(text) for text in found.sums()]
    assert sums == [(bids, plain(revenue)), ({name: prices[name] for name in told.licences}, plain(revenue))]
    assert [sum(amounts.values()) for amounts, _ in sums] == [revenue, revenue]
    rows = {row["Node"]: [row["High bid"], row["Price"], row["Price less bid"]] for row in found.tables.get("High bids", [])}
    with_bids = {name: (int(words[3]), int(words[6])) for name, words in told.nodes.items() if words[4] != "-"}
    assert rows == {name: [plain(high), plain(price), plain(price - high)] for name, (high, price) in with_bids.items()}
    assert [name for name, row in rows.items() if read(row[2]) < 0] == []


def look_at_packages(found: ReportPage, told: Told) -> None:
    """Each has the price that its licences have together."""
    rows = found.tables.get("Packages", [])
    assert [row["Package"] for row in rows] == [name for name in told.nodes if name not in told.licences]
    for row in rows:
        own, _ = amounts_in(row["Prices of its licences"])
        assert own == {name: int(told.nodes[name][6]) for name in told.licences if told.is_under(name, row["Package"])}
        assert (row["Together"], row["Its price"]) == (plain(sum(own.values())), plain(sum(own.values())))


def look_at_pictures(found: ReportPage, told: Told) -> None:
    """Each way of drawing the tree has each node once, and its description, too."""
    wanted, descriptions = Counter[str](), Counter[str]()
    for _, name, _, high, bidder, _, price, _, least, _, wins in told.nodes.values():
        bid = f"{plain(high)} of {bidder}" if bidder != "-" else "no bid"
        texts = [name + (f" {CHECK} wins" if wins == "yes" else ""), bid, f"price {plain(price)}", f"minimum {plain(least)}"]
        wanted.update(texts)
        descriptions[", ".join(texts)] += 1
    kinds = {picture_kind(picture) for picture in found.pictures}
    assert kinds
    for kind in kinds:
        parts = [picture for picture in found.pictures if picture_kind(picture) == kind]
        assert Counter(text for part in parts for text in picture_texts(part) if not text.endswith(DOTS)) == wanted
        assert Counter(one for part in parts for one in picture_says(part, "desc").split("; ")) == descriptions
        assert len({picture_says(part, "title") for part in parts}) == len(parts)


def look_at_bidders(found: ReportPage, told: Told) -> None:
    """What WHO shows."""
    rows = found.tables[NOW]
    titles = ["Bidder", "Eligibility", "Activity", *(["Waivers left"] if "waivers" in told.definition else [])]
    wanted = [[words[1], plain(words[3]), plain(words[5]), *map(plain, words[9:])] for words in told.whos]
    assert [[row.get(title) for title in titles] for row in rows] == wanted
    assert [row["Units at the start"] for row in rows] == [plain(bidder["units"]) for bidder in told.definition["bidders"]]
    assert (EFFECT in rows[0]) == told.is_open


def look_at_close(found: ReportPage, told: Told) -> None:
    """The activity needed is the least whole number that reaches the percentage. The eligibility left is that after a close of a copy."""
    rows = found.tables[NOW]
    for row, now, after in zip(rows, told.whos, told.after, strict=True):
        eligibility, activity, needed = int(now[3]), int(now[5]), read(row[NEEDED])
        assert needed * 100 >= told.percentage * eligibility > (needed - 1) * 100 or needed == eligibility == 0, row
        assert read(row[MISSING]) == max(0, needed - activity), row
        matched = _LEFT.fullmatch(row[EFFECT])
        assert matched, row
        how, left, rest = matched.groups()
        waivers = [int(count) - (rest == ", a waiver is taken") for count in now[9:]]
        assert (read(left), waivers) == (int(after[3]), [int(count) for count in after[9:]]), row
        assert (how == "falls to") == (int(after[3]) < eligibility), row
        assert not rest or activity < needed, row
    falls = sum(row[EFFECT].startswith("falls to") for row in rows)
    assert f"At a close now {falls} bidder{'s' * (falls != 1)} of {len(rows)} would lose eligibility." in found.text
