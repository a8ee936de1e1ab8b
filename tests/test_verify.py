"""`tools/verify` finds what the program shows right, and each change of it wrong; `tools/explain` warns of each slip, and of nothing else."""

from __future__ import annotations

from collections.abc import Iterator, Mapping
from pathlib import Path

import pytest
from harness.auctions import EXAMPLES, definition, text_of
from harness.fronts import run_tool
from harness.programs import Program

from hpb.refusals import HpbError
from hpb.rules.checking import check_sums
from hpb.rules.prices import minimum
from hpb.rules.told import read_told
from hpb.rules.tree import Tree, tree_of
from hpb.rules.writing import read_script

SCRIPTS = sorted(EXAMPLES.glob("*.txt"))
CLOSED = [script for script in SCRIPTS if "CLOSE " in script.read_text()]
SLIPS = sorted(EXAMPLES.glob("slips/*.warned"))
# A line and a word of it, and the word that comes in its place.
Words = Mapping[tuple[int, int], object]
STAGE, REVENUE = (0, 3), (0, 6)
NAME, HIGH, BIDDER, PRICE, MINIMUM, WINS = 1, 3, 4, 6, 8, 10


def with_words(lines: list[str], changed: Words) -> list[str]:
    words = [line.split(" ") for line in lines]
    for (line, word), other in changed.items():
        words[line][word] = str(other)
    return [" ".join(line) for line in words]


def is_right(tree: Tree, lines: list[str]) -> bool:
    try:
        return bool(list(check_sums(tree, read_told(tree, lines))))
    except HpbError:
        return False


def changes(tree: Tree, lines: list[str]) -> Iterator[Words]:
    """A revenue, a stage, a price, a winner, a high bid, a minimum or a name that is another one."""
    at = {line.split(" ")[NAME]: place for place, line in enumerate(lines) if line.startswith("NODE ")}
    words = {name: lines[place].split(" ") for name, place in at.items()}
    price, high = ({name: int(words[name][field]) for name in at} for field in (PRICE, HIGH))
    wins = [name for name in at if words[name][WINS] == "yes"]
    yield {STAGE: len(tree.definition.stages) + 1}
    yield from ({REVENUE: int(lines[0].split(" ")[6]) + by} for by in (-1, 1))
    for name, place in at.items():
        yield {(place, NAME): "no_such_node"}
        yield {(place, BIDDER): "nobody" if words[name][BIDDER] != "-" else next(iter(tree.bidders))}
        yield {(place, WINS): "no" if name in wins else "yes"}
        yield {(place, HIGH): price[name] + 1}
        yield {(place, MINIMUM): int(words[name][MINIMUM]) + 1}
        yield from ({(place, PRICE): price[name] + by} for by in (-1, 1))
    for name in wins:
        yield {(at[name], HIGH): high[name] - 1}
        yield from ({(at[above], HIGH): 0, (at[above], BIDDER): "x", (at[above], WINS): "yes"} for above in tree.above(name))
    for licence in tree.all_licences:
        yield from (with_sums(tree, at, price, licence, by) for by in (-1, 1))


def with_sums(tree: Tree, at: Mapping[str, int], price: Mapping[str, int], licence: str, by: int) -> Words:
    """A licence's price, with the prices of the nodes above it and all their minima."""
    names = [licence, *tree.above(licence)]
    prices: Words = {(at[name], PRICE): price[name] + by for name in names}
    return {**prices, **{(at[name], MINIMUM): minimum(tree, name, price[name] + by) for name in names}}


@pytest.mark.parametrize("script", CLOSED, ids=[script.stem for script in CLOSED])
def test_what_the_program_shows_is_right_and_each_change_of_it_is_wrong(program: Program, script: Path) -> None:
    tree = tree_of(read_script(script.read_bytes()))
    ran = program.run(text=script.read_bytes() + text_of(["SHOW", *(f"NODE {name}" for name in tree.nodes)]))
    lines = ran.lines()[-1 - len(tree.nodes) :]
    assert ran.status == 0 and is_right(tree, lines)
    all_changes = list(changes(tree, lines))
    assert len(all_changes) >= 7 * len(tree.nodes) + 3
    assert [change for change in all_changes if is_right(tree, with_words(lines, change))] == []


@pytest.mark.parametrize("script", SCRIPTS, ids=[script.stem for script in SCRIPTS])
def test_examples_are_explained_without_a_warning(script: Path) -> None:
    ran = run_tool("explain", script)
    assert (ran.output, ran.errors, ran.status) == ("", "", 0)


@pytest.mark.parametrize("warned", SLIPS, ids=[warned.stem for warned in SLIPS])
def test_slips_are_warned_of_as_it_stands_beside_them(warned: Path) -> None:
    (script,) = (path for path in EXAMPLES.glob(f"slips/{warned.stem}.*") if path.suffix in (".txt", ".json"))
    ran = run_tool("explain", script)
    assert (ran.output, ran.status) == (warned.read_text(), 1)


def test_there_are_auctions_and_slips_to_look_at() -> None:
    assert SCRIPTS and CLOSED and SLIPS


def verified(folder: Path, text: str, answers: str) -> tuple[str, int]:
    """What `tools/verify` says last of these answers, and its status."""
    (folder / "definition.json").write_text(text)
    ran = run_tool("verify", folder / "definition.json", text=answers.encode())
    return (ran.lines() or [""])[-1], ran.status


NODES, BIDDERS = '"nodes":[{"name":"a","parent":null,"units":1,"opening":100}]', '"bidders":[{"name":"x","units":1}]'
LICENCE = f'{{"step":1,"percent":1,"stages":[80],{NODES},{BIDDERS}}}'
SHOWN = "ROUND 2 STAGE 1 OPEN REVENUE 100 COUNT 2"
NODE = "NODE a HIGH 100 x PRICE 100 MIN 101 WIN yes"
BOTH = f"{SHOWN}\n{NODE}\n"
WAIVERS = LICENCE.replace('"nodes"', '"waivers":1,"nodes"')
WHO = "WHO x ELIGIBILITY 1 ACTIVITY 1 TICKET 1 WAIVERS 1"


@pytest.mark.parametrize(
    ("text", "answers", "status"),
    [
        (LICENCE, BOTH, 0),
        (LICENCE, BOTH.replace("yes", "no"), 1),
        (LICENCE, BOTH.replace("100", "150").replace("101", "152"), 0),
        (LICENCE, BOTH.replace("100", "150").replace("101", "151"), 1),
        (LICENCE, BOTH.replace("100", "1000000000000").replace("101", "1010000000000"), 0),
        (LICENCE, BOTH.replace("100", "1000000000001").replace("101", "1010000000002"), 1),
        (WAIVERS, f"{BOTH}{WHO}\n", 0),
        (WAIVERS, f"{BOTH.replace('MIN 101', 'MIN 102')}{WHO}\n", 1),
        (WAIVERS, f"{BOTH}{WHO[:-1]}2\n", 1),
        (LICENCE, f"{SHOWN}\n{NODE[:-2]}\n", 2),
        (LICENCE, f"{SHOWN}\n", 2),
        (LICENCE, f"{NODE}\n", 2),
        (LICENCE, f"{BOTH}{NODE.replace('a', 'b', 1)}\n", 2),
        (LICENCE, f"{SHOWN.replace('100', '-100')}\n{NODE}\n", 2),
        (LICENCE, f"{SHOWN.replace('100', '0100')}\n{NODE}\n", 2),
        (LICENCE, BOTH.replace("STAGE 1", "STAGE 0"), 2),
        (WAIVERS, f"{BOTH}{WHO[:-1]}\n", 2),
        (LICENCE, "", 2),
        (LICENCE.replace("null", '"a"'), BOTH, 2),
        (LICENCE.replace('"step":1', '"step":0'), BOTH, 2),
        (LICENCE.replace('"stages":[80],', ""), BOTH, 2),
        ("[1]", BOTH, 2),
        pytest.param("[" * 100_000, BOTH, 2, id="deep"),
    ],
)
def test_what_is_no_definition_or_no_whole_answer_is_neither_right_nor_wrong(room: Path, text: str, answers: str, status: int) -> None:
    assert verified(room, text, answers)[1] == status


# What the first example of docs/RULES.md leads to.
FIRST = [
    "ROUND 2 STAGE 1 OPEN REVENUE 500 COUNT 5",
    "NODE all HIGH 500 z PRICE 500 MIN 550 WIN yes",
    "NODE east HIGH 0 - PRICE 325 MIN 360 WIN no",
    "NODE a HIGH 100 x PRICE 138 MIN 160 WIN no",
    "NODE b HIGH 150 y PRICE 187 MIN 210 WIN no",
    "NODE c HIGH 100 w PRICE 175 MIN 200 WIN no",
    "NODE d HIGH 0 - PRICE 0 MIN 100 WIN no",
    "WHO w ELIGIBILITY 25 ACTIVITY 0 TICKET 1",
]
ALL, EAST, A, D, W = 1, 2, 3, 6, 7
EAST_WINS = {(ALL, HIGH): 300, (EAST, HIGH): 200, (EAST, BIDDER): "z", (EAST, WINS): "yes"}


@pytest.mark.parametrize(
    ("changed", "said"),
    [
        ({}, "So no choice of these bids brings more than 500."),
        ({(A, BIDDER): "renamed"}, "Wrong: the high bid on a is of renamed, who is no bidder of the definition."),
        ({(W, NAME): "renamed"}, "Wrong: renamed is no bidder of the definition."),
        ({(W, 3): 26}, "Wrong: w has more units or waivers than the definition gives it."),
        ({STAGE: 3}, "Wrong: the stage is 3, and the definition has 2."),
        ({(ALL, BIDDER): "w"}, "Wrong: the high bid on all, which has 40 units, is of w, who has 25."),
        ({(A, HIGH): 101}, "Wrong: the high bid on a is 101, and no multiple of the step 10 from the opening on."),
        ({(A, HIGH): 90}, "Wrong: the high bid on a is 90, and no multiple of the step 10 from the opening on."),
        ({(D, HIGH): 100}, "Wrong: the high bid on d is 100, and is nobody's."),
        ({(A, HIGH): 140}, "Wrong: the high bid on a is 140, above its price 138."),
        ({(D, WINS): "yes"}, "Wrong: d wins, and nobody has bid on it."),
        (EAST_WINS, "Wrong: east wins, and so does all, in which it lies."),
        ({REVENUE: 510}, "Wrong: the winners bid 500 together, and the revenue is 510."),
        ({(ALL, PRICE): 501}, "Wrong: the price of all is 501, and its licences' prices are 500 together."),
        ({(D, PRICE): 1}, "Wrong: the licences' prices are 501 together, and the revenue is 500."),
        ({(D, MINIMUM): 110}, "Wrong: the minimum of d is 110, and by its price it is 100."),
    ],
)
def test_what_is_wrong_is_named(room: Path, changed: Words, said: str) -> None:
    """Each fault is the only one."""
    answers = text_of(with_words(FIRST, changed)).decode()
    assert verified(room, definition().decode(), answers) == (said, 1 if changed else 0)
