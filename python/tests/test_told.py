"""The state of an auction by its answers, whether the sums show it, and the knowledge of an auction that is followed."""
import dataclasses
import random

import pytest
from hypothesis import given
from hypothesis import strategies as some

from generators import auction_of, definition_of, questions_of
from hpb.lines import NodeShown, Shown, format_answer
from hpb.pages.view import Seen, taken
from hpb.refusals import NotJson
from hpb.rules import answer, read_definition, tree_of
from hpb.rules.checking import Wrong, check_sums
from hpb.rules.told import NotTold, Told, look_whose, read_told
from hpb.rules.writing import definition_line, fields_of, read_fields, read_script
from serving import DEFINITION

SEEDS = some.integers(0, 2**32)
TREE = tree_of(read_definition(DEFINITION))
# The first example of docs/RULES.md after its close.
FIRST = [
    "ROUND 2 STAGE 1 OPEN REVENUE 500 COUNT 5",
    "NODE all HIGH 500 z PRICE 500 MIN 550 WIN yes",
    "NODE east HIGH 0 - PRICE 325 MIN 360 WIN no",
    "NODE a HIGH 100 x PRICE 138 MIN 160 WIN no",
    "NODE b HIGH 150 y PRICE 187 MIN 210 WIN no",
    "NODE c HIGH 100 w PRICE 175 MIN 200 WIN no",
    "NODE d HIGH 0 - PRICE 0 MIN 100 WIN no",
    "WHO w ELIGIBILITY 25 ACTIVITY 0 TICKET 1",
]
SAID = [
    "Stage, bidders and each high bid are such as the definition allows.",
    "The winners bid 500 together, which is the revenue, and none lies in another.",
    "The 4 licences' prices are 500 together, which is the revenue.",
    "Each of 6 nodes has the price that its licences have together.",
    "None of 4 high bids is above its node's price.",
    "Each minimum follows from its node's price.",
]


def told_of(seed: int) -> Told:
    """The answers of the package's rules for a random auction."""
    _, _, auction = auction_of(seed)
    lines = [format_answer(answer(auction, line)[1]) for line in questions_of(auction.tree.definition)]
    return read_told(auction.tree, lines)


def test_the_sums_of_the_first_example_are_said() -> None:
    assert list(check_sums(TREE, read_told(TREE, FIRST))) == SAID


@given(SEEDS)
def test_the_sums_of_each_auction_are_right(seed: int) -> None:
    tree, told = auction_of(seed)[2].tree, told_of(seed)
    look_whose(tree, told)
    assert len(list(check_sums(tree, told))) == len(SAID)


@given(SEEDS, some.integers(1, 1000))
def test_a_price_that_is_another_one_is_wrong(seed: int, more: int) -> None:
    tree, told = auction_of(seed)[2].tree, told_of(seed)
    name = list(tree.nodes)[seed % len(tree.nodes)]
    changed = dataclasses.replace(told.nodes[name], price=told.nodes[name].price + more)
    with pytest.raises(Wrong):
        list(check_sums(tree, dataclasses.replace(told, nodes={**told.nodes, name: changed})))


@pytest.mark.parametrize(
    ("lines", "says"),
    [
        (FIRST[1:], "no answer to SHOW"),
        (FIRST[:-2], "no answer to NODE d"),
        ([*FIRST, FIRST[6].replace(" d ", " e ")], "the definition has no node e"),
        ([*FIRST, "NODE d HIGH 0"], "this is no whole answer: 'NODE d HIGH 0'"),
        ([*FIRST, FIRST[0].replace("STAGE 1", "STAGE 5")], "this is no whole answer: 'ROUND 2 STAGE 5 OPEN REVENUE 500 COUNT 5'"),
    ],
)
def test_answers_that_say_too_little_are_refused(lines: list[str], says: str) -> None:
    with pytest.raises(NotTold) as refused:
        read_told(TREE, lines)
    assert str(refused.value) == says


@pytest.mark.parametrize(
    ("old", "new", "says"),
    [
        ("MIN 550", "MIN 560", "the minimum of all is 560, and by this one 550"),
        ("100 x", "100 q", "it has no bidder q"),
        ("WHO w ELIGIBILITY 25", "WHO w ELIGIBILITY 26", "w has an eligibility of 26 and 0 waivers"),
        ("WHO w", "WHO v", "it has no bidder v"),
        ("STAGE 1", "STAGE 3", "it has no stage 3"),
    ],
)
def test_an_auction_of_another_definition_is_refused(old: str, new: str, says: str) -> None:
    told = read_told(TREE, [line.replace(old, new) for line in FIRST])
    with pytest.raises(NotTold) as refused:
        look_whose(TREE, told)
    assert str(refused.value) == f"another definition: {says}"


def test_other_answers_are_passed_over_and_the_last_one_counts() -> None:
    before = FIRST[0].replace("COUNT 5", "COUNT 4")
    assert read_told(TREE, [before, "OK 5", "ERR 22 low", *FIRST]) == read_told(TREE, FIRST)


@given(SEEDS)
def test_a_definition_is_written_as_it_is_read(seed: int) -> None:
    definition = read_definition(definition_of(random.Random(seed)))
    assert read_definition(definition_line(definition).encode()) == definition
    assert read_fields(fields_of(definition)) == definition


def test_a_script_begins_with_its_definition() -> None:
    assert definition_line(read_script(DEFINITION + b"SHOW\n")).encode() == DEFINITION
    with pytest.raises(NotJson, match="the definition is no JSON, nor is its first line"):
        read_script(b"SHOW\n" + DEFINITION)


def seen_of(old: Seen | None, shown: Shown, **nodes: NodeShown) -> Seen:
    told = read_told(TREE, FIRST)
    return taken(TREE, [], old, dataclasses.replace(told, shown=shown, nodes={**told.nodes, **nodes}))


def test_what_is_known_of_a_round_that_was_seen_from_its_beginning() -> None:
    """By hand: the close was command 5. A bid and a stage aren't closes, and two bids count as two."""
    begun = seen_of(seen_of(None, Shown(1, 1, False, 0, 4)), Shown(2, 1, False, 500, 5))
    assert (begun.begin.is_exact, begun.accepted(), begun.would_end()) == (True, 0, True)
    bid = seen_of(begun, Shown(2, 2, False, 500, 7))
    assert (bid.begin, bid.accepted(), bid.would_end()) == (begun.begin, 1, False)


def test_what_is_known_of_a_round_that_was_first_seen_in_its_midst() -> None:
    first = seen_of(None, Shown(2, 1, False, 500, 6))
    assert (first.before, first.begin.is_exact, first.accepted(), first.would_end()) == (None, False, 0, None)
    over = seen_of(first, Shown(2, 1, True, 500, 8))
    assert (over.before, over.would_end()) == (first.standing, False)


def test_an_older_copy_is_seen_anew() -> None:
    newer = seen_of(seen_of(None, Shown(2, 1, False, 500, 6)), Shown(3, 1, False, 500, 8))
    assert newer.before is not None
    assert seen_of(newer, Shown(2, 1, False, 500, 6)).before is None
