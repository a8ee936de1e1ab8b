"""The rules, compared with the examples of docs/RULES.md, and on random auctions with the program."""
import itertools
import pathlib
import random

import pytest
from hypothesis import given
from hypothesis import strategies as some

from generators import auction_of, definition_of, lines_of, questions_of
from hpb.lines import format_answer
from hpb.refusals import Refused
from hpb.rules import Auction, Tree, answer, begin, keep_eligibility, read_definition, rise_to_win, standing_of, tree_of
from hpb.rules.prices import shares
from serving import DEFINITION, EXAMPLES, Program, few

SCRIPTS = sorted(path for path in EXAMPLES.glob("*.txt"))
REFUSED = sorted([*EXAMPLES.glob("refused-definitions*/*.txt"), *EXAMPLES.glob("ten-mistakes/*.txt"), *EXAMPLES.glob("mistakes/*.txt")])
SEEDS = some.integers(0, 2**32)


def answers_of(script: bytes) -> list[str]:
    """The package's answers to a script, whose first line is the definition."""
    first, *lines = script.decode("latin-1").split("\n")
    try:
        auction = begin(read_definition(first.encode("latin-1")))
    except Refused as refused:
        return [refused.line]
    answers = []
    for line in lines[:-1]:
        auction, answered = answer(auction, line)
        answers.append(format_answer(answered))
    # A last line without LF is never carried out.
    return answers + ["ERR 10 line"] * bool(lines and lines[-1])


@pytest.mark.parametrize("script", SCRIPTS + REFUSED, ids=lambda path: f"{path.parent.name}-{path.stem}")
def test_examples_are_answered_as_their_files_say(script: pathlib.Path) -> None:
    assert answers_of(script.read_bytes()) == script.with_suffix(".out").read_text(encoding="latin-1").splitlines()


@few(20)
@given(SEEDS)
def test_random_auctions_are_answered_as_by_the_program(program: Program, seed: int) -> None:
    text, commands, auction = auction_of(seed)
    lines: list[str] = []
    for line in lines_of(commands):
        lines += [line, *([] if len(lines) % 7 else questions_of(auction.tree.definition))]
    lines += questions_of(auction.tree.definition)
    assert answers_of(b"\n".join([text, *(line.encode() for line in lines), b""])) == program.script(text, lines)


@given(SEEDS)
def test_the_prices_prove_the_winners(seed: int) -> None:
    _, _, auction = auction_of(seed)
    found, tree = auction.standing, auction.tree
    high = {name: bid.amount for name, bid in auction.high.items()}
    assert sum(high[name] for name in found.winners) == found.revenue
    assert sum(found.prices[name] for name, node in tree.nodes.items() if node.is_licence) == found.revenue
    assert all(amount <= found.prices[name] for name, amount in high.items())


MISTAKES = some.sampled_from([
    (b'"step":', b'"step":0.5e1'), (b'"step":', b'"step":-'), (b'"percent":', b'"percent":9'), (b'"parent":null', b'"parent":"null"'),
    (b'"units":', b'"units":18446744073709551616'), (b'"units":', b'"Units":'), (b'"name":"n0"', b'"name":"n1"'), (b'"name":"b', b'"name":"b-'),
    (b'"opening":', b'"opening":"7"'), (b'"nodes":[', b'"nodes":[3,'), (b'"bidders":[', b'"bidders":{'), (b'"stages":[', b'"stages":[101,'),
    (b'"stages":[', b'"stages":[60,60,60,60,60,'), (b'"step":', b'"step":1e999,"x":'), (b"{", b"{{"), (b'"parent":', b'"children":'),
    (b'"waivers":', b'"waivers":2'), (b'"units":', b'"units":0'), (b'"opening":', b'"opening":1'), (b'"parent":"n0"', b'"parent":"n9"'),
    (b'"step":', b'"step":00'), (b'"percent":', b'"percent":null,"q":'), (b'"name":"n0"', b'"name":"\\u006e0"'), (b'"name":"n', b'"name":"N'),
])


@few(40)
@given(SEEDS, some.lists(MISTAKES, min_size=1, max_size=3))
def test_definitions_with_mistakes_are_refused_as_by_the_program(program: Program, seed: int, mistakes: list[tuple[bytes, bytes]]) -> None:
    text = definition_of(random.Random(seed))
    for old, new in mistakes:
        text = text.replace(old, new, 1)
    assert answers_of(text + b"\nSHOW\n") == program.script(text, ["SHOW"])


@pytest.mark.parametrize("text", [
    b"", b"[]", b"7", b'"x"', b"nul", b"NaN", b"Infinity", b"\xef\xbb\xbf" + DEFINITION.strip(), DEFINITION.strip() + b"x", b"\xff", b"[" * 127 + b"]" * 127,
    b"[" * 128 + b"]" * 128, DEFINITION.strip().replace(b'"x"', b'"' + b"[" * 200 + b'"'), DEFINITION.strip() + b" " * 65_536, DEFINITION.strip() + b"\t\r ", DEFINITION.strip()[:-1],
    DEFINITION.replace(b'"step":10', b'"step":10.0').strip(), DEFINITION.replace(b'"step":10', b'"step":1e1').strip(),
    DEFINITION.replace(b'"step":10', b'"step":true').strip(), DEFINITION.replace(b'"step":10', b'"step":-0').strip(),
])
def test_texts_that_are_no_definition_are_answered_as_by_the_program(program: Program, text: bytes) -> None:
    assert answers_of(text + b"\nSHOW\n") == program.script(text, ["SHOW"])


def test_shares_of_two_in_three() -> None:
    assert shares(2, 3) == [1, 1, 0]


# What a bidder may ask before it bids.


def first_example(*lines: str) -> Auction:
    auction = begin(read_definition(DEFINITION))
    for line in ("BID x 1 a 100", "BID y 1 b 150", "BID z 1 all 500", "BID w 1 c 100", "CLOSE 1", *lines):
        auction, _ = answer(auction, line)
    return auction


def test_by_how_much_nodes_must_rise_in_the_first_example() -> None:
    """`all` wins by 500, and its parts have 250 and 100. East needs 400 beside the 100 on c, and c needs 250 beside the 250 of east."""
    auction = first_example()
    rises = {name: rise_to_win(auction.tree, auction.standing, name) for name in auction.tree.nodes}
    assert {name: (rise.amount, rise.rise, rise.parts_rise) for name, rise in rises.items()} == {
        "all": (500, 0, 150),
        "east": (400, 400, 150),
        "a": (250, 150, None),
        "b": (300, 150, None),
        "c": (250, 150, None),
        "d": (100, 100, None),
    }


def test_what_keeps_eligibility_in_the_first_example() -> None:
    """After close 1 minima are a 160, b 210, c 200, d 100. Of w's 25 units 20 are needed: c has 20; a and b have 20 too, for 370."""
    auction = first_example()
    minima = auction.standing.minima
    kept = keep_eligibility(auction.tree, minima, 80, 25)
    assert kept and (dict(kept.bids), kept.spending, kept.activity, kept.needed) == ({"c": 200}, 200, 20, 20)
    kept = keep_eligibility(auction.tree, minima, 95, 25)
    assert kept and (dict(kept.bids), kept.spending, kept.activity, kept.needed) == ({"c": 200, "d": 100}, 300, 25, 24)
    assert keep_eligibility(auction.tree, minima, 100, 7) is None
    kept = keep_eligibility(auction.tree, minima, 80, 40, won=["all"])
    assert kept and (dict(kept.bids), kept.activity) == ({}, 40)


def all_choices(tree: Tree, names: list[str]) -> list[tuple[str, ...]]:
    return [choice for count in range(len(names) + 1) for choice in itertools.combinations(names, count)]


@given(SEEDS)
def test_no_cheaper_bids_keep_an_eligibility(seed: int) -> None:
    _, _, auction = auction_of(seed, commands=25)
    tree, dice = auction.tree, random.Random(seed)
    nodes = list(tree.nodes)
    if len(nodes) > 9:
        return
    for bidder in tree.bidders:
        state, won = auction.bidders[bidder], auction.won_by(bidder)
        percentage = dice.choice([50, 80, 100])
        needed = -(-percentage * state.eligibility // 100)
        minima = auction.standing.minima
        fits = [
            sum(minima[name] for name in choice)
            for choice in all_choices(tree, [name for name in nodes if name not in state.bid_on])
            if needed <= (units := tree.units_of(state.bid_on | won | set(choice))) and (units <= state.eligibility or not choice)
        ]
        kept = keep_eligibility(tree, minima, percentage, state.eligibility, won, state.bid_on)
        assert (kept.spending if kept else None) == min(fits, default=None)


@given(SEEDS)
def test_a_node_that_rises_so_far_wins_and_one_step_less_does_not(seed: int) -> None:
    _, _, auction = auction_of(seed)
    tree, found, step = auction.tree, auction.standing, auction.tree.definition.step
    high = {name: bid.amount for name, bid in auction.high.items()}
    for name in tree.nodes:
        rise = rise_to_win(tree, found, name)
        assert name in standing_of(tree, {**high, name: rise.amount}).winners
        less = rise.amount - step
        if name not in found.winners and less >= found.minima[name]:
            assert name not in standing_of(tree, {**high, name: less}).winners


@given(SEEDS)
def test_parts_that_rise_so_far_displace_a_package(seed: int) -> None:
    _, _, auction = auction_of(seed)
    tree, found = auction.tree, auction.standing
    high = {name: bid.amount for name, bid in auction.high.items()}
    for name, node in tree.nodes.items():
        rise = rise_to_win(tree, found, name).parts_rise
        if node.is_licence or not rise:
            continue
        child = tree.children[name][0]
        raised = {**high, child: found.values.value[child] + rise}
        less = {**high, child: found.values.value[child] + rise - 1}
        stands = {name, *tree.above(name)}
        assert not stands & standing_of(tree, raised).winners
        assert stands & standing_of(tree, less).winners


def test_a_tree_is_made_once_a_definition() -> None:
    assert tree_of(read_definition(DEFINITION)) is tree_of(read_definition(DEFINITION))
