"""What the page says of a definition: each field with its range, several faults at once, and the greatest definitions."""

from __future__ import annotations

import json
import re

import pytest

from harness.programs import Program
from protocol.page import PAGE, codes, sentences
from protocol.talking import EMPTY, WORDS, Asks, Hpb, asks_script, changed, data

MOST = 1_000_000_000_000
# JSON by fields; without one the field isn't there.
Fields = dict[str, str | None]


def edited(fields: Fields) -> str:
    """The definition of the page with these fields. A key is a field of the top object, or NAME.FIELD of a node or a bidder. A value is
    JSON, or None for a field that isn't there."""
    definition = json.loads(PAGE.definition)
    found = {thing["name"]: thing for thing in definition["nodes"] + definition["bidders"]}
    for place, (key, value) in enumerate(fields.items()):
        name, _, field = key.rpartition(".")
        thing = found[name] if name else definition
        thing.pop(field, None) if value is None else thing.update({field: f"@{place}@"})
    text = json.dumps(definition)
    for place, value in enumerate(fields.values()):
        text = text.replace(f'"@{place}@"', value or "")
    return text + "\n"


def judge(program: Program, definition: str, number: int, said: str = "") -> None:
    """It is accepted if the number is 0, or else refused by it, with this front of a reason."""
    ran = program.run(text=data(definition) + b"SHOW\n")
    if not number:
        assert (ran.output, ran.errors, ran.status) == (EMPTY, "", 0), definition
        return
    refusal = f"{number} {WORDS[str(number)]}"
    assert (ran.output, ran.status) == (f"ERR {refusal}\n", 1), definition
    assert re.fullmatch(f"hpb: {refusal}: (?=.){re.escape(said)}.*\n", ran.errors), ran.errors


NAMES: dict[int, list[str | None]] = {
    0: ['"abcdefghijklmnop"', '"qrstuvwxyz0_9"', '"12345678"'],
    51: ['""', '"abcdefghijklmnopq"', '"D"', '"d-e"', '"d e"', '"\xc3\xa9"', '"w."', '"Ann Lee"', r'"\u0041"'],
}
# By the rows of the table of fields: an example of each field, and the values that are accepted (0) or refused by a number.
VALUES: dict[tuple[str, str], tuple[str, dict[int, list[str | None]]]] = {
    ("top", "step"): ("step", {0: ["1"], 62: ["0", "1000001", "1e1", "2000000"], 61: ['"10"', None]}),
    ("top", "percent"): (
        "percent",
        {0: ["1", "50"], 62: ["0", "51", "99", "-1", "1.5", "10.0", "1e1", "1E1", "-10", "-0"], 61: ["null", None], 60: ["+10"]},
    ),
    ("top", "stages"): (
        "stages",
        {
            0: ["[50]", "[100,50,100,50]"],
            62: ["[80,49]", "[101,95]", "[8,95]"],
            50: ["[]"],
            56: ["[80,80,80,80,80]"],
            61: ["80", '["80"]', None],
        },
    ),
    ("top", "nodes"): ("nodes", {50: ["[]"], 61: ["{}", None]}),
    ("top", "bidders"): ("bidders", {50: ["[]"], 61: ["[10]", None]}),
    ("top", "waivers"): ("waivers", {0: ["0", "20", None], 62: ["21", "-1", "2.0"], 61: ['"1"', "null"]}),
    ("node", "name"): ("d.name", {**NAMES, 0: [*NAMES[0], '"x"', r'"\u0064"'], 52: ['"c"', r'"\u0061"'], 61: ["4", None]}),
    ("node", "parent"): (
        "d.parent",
        {0: ['"east"', r'"\u0061ll"'], 53: ['"nowhere"', '"d"', '"null"', '"x"'], 55: ['"c"', '"a"'], 61: ["0", None]},
    ),
    ("node", "units"): (
        "d.units",
        {0: ["1", "1000000"], 57: ["0", "1000001", str(2**64 - 1)], 62: [str(2**64), "9" * 26], 61: ['"5"', None]},
    ),
    ("node", "opening"): ("d.opening", {0: ["10", "110", "10000000000"], 57: ["0", "5", "104", "105", "10000000010"], 61: ["[]", None]}),
    ("bidder", "name"): ("w.name", {**NAMES, 0: [*NAMES[0], '"all"'], 52: ['"z"'], 61: ["null", None]}),
    ("bidder", "units"): ("w.units", {0: ["1", "64000000"], 62: ["0", "64000001", "100000000"], 61: ['"25"', None]}),
}
ONE: Fields = {"nodes": '[{"opening":100,"units":10,"parent":null,"name":"a"}]', "bidders": '[{"units":10,"name":"x"}]'}
MILLION: Fields = {**ONE, "step": "1000000", "nodes": '[{"name":"a","parent":null,"units":10,"opening":1000000}]'}
BAD_NAME: Fields = {"all.name": '"All"'}
# By the refusal that comes of them (0: none): fields, of which several may be wrong.
FAULTS: dict[int, list[Fields]] = {
    0: [MILLION, {"b.parent": "null", "d.parent": '"east"'}],
    50: [{**ONE, "nodes": "[]"}, {**ONE, "bidders": "[]"}, {"stages": "[]", "d.name": '"D"'}],
    51: [{"d.name": '"a"', "w.name": '"W"'}],
    52: [{"d.parent": '"nowhere"', "w.name": '"x"'}],
    53: [{"all.parent": '"d"'}, {"b.parent": '"all"', "d.parent": '"nowhere"'}],
    54: [{"d.units": None, "d.opening": None}, {"b.parent": '"all"'}, {"b.parent": "null"}, {"b.parent": '"all"', "d.parent": '"a"'}],
    55: [{"east.units": "20", "east.opening": "200"}, {"stages": "[80,80,80,80,80]", "d.parent": '"a"'}],
    56: [{"stages": "[80,80,80,80,80]", "a.units": "0"}],
    60: [{"Step": "1e999"}, {"Step": "10", "note": "[" * 127 + "]" * 127}, {"Step": "10", "note": f'"{"a" * 65_500}"'}, {"Step": "10,"}],
    61: [
        {"note": "1"}, {"d.note": "1"}, {"w.note": "1"}, {"Step": "1"}, {"w.waivers": "3"}, {"d.waivers": "3"}, {"all.parent": None},
        {"b.parent": None}, {"Step": "10", "note": "[" * 126 + "]" * 126}, {"step": "1.5", "w.units": None}, {"step": "1.5", "w.note": "1"},
        {"step": "1.5", "w.units": '"25"'}, {"step": str(2**64), "w.units": '"25"'}, {"step": "1.5", "waivers": "null"},
    ],
    62: [
        {**BAD_NAME, "w.units": "2.5"}, {**BAD_NAME, "step": "0"}, {**BAD_NAME, "percent": "51"}, {**BAD_NAME, "stages": "[80,101]"},
        {**BAD_NAME, "waivers": "21"}, {**BAD_NAME, "w.units": "64000001"}, {"stages": "[]", "waivers": "21"}, {"stages": "[]", "w.units": "0"},
    ],
}


@sentences(
    """Every field is required .. Object | Field | Type | Range, else .. A top node, too .. A number is a whole .. With a point, an .. `null` isn't
    a number .. In a definition .."""
)
@pytest.mark.parametrize(("object_", "field"), VALUES, ids=".".join)
def test_each_field_has_its_type_and_its_range(program: Program, object_: str, field: str) -> None:
    key, values = VALUES[object_, field]
    for number, texts in values.items():
        for text in texts:
            judge(program, edited({key: text}), number)


def test_each_row_of_the_table_is_tried_by_its_ends_and_by_its_refusals() -> None:
    object_, rows = "", PAGE.table("Object", "Field", "Type", "Range, else").rows
    keys = [(object_ := row[0] or object_, codes(row[1])[0]) for row in rows]
    assert keys == list(VALUES)
    for (_, values), (*_, told) in zip(VALUES.values(), rows, strict=True):
        assert {int(number) for number in re.findall(r"(?:else|:) (\d\d)\b", told)} - {56} <= values.keys(), told
        if ends := re.match(r"([\d,]+) to ([\d,]+), else (\d+)", told):
            least, most, number = (int(end.replace(",", "")) for end in ends.groups())
            assert str(least) in values[0] and {str(least - 1), str(most + 1)} <= set(values[number]), told


@sentences(
    """A node with `units` .. A node with neither .. A node with only .. If there are several .. 60, the bytes aren't .. 61, anywhere in .. 62,
    anywhere in .. 62, the step, the .. the smallest of .."""
)
@pytest.mark.parametrize("number", FAULTS)
def test_several_faults_give_one_refusal(program: Program, number: int) -> None:
    for fields in FAULTS[number]:
        judge(program, edited(fields), number)


def test_a_number_that_is_not_whole_comes_before_one_out_of_range(program: Program) -> None:
    judge(program, edited({"step": "0", "w.units": "2.5"}), 62, "bidders[3].units: 2.5 ")
    judge(program, edited({"percent": "51", "w.units": str(2**64)}), 62, "bidders[3].units: ")


@sentences(
    """Spaces, tabs and .. A byte order mark .. A definition without .. Then no line follows .. One JSON object .. If it is accepted .. If it is
    refused .. Then no later line .. Standard error gives .."""
)
def test_the_text_of_a_definition(hpb: Hpb) -> None:
    definition = PAGE.definition[:-1]
    judge(hpb.program, f"  \t\t\r{definition}\t\t  \r\n", 0)
    judge(hpb.program, f"{definition}\r\n", 0)
    judge(hpb.program, f"\xef\xbb\xbf{definition}\n", 60)
    hpb.gives("", "", definition)
    hpb.refuses("", "61 field", '{"step":10}\nSHOW\n', "percent: missing")
    judge(hpb.program, definition.ljust(65_536) + "\n", 0)
    judge(hpb.program, definition.ljust(65_537) + "\n", 60)
    for change in (',"nodes" -> ,\n"nodes"', '],"bidders" -> "bidders"', '"step" -> "Step":10,"\xff":1,"step"'):
        judge(hpb.program, changed(change), 60)
    package = '{"name":"east","parent":"all"}, -> '
    judge(hpb.program, changed(package, '"east" -> "all"', '"east" -> "all"'), 0)
    bare = f'{{"bidders":{ONE["bidders"]},"nodes":{ONE["nodes"]},"stages":[80],"percent":10,"step":10}}\n'
    judge(hpb.program, bare, 0)


@sentences("Escapes in texts ..")
def test_escapes_in_texts(asks: Asks) -> None:
    asks(r""""name":"d" -> "name":"\u0065"; NODE e = HIGH 0 - PRICE 0 MIN 100 WIN no; NODE \u0065 = 12""")
    asks(r""""name":"d" -> "n\u0061me":"d"; NODE d = HIGH 0 - PRICE 0 MIN 100 WIN no""")


@sentences("`waivers` is a field ..")
def test_each_bidder_starts_with_all_waivers(asks: Asks) -> None:
    for count in (3, 20):
        x, w = (f"ELIGIBILITY {units} ACTIVITY 0 TICKET 0 WAIVERS {count}" for units in (10, 25))
        asks(f"waivers {count}; WHO x = {x}; WHO w = {w}")
    asks("WHO x = ELIGIBILITY 10 ACTIVITY 0 TICKET 0; WAIVE x 1 = 28")


def node(name: str, parent: str | None = None) -> dict[str, object]:
    """A package."""
    return {"name": name, "parent": parent}


def licence(name: str, parent: str | None = None, opening: int = 10) -> dict[str, object]:
    """A licence of one unit."""
    return {**node(name, parent), "units": 1, "opening": opening}


def definition_of(nodes: list[dict[str, object]], bidders: list[str], **fields: int) -> str:
    """A definition whose bidders have 64 units each."""
    named = [{"name": name, "units": 64} for name in bidders]
    return json.dumps({"step": 10, "percent": 50, "stages": [80], **fields, "nodes": nodes, "bidders": named}) + "\n"


def prices(name: str, bidder: str) -> tuple[str, list[str]]:
    """A package of 64 licences with the greatest percent, and the greatest bid on each licence."""
    nodes = [node(name), *(licence(f"l{place}", name) for place in range(64))]
    return definition_of(nodes, [bidder]), [f"BID {bidder} {place + 1} l{place} {MOST} = OK {place + 1}" for place in range(64)]


def test_the_greatest_prices(asks: Asks) -> None:
    definition, bids = prices("p", "x")
    shown = f"NODE p = HIGH 0 - PRICE {64 * MOST} MIN {96 * MOST} WIN no"
    refused = f"BID x 65 p {96 * MOST} = 23; BID x 65 p {MOST} = 22"
    asks("; ".join([*bids, "CLOSE 1 = OK 65", shown, refused]), definition)


@sentences("The longest line .. The longest answer ..")
def test_the_longest_line_and_the_longest_answer(asks: Asks) -> None:
    name, bidder = "p" * 16, "b" * 16
    definition, bids = prices(name, bidder)
    answer = f"NODE {name} HIGH {MOST} {bidder} PRICE {64 * MOST} MIN {96 * MOST} WIN no"
    line = f"BID {bidder} 4294967295 {name} 18446744073709551615"
    high = f"BID {bidder} 65 {name} {MOST} = OK 65"
    asks("; ".join([*bids, high, "CLOSE 1 = OK 66", f"NODE {name} = {answer}", f"{line} = 15"]), definition)
    assert (len(line), len(answer)) == (69, 104)


@sentences("At 1,000,000 accepted .. Then bids since .. 26 comes after 1,000,000 ..")
@pytest.mark.timeout(300)
def test_a_million_commands(program: Program) -> None:
    names, left, rounds, least, lines = [f"b{place}" for place in range(64)], 1_000_000, 0, 1, []
    while left > 64 * 64:
        lines += [f"BID {name} {64 * rounds + place + 1} l{place} {least}" for name in names for place in range(64)]
        rounds += 1
        lines.append(f"CLOSE {rounds}")
        left -= 64 * 64 + 1
        high, least = least, least + (least + 99) // 100
    last = [f"BID b{place // 64} {64 * rounds + place % 64 + 1} l{place % 64} {least}" for place in range(left + 1)]
    pairs = [f"{line} = OK {number}" for number, line in enumerate([*lines, *last[:left]], 1)]
    shown = f"SHOW = ROUND {rounds + 1} STAGE 1 OPEN REVENUE {64 * high} COUNT 1000000"
    asked = [last[left], f"WAIVE b{left // 64} {64 * rounds + left % 64 + 1}", f"CLOSE {rounds + 1}", f"STAGE {rounds + 1}"]
    node_shown = f"NODE l0 = HIGH {high} b0 PRICE {high} MIN {least} WIN yes"
    pairs += [shown, *(f"{line} = 26" for line in asked), node_shown, f"{last[left - 1]} = OK 1000000", f"{last[0]} = 13", shown]
    asks_script(program, "\n".join(pairs), definition_of([licence(f"l{place}", None, 1) for place in range(64)], names, step=1, percent=1))
