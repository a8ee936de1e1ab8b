"""Sentences of the page about lines, with the answers of lines that show each: by a script, and by a server on both layouts."""

from __future__ import annotations

import pytest

from protocol.page import PAGE, TOP, sentences
from protocol.talking import EMPTY, FIRST, Asks, same

TEN = "10"
SHOWS = """SHOW = ROUND 2 STAGE 2 OPEN REVENUE 500 COUNT 7; NODE a = HIGH 100 x PRICE 138 MIN 160 WIN no
WHO x = ELIGIBILITY 10 ACTIVITY 10 TICKET 2; WHO y = ELIGIBILITY 10 ACTIVITY 0 TICKET 1"""

# By sentences: a transcript.
EXAMPLES: dict[str, str] = {
    """`hpb` without a .. The first line is .. Each line after .. The first four are .. `ERR number word` ..""": """
        BID x 1 a 100 = OK 1; SHOW = ROUND 1 STAGE 1 OPEN REVENUE 0 COUNT 1; BID x 1 a 110 = 14; BID y 1 b 90 = 22
        NODE a = HIGH 0 - PRICE 0 MIN 100 WIN no; WHO x = ELIGIBILITY 10 ACTIVITY 10 TICKET 1; none of these = 10""",
    """Refused commands .. The auction lives ..""": f"BID x 2 a 100 = 15; STAGE 0 = 13; CLOSE 2 = 15; SHOW = {EMPTY[:-1]}",
    """`BID bidder ticket .. `WAIVE bidder ticket` ..""": """
        waivers 1; BID z 1 a 100 = OK 1; WAIVE x 1 = OK 2; CLOSE 1 = OK 3; CLOSE 2 = OK 4; WHO x = ELIGIBILITY 0 ACTIVITY 0 TICKET 1 WAIVERS 0
        WHO z = ELIGIBILITY 12 ACTIVITY 10 TICKET 1 WAIVERS 0""",
    """`CLOSE ticket` | the .. `STAGE ticket` | the .. `SHOW` | the state .. `NODE node` | a .. `WHO bidder` | a ..""": """
        BID x 1 a 100 = OK 1; BID w 1 c 100 = OK 2; SHOW = ROUND 1 STAGE 1 OPEN REVENUE 0 COUNT 2; NODE a = HIGH 0 - PRICE 0 MIN 100 WIN no
        WHO x = ELIGIBILITY 10 ACTIVITY 10 TICKET 1; SHOW = ROUND 1 STAGE 1 OPEN REVENUE 0 COUNT 2; CLOSE 1 = OK 3
        NODE a = HIGH 100 x PRICE 100 MIN 110 WIN yes; WHO w = ELIGIBILITY 25 ACTIVITY 20 TICKET 1; STAGE 2 = OK 4
        SHOW = ROUND 2 STAGE 2 OPEN REVENUE 200 COUNT 4; BID w 2 c 110 = OK 5; CLOSE 3 = OK 6; WHO w = ELIGIBILITY 21 ACTIVITY 20 TICKET 2
        CLOSE 4 = OK 7; SHOW = ROUND 3 STAGE 2 CLOSED REVENUE 210 COUNT 7; CLOSE 5 = 20""",
    """Words are separated .. A line ends with .. The words at the .. Anything else gets .. `hpb` reads such ..""": (
        same(TEN, "SHOW  ", "", "BID x 1  a 100", "BID x 1 a  100", "BID\tx\t1\ta\t100", "BIDx1a100", " SHOW", "SHOW ", "NODE ", "WHO", "SHOW a")
        + "; " + same(TEN, "BID x 1 a 100 100", "BID x 1 a", "WAIVE x", "WAIVE x 1 1", "WAIVE 1", "WAIVE x 1 ", "CLOSE", "NODE a b", "END")
        + "; " + same(TEN, "bid x 1 a 100", "Bid x 1 a 100", "waive x 1", "Waive x 1", "close 1", "STAGe 1", "show", "Node a", "wHO x")
        + "; " + same(TEN, "WHO " + "x" * 125, "SHO" + "W" * 129, "S" * 200_000)
        + f"; WHO {'x' * 124} = 11; SHOW = {EMPTY[:-1]}; BID x 1 a 100 = OK 1"
    ),
    """A number is in decimal .. A ticket fits 32 .. In a line both are ..""": (
        same(TEN, *(f"CLOSE {number}" for number in ("+1", "-1", "01", "00", "0x1", "1.0", "one", "4294967296", "18446744073709551617")))
        + "; CLOSE 0 = 13; CLOSE 4294967295 = 15; BID x 4294967295 a 100 = 15; BID x 1 a 0 = 22\n"
        + same(TEN, *(f"BID x 1 a {amount}" for amount in ("0100", "1,000", "-100", "+100", "18446744073709551616", "18446744073709551716")))
        + "; BID x 1 a 18446744073709551615 = 21; BID x 1 a 18446744073709551610 = 23\n"
        + same(TEN, "BID x 4294967296 a 100", "BID x -1 a 100", "BID x +1 a 100", "STAGE 4294967296", "WAIVE x 4294967296", "WAIVE x 01")
        + "; WAIVE x 4294967295 = 15; WAIVE x 0 = 13"
    ),
    """A bidder's or a .. If the definition .. The whole line is .. Then comes the bidder .. A CR is a byte like .. `SHOW` with a CR .. End lines
    with an ..""": (
        same("11", "WHO \x00\t\xff\r", "BID \xc3 1 a 100", f"WHO {'b' * 124}", "WHO x\r", "BID x\r 1 a 100", "WAIVE x\r 1")
        + "; WAIVE nobody 0 = 11; "
        + same("12", "NODE \x7f\xc3\xa9", 'BID x 1 "a" 100', "NODE A", "NODE a\r", "BID x 1 nothing 5", "BID x 0 nothing 5")
        + "; BID nobody 1 nothing 5 = 11; BID x 0 a 5 = 13; "
        + same(TEN, "BID nobody 01 nothing 5", "BID nobody 1 nothing +5", "WAIVE nobody 01", "SHOW\r", "BID x 1 a 100\r", "CLOSE 1\r")
        + f"; SHOW = {EMPTY[:-1]}"
    ),
    """A last line without .. It is answered `ERR .. So a client that ..""": "SHOW = ROUND 1 STAGE 1 OPEN REVENUE 0 COUNT 0; SHOW<EOF> = 10",
    """`OK n` | an accepted .. Each ends with an ..""": (
        "BID x 1 a 100 = OK 1; BID x 2 b 100 = 25; STAGE 1 = OK 2; CLOSE 2 = OK 3; BID x 1 a 100 = OK 1"
    ),
    """`ROUND r STAGE s .. `ROUND`: the number .. `STAGE`: 1 to 4 .. `REVENUE`: of the .. `COUNT`: how many ..""": """
        80,95 -> 80,85,90,95; SHOW = ROUND 1 STAGE 1 OPEN REVENUE 0 COUNT 0; STAGE 1 = OK 1; STAGE 2 = OK 2
        SHOW = ROUND 1 STAGE 3 OPEN REVENUE 0 COUNT 2; STAGE 3 = OK 3; SHOW = ROUND 1 STAGE 4 OPEN REVENUE 0 COUNT 3; STAGE 4 = 27
        BID x 1 a 100 = OK 4; BID y 1 a 90 = 22; SHOW = ROUND 1 STAGE 4 OPEN REVENUE 0 COUNT 4; CLOSE 4 = OK 5
        SHOW = ROUND 2 STAGE 4 OPEN REVENUE 100 COUNT 5; CLOSE 5 = OK 6; SHOW = ROUND 2 STAGE 4 CLOSED REVENUE 100 COUNT 6""",
    """`NODE name HIGH .. `NODE` sees closed .. Bids of the open ..""": """
        FIRST; BID w 2 c 250 = OK 6; NODE all = HIGH 500 z PRICE 500 MIN 550 WIN yes; NODE east = HIGH 0 - PRICE 325 MIN 360 WIN no
        NODE c = HIGH 100 w PRICE 175 MIN 200 WIN no; CLOSE 2 = OK 7; NODE all = HIGH 500 z PRICE 500 MIN 550 WIN no
        NODE east = HIGH 0 - PRICE 250 MIN 280 WIN no; NODE c = HIGH 250 w PRICE 250 MIN 280 WIN yes""",
    """`PRICE` and `MIN` ..""": """
        BID z 1 a 1000000000010 = 23; BID z 1 a 1000000000000 = OK 1; CLOSE 1 = OK 2
        NODE a = HIGH 1000000000000 z PRICE 1000000000000 MIN 1100000000000 WIN yes; BID z 2 a 1000000000010 = 22; BID z 2 a 1100000000000 = 23
        BID z 2 a 1000000000000 = 22""",
    """`WHO bidder ELIGIBILITY .. `WHO` counts bids .. `TICKET` is the ..""": """
        WHO z = ELIGIBILITY 40 ACTIVITY 0 TICKET 0; BID z 1 a 100 = OK 1; WHO z = ELIGIBILITY 40 ACTIVITY 10 TICKET 1; BID z 2 east 200 = OK 2
        BID z 3 c 90 = 22; WHO z = ELIGIBILITY 40 ACTIVITY 20 TICKET 2; BID z 4 d 100 = 15; BID z 3 c 100 = OK 3
        WHO z = ELIGIBILITY 40 ACTIVITY 40 TICKET 3""",
    """`WAIVERS` is how .. One that it sends ..""": """
        waivers 2; WHO x = ELIGIBILITY 10 ACTIVITY 0 TICKET 0 WAIVERS 2; WAIVE x 1 = OK 1; WHO x = ELIGIBILITY 10 ACTIVITY 0 TICKET 1 WAIVERS 1
        BID x 2 a 100 = OK 2; WHO x = ELIGIBILITY 10 ACTIVITY 10 TICKET 2 WAIVERS 1; WHO z = ELIGIBILITY 40 ACTIVITY 0 TICKET 0 WAIVERS 2
        CLOSE 1 = OK 3; WHO x = ELIGIBILITY 10 ACTIVITY 10 TICKET 2 WAIVERS 1; WHO z = ELIGIBILITY 40 ACTIVITY 0 TICKET 0 WAIVERS 1""",
    """A client that doesn't .. If it had arrived .. If not, it is judged .. Either way it counts ..""": """
        BID x 1 a 100 = OK 1; BID y 1 b 150 = OK 2; BID x 1 a 100 = OK 1; SHOW = ROUND 1 STAGE 1 OPEN REVENUE 0 COUNT 2; CLOSE 1 = OK 3
        CLOSE 1 = OK 3; BID y 1 b 150 = OK 2; SHOW = ROUND 2 STAGE 1 OPEN REVENUE 250 COUNT 3""",
    """This works for each .. Send no next command .. The line has to ..""": """
        BID z 1 a 100 = OK 1; BID z 1 a 110 = 14; BID z 1 b 100 = 14; BID z 1 a 100 = OK 1; BID z 2 b 100 = OK 2; BID z 3 c 90 = 22
        BID z 2 b 100 = OK 2; BID z 1 a 100 = 13; STAGE 1 = OK 3; CLOSE 1 = 14; CLOSE 2 = OK 4; CLOSE 2 = OK 4; STAGE 1 = 13""",
    """A client that has lost .. The auctioneer's .. A `CLOSE` or `STAGE` ..""": """
        FIRST; WHO x = ELIGIBILITY 10 ACTIVITY 0 TICKET 1; STAGE 2 = OK 6; CLOSE 0 = 13; STAGE 0 = 13; CLOSE 1 = 13; STAGE 1 = 13; CLOSE 2 = 14
        CLOSE 4 = 15; STAGE 4 = 15; SHOW = ROUND 2 STAGE 2 OPEN REVENUE 500 COUNT 6""",
    """A round with neither .. `SHOW` warns you .. A `STAGE` raises .. A waiver that a close ..""": """
        waivers 1; FIRST; WAIVE x 2 = OK 6; WAIVE x 3 = 28; SHOW = ROUND 2 STAGE 1 OPEN REVENUE 500 COUNT 6; CLOSE 2 = OK 7
        SHOW = ROUND 3 STAGE 1 OPEN REVENUE 500 COUNT 7; WHO y = ELIGIBILITY 10 ACTIVITY 0 TICKET 1 WAIVERS 0; WAIVE y 2 = 28; CLOSE 3 = OK 8
        SHOW = ROUND 3 STAGE 1 CLOSED REVENUE 500 COUNT 8""",
    """A `STAGE` raises ..""": """
        FIRST; SHOW = ROUND 2 STAGE 1 OPEN REVENUE 500 COUNT 5; BID x 2 a 150 = 22; BID x 1 a 100 = OK 1
        SHOW = ROUND 2 STAGE 1 OPEN REVENUE 500 COUNT 5; STAGE 2 = OK 6; SHOW = ROUND 2 STAGE 2 OPEN REVENUE 500 COUNT 6; CLOSE 3 = OK 7
        SHOW = ROUND 2 STAGE 2 CLOSED REVENUE 500 COUNT 7; BID x 2 a 160 = 20; STAGE 4 = 20; CLOSE 4 = 20""",
    # If SHOW says that t tickets are used, t + 2 is a gap, t the last one and t + 1 the next.
    """The next ticket .. Closes and stages .. After the first ..""": """
        SHOW = ROUND 1 STAGE 1 OPEN REVENUE 0 COUNT 0; CLOSE 2 = 15; CLOSE 0 = 13; FIRST; SHOW = ROUND 2 STAGE 1 OPEN REVENUE 500 COUNT 5
        CLOSE 3 = 15; STAGE 1 = 14; STAGE 2 = OK 6; SHOW = ROUND 2 STAGE 2 OPEN REVENUE 500 COUNT 6; CLOSE 4 = 15; STAGE 2 = OK 6
        BID x 2 a 160 = OK 7; CLOSE 3 = OK 8; SHOW = ROUND 3 STAGE 2 OPEN REVENUE 500 COUNT 8; STAGE 5 = 15; CLOSE 3 = OK 8; CLOSE 4 = OK 9
        SHOW = ROUND 3 STAGE 2 CLOSED REVENUE 500 COUNT 9; CLOSE 6 = 15; CLOSE 4 = OK 9; CLOSE 5 = 20""",
    """Don't try a ticket .. A `CLOSE` with the .. The last command ..""": """
        FIRST; BID w 2 c 250 = OK 6; CLOSE 1 = OK 5; SHOW = ROUND 2 STAGE 1 OPEN REVENUE 500 COUNT 6; CLOSE 2 = OK 7
        SHOW = ROUND 3 STAGE 1 OPEN REVENUE 500 COUNT 7""",
    """Each line gets one answer of .. Count the answers ..""": (
        f"SHOW = {EMPTY[:-1]}; {same(TEN, '', 'x' * 300)}; NODE a = HIGH 0 - PRICE 0 MIN 100 WIN no; WHO \r = 11\n"
        f"BID x 1 a 100 = OK 1; {same(TEN, 'x' * 300)}; CLOSE 1 = OK 2"
    ),
    """A bid doesn't name .. One that comes after .. If you ask `SHOW` ..""": """
        FIRST; BID x 2 a 150 = 22; BID x 2 a 160 = OK 6; SHOW = ROUND 2 STAGE 1 OPEN REVENUE 500 COUNT 6
        NODE a = HIGH 100 x PRICE 138 MIN 160 WIN no; CLOSE 2 = OK 7; NODE a = HIGH 160 x PRICE 183 MIN 210 WIN no""",
    """A command that is .. So it holds up none .. Commands that weren't .. If one is refused .. A bid doesn't: the .. A 13 says that .. So if you
    use ..""": """
        BID z 1 a 100 = OK 1; BID z 1 b 100 = 14; BID z 2 b 90 = 22; BID z 3 c 100 = 15; BID z 2 c 100 = OK 2; BID z 1 a 100 = 13
        BID z 1 c 100 = 13; BID z 3 c 100 = 24; CLOSE 1 = OK 3; BID z 3 c 100 = 22""",
    """A waiver, a close .. So a client sends one .. It never gives a ..""": """
        waivers 2; WAIVE z 1 = OK 1; CLOSE 1 = OK 2; WAIVE z 2 = OK 3; STAGE 2 = OK 4; CLOSE 3 = OK 5; CLOSE 4 = OK 6
        SHOW = ROUND 3 STAGE 2 CLOSED REVENUE 0 COUNT 6""",
    """29 comes if a bidder ..""": """
        waivers 2; WAIVE x 1 = OK 1; WAIVE x 2 = 29; WAIVE x 2 = 29; WAIVE z 1 = OK 2; BID z 2 a 100 = OK 3; WAIVE z 3 = 29; CLOSE 1 = OK 4
        WHO z = ELIGIBILITY 40 ACTIVITY 10 TICKET 2 WAIVERS 1; WAIVE x 2 = OK 5; WAIVE x 3 = 28""",
    """A refused line has ..""": f"""
        FIRST; BID x 2 a 160 = OK 6; STAGE 2 = OK 7; {SHOWS}; show = 10; BID nobody 1 a 160 = 11; BID x 3 nowhere 160 = 12
        BID x 1 a 100 = 13; BID x 2 a 170 = 14; BID x 4 a 170 = 15; BID y 2 b 215 = 21
        BID y 2 b 200 = 22; BID y 2 b 1000000000010 = 23; BID x 3 a 170 = 24; BID x 3 b 210 = 25
        STAGE 3 = 27; {SHOWS}""",
    # Each refused line twice, and then what the program does.
    """By answer, if one .. Answer | To the same line again | What the program does .. Number | Word | When | What to do next ..""": """
        FIRST; BID x 2 a 160 = OK 6; BID x 2 a 160 = OK 6; bid = 10; bid = 10; BID nobody 1 a 160 = 11; BID nobody 1 a 160 = 11
        BID x 3 none 160 = 12; BID x 3 none 160 = 12; BID x 1 a 100 = 13; BID x 1 a 100 = 13; WHO x = ELIGIBILITY 10 ACTIVITY 10 TICKET 2
        BID x 2 b 210 = 14; BID x 2 b 210 = 14; BID y 3 b 210 = 15; BID y 3 b 210 = 15; BID y 2 b 210 = OK 7; BID y 3 b 210 = 24; BID z 2 c 205 = 21
        BID z 2 c 205 = 21; BID z 2 c 190 = 22; BID z 2 c 190 = 22; BID z 2 c 200 = OK 8; BID z 3 b 1000000000010 = 23; BID z 3 b 1000000000010 = 23
        BID x 3 a 170 = 24; BID x 3 a 170 = 24; BID x 3 b 220 = 25; BID x 3 b 220 = 25; STAGE 2 = OK 9; STAGE 3 = 27; STAGE 3 = 27; WAIVE x 3 = 28
        WAIVE x 3 = 28; CLOSE 3 = OK 10; BID x 3 a 300 = OK 11; CLOSE 4 = OK 12; CLOSE 5 = OK 13; BID x 4 a 500 = 20; BID x 4 a 500 = 20
        STAGE 6 = 20; CLOSE 6 = 20""",
    # Bidder w has 25 units, and c has 20. The close leaves it 20 * 100 / 95, rounded down; 24 * 100 / 95 isn't below 25.
    """A stage that is .. The activity that .. The percentage is .. With an eligibility ..""": (
        "BID w 1 c 100 = OK 1; STAGE 1 = OK 2; CLOSE 2 = OK 3; WHO w = ELIGIBILITY 21 ACTIVITY 20 TICKET 1"
    ),
}

# More of them, by what each one is.
CASES: dict[str, str] = {
    "a last line names nobody": "WHO nobody<EOF> = 10",
    "20 of 25 at 80": "BID w 1 c 100 = OK 1; CLOSE 1 = OK 2; WHO w = ELIGIBILITY 25 ACTIVITY 20 TICKET 1",
    "24 of 25 at 95": """
        "units":20 -> "units":24; "name":"z","units":40 -> "name":"z","units":44; BID w 1 c 100 = OK 1; STAGE 1 = OK 2; CLOSE 2 = OK 3
        WHO w = ELIGIBILITY 25 ACTIVITY 24 TICKET 1""",
    "23 of 25 at 95": """
        "units":20 -> "units":23; BID w 1 c 100 = OK 1; STAGE 1 = OK 2; CLOSE 2 = OK 3; WHO w = ELIGIBILITY 24 ACTIVITY 23 TICKET 1""",
    "19 of 25 at 80": """
        "units":20 -> "units":19; BID w 1 c 100 = OK 1; CLOSE 1 = OK 2; WHO w = ELIGIBILITY 23 ACTIVITY 19 TICKET 1""",
    "causes of 11, 12, 13, 14 and 15": (
        same("11", "BID xx 1 a 100", "BID X 1 a 100", "BID x\r 1 a 100") + "; "
        + same("12", "BID x 1 aa 100", "BID x 1 A 100", "BID x 1 licence_a 100")
        + """; BID z 0 a 100 = 13; BID z 1 a 100 = OK 1; BID z 2 b 100 = OK 2; BID z 1 a 100 = 13; BID z 1 c 100 = 13
        BID z 2 c 100 = 14; WHO z = ELIGIBILITY 40 ACTIVITY 20 TICKET 2; BID z 3 c 90 = 22; BID z 4 c 100 = 15
        BID z 3 c 100 = OK 3; BID x 1 a 101 = 21; BID x 1 a 110 = OK 4; BID y 1 a 90 = 22; BID y 1 a 100 = OK 5"""
    ),
    # 123.45 dollars in cents; a minimum of 280 that was 200; 200,000,000,000 dollars in cents.
    "causes of 21, 22 and 23": """
        BID x 1 a 123 = 21; BID x 1 a 12345 = 21; BID x 1 a 123.45 = 10; BID x 1 a 90 = 22; NODE a = HIGH 0 - PRICE 0 MIN 100 WIN no
        NODE east = HIGH 0 - PRICE 0 MIN 200 WIN no; BID z 1 all 500 = OK 1; CLOSE 1 = OK 2; BID z 2 east 200 = 22; BID z 2 east 280 = OK 3
        BID z 3 c 20000000000000 = 23""",
    # In round 1 y wins b, z wins d, and w makes no bid.
    "causes of 24, 25, 27, 28 and 20": """
        BID z 1 d 100 = OK 1; BID z 2 d 110 = 24; BID y 1 b 100 = OK 2; CLOSE 1 = OK 3; WHO z = ELIGIBILITY 6 ACTIVITY 5 TICKET 1
        WHO w = ELIGIBILITY 0 ACTIVITY 0 TICKET 0; WHO y = ELIGIBILITY 10 ACTIVITY 10 TICKET 1; BID w 1 d 110 = 25; BID y 2 a 100 = 25
        STAGE 2 = OK 4; STAGE 3 = 27; WAIVE w 1 = 28; CLOSE 3 = OK 5; SHOW = ROUND 2 STAGE 2 CLOSED REVENUE 200 COUNT 5; BID y 2 b 110 = 20""",
    "fewer units are bid on or won": """
        BID w 1 c 100 = OK 1; BID w 2 a 100 = 25; WHO w = ELIGIBILITY 25 ACTIVITY 20 TICKET 1; BID w 2 d 100 = OK 2; BID z 1 all 500 = OK 3
        CLOSE 1 = OK 4; WHO w = ELIGIBILITY 25 ACTIVITY 5 TICKET 2; NODE a = HIGH 0 - PRICE 100 MIN 110 WIN no; BID w 3 a 110 = OK 5""",
    "the close takes the one waiver of w": """
        waivers 1; BID z 1 all 300 = OK 1; WAIVE x 1 = OK 2; WAIVE x 2 = 28; WHO x = ELIGIBILITY 10 ACTIVITY 0 TICKET 1 WAIVERS 0; CLOSE 1 = OK 3
        WHO w = ELIGIBILITY 25 ACTIVITY 0 TICKET 0 WAIVERS 0; WAIVE w 1 = 28""",
}

# By the heads of tables of lines and answers: what comes before.
TABLES = {
    ("Line", "Answer"): "",
    ("Line", "Answer", "The fault"): "",
    ("Line", "Answer", "Why"): "",
    ("Sent in this order", "Answer"): "",
    ("With a waiver", "Answer"): "waivers 1; FIRST",
    ("Line, behind the first example", "Answer", "Usual causes"): "FIRST",
}


@pytest.mark.parametrize("fronts", EXAMPLES, ids=[fronts[:30] for fronts in EXAMPLES])
def test_lines_are_answered_as_the_page_says(asks: Asks, fronts: str) -> None:
    asks(EXAMPLES[fronts])


@pytest.mark.parametrize("case", CASES)
def test_lines_are_answered_as_by_hand(asks: Asks, case: str) -> None:
    asks(CASES[case])


@sentences(
    """Under the definition .. With `"waivers":1` .. Here is one example .. The lines come in .. `examples/each-refusal.txt` .. Line | Answer ..
    Line | Answer | The fault .. Line | Answer | Why .. With a waiver | Answer .. Line, behind the first example | Answer | Usual causes .."""
)
@pytest.mark.parametrize("head", TABLES, ids=" ".join)
def test_the_lines_of_a_table_are_answered_so(asks: Asks, head: tuple[str, ...]) -> None:
    asks("; ".join([*filter(None, [TABLES[head]]), *map(" = ".join, PAGE.table(*head).pairs())]))


def test_the_last_example_has_a_file() -> None:
    lines = [line for line, _ in PAGE.table("Line, behind the first example", "Answer", "Usual causes").pairs()]
    first = [pair.split(" = ")[0] for pair in FIRST.split("; ")]
    assert (TOP / "examples" / "each-refusal.txt").read_text().splitlines() == [PAGE.definition[:-1], *first, *lines]
