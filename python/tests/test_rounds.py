"""The parts of rounds that keep time, each by itself: times, the plan of a configuration, what a close would do, lines and answers."""
from __future__ import annotations

import datetime
import pathlib
import random
import zoneinfo
from typing import Any

import pytest

from front_world import ROLES
from generators import command_of, definition_of, questions_of
from hpb import rounds as of_front
from hpb.front import clock
from hpb.front.core import desk
from hpb.front.core.books import Books, books_of
from hpb.front.core.clock import Closing, Plan
from hpb.front.faults import Wrong
from hpb.front.plan import read_closing, read_plan
from hpb.front.rights import Role, for_server, sender_and_ticket
from hpb.front.times import NoTime, exact_text_of_time, read_exact_time, read_time, text_of_time
from hpb.lines import Bid, Close, Command, NoAnswer, Waive, format_answer, format_line, parse_answer, parse_command_of_front, parse_line
from hpb.pages.rounds import clock_says, news_says
from hpb.pages.view import Told
from hpb.record import State
from hpb.record.segments import is_head
from hpb.refusals import BadLine
from hpb.rules import answer, apply, begin, read_definition
from hpb.rules.preview import Preview
from hpb.rules.told import read_told
from serving import DEFINITION

BERLIN = zoneinfo.ZoneInfo("Europe/Berlin")
NINE = 1_796_202_000.0  # 2026-12-02T09:00:00Z

# Times.


@pytest.mark.parametrize(
    ("text", "wanted"),
    [
        ("2026-12-02T09:00:00Z", NINE), ("2026-12-02T09:00Z", NINE), ("2026-12-02T10:00:00", NINE), ("10:00", NINE), ("10:00:30", NINE + 30),
        ("2026-07-02T10:00", datetime.datetime(2026, 7, 2, 8, tzinfo=datetime.timezone.utc).timestamp()),
    ],
)
def test_a_time_that_somebody_types_is_of_the_zone_or_of_utc(text: str, wanted: float) -> None:
    assert read_time(text, BERLIN, NINE + 3600) == wanted


@pytest.mark.parametrize("text", ["", "9:00", "2026-12-02", "2026-12-02 09:00", "25:00", "2026-13-02T09:00", "2026-12-02T09:00:00+01:00", "now"])
def test_what_is_no_time_is_refused(text: str) -> None:
    with pytest.raises(NoTime):
        read_time(text, BERLIN, NINE)


def test_a_time_that_clocks_skip_or_show_twice_is_refused() -> None:
    with pytest.raises(NoTime, match="is none in Europe/Berlin"):
        read_time("2026-03-29T02:30", BERLIN)
    with pytest.raises(NoTime, match="is two times in Europe/Berlin"):
        read_time("2026-10-25T02:30", BERLIN)
    assert text_of_time(read_time("2026-10-25T01:30:00Z", BERLIN)) == "2026-10-25T01:30:00Z"


def test_times_of_entries_have_milliseconds() -> None:
    assert exact_text_of_time(NINE + 0.25) == "2026-12-02T09:00:00.250Z" and read_exact_time("2026-12-02T09:00:00.250Z") == NINE + 0.25
    assert text_of_time(NINE + 0.999) == "2026-12-02T09:00:00Z"


def test_both_clocks_are_read_at_one_moment() -> None:
    """The process is held up by a second during the first reading, and so reads again."""
    monotonic, utc = iter([1.0, 2.0, 3.0, 3.01]), iter([101.0, 103.005])
    found = clock.read(lambda: next(monotonic), lambda: next(utc))
    assert (found.monotonic, found.utc) == (3.005, 103.005)


# The configuration.


def test_a_plan_of_windows_lengths_or_neither_is_read() -> None:
    assert read_plan({}) == Plan()
    local = datetime.datetime(2026, 12, 2, 10)
    windows = read_plan({"zone": "Europe/Berlin", "windows": [[local, "2026-12-02T10:30"], ["2026-12-02T09:40:00Z", "2026-12-02T10:10Z"]]})
    assert windows.windows == ((NINE, NINE + 1800), (NINE + 2400, NINE + 4200))
    lengths = read_plan({"first": "2026-12-02T09:00Z", "length_seconds": 1800, "gap_seconds": 600, "may_end": True, "warn_seconds": [60, 300]})
    assert lengths == Plan(first=NINE, length=1800, gap=600, may_end=True, warnings=(300, 60))


@pytest.mark.parametrize(
    ("given", "words"),
    [
        ({"window": []}, "rounds.window: there is no such field"),
        ({"zone": "Mars"}, "rounds.zone: 'Mars' is no zone"),
        ({"windows": [["2026-12-02T09:00Z"]]}, "rounds.windows\\[0\\] has to be a list of two times"),
        ({"windows": [["2026-12-02T09:00Z", "2026-12-02T09:00Z"]]}, "rounds.windows\\[0\\] ends before it opens"),
        ({"windows": [["2026-12-02T09:00Z", "2026-12-02T10:00Z"], ["2026-12-02T09:59Z", "2026-12-02T11:00Z"]]}, "\\[1\\].* or opens before the end"),
        ({"windows": [[9, 10]]}, "9 is no time"),
        ({"first": "2026-12-02T09:00Z"}, "rounds.length_seconds: None is no number from 1"),
        ({"length_seconds": 60}, "rounds.first has to be there"),
        ({"first": "2026-12-02T09:00Z", "length_seconds": 60, "windows": [["2026-12-02T09:00Z", "2026-12-02T10:00Z"]]}, "give windows, or first"),
        ({"may_end": 1}, "rounds.may_end has to be true or false"),
        ({"warn_seconds": [0]}, "rounds.warn_seconds: 0 is no number from 1"),
    ],
)
def test_a_plan_that_cant_be_is_refused(given: dict[str, Any], words: str) -> None:
    with pytest.raises(Wrong, match=words):
        read_plan(given)


def test_the_rule_for_the_end_names_observers_that_may_agree() -> None:
    assert read_closing({}, ROLES, None) == (Closing(), ROLES)
    closing, roles = read_closing({"second": ["public"]}, ROLES, None)
    assert closing == Closing(needs_second=True) and [name for name, role in roles.items() if role.agrees] == ["public"]
    assert roles["public"].refusal(b"AGREE 3") is None and ROLES["public"].refusal(b"AGREE 3") == "rights"
    wrong: list[tuple[dict[str, Any], Plan | None]] = [
        ({"second": ["ann"]}, None), ({"second": ["public"], "plain": True}, None), ({"second": ["public"]}, Plan(may_end=True)), ({"x": 1}, None),
    ]
    for given, plan in wrong:
        with pytest.raises(Wrong, match="closing"):
            read_closing(given, ROLES, plan)


# Rights and grammar.

LINES = """
IN 1 BID x 1 a 100       desk rights, ann ok, carl rights, public rights
IN 1 WAIVE x 1           desk rights, ann ok, carl rights, public rights
IN 0 BID x 1 a 100       ann line
IN 01 BID x 1 a 100      ann line
IN 1 WHO x               ann line
IN 1 CLOSE 1             desk line
IN 1 BID x 1 a           ann line
CLOSE 1 ENDING           desk ok, ann rights, public rights
CLOSE 1 ending           desk line
CLOSE ENDING             desk ok
CLOSE 1 2 3              desk line
OPEN 1 UNTIL 10:00       desk ok, ann rights, public rights
OPEN 1 UNTIL             desk line
EXTEND 1 10:00           desk ok, ann rights
PAUSE                    desk ok, ann rights
PAUSE 1                  desk line
RESUME                   desk ok, public rights
SCHEDULE                 desk ok, ann ok, public ok
EVENT                    desk ok, ann ok, public ok
EVENT 3                  ann ok
READ 3                   desk ok, ann ok, public ok
READ                     ann line
SAY all hello to you     desk ok, ann rights
SAY all                  desk line
PREVIEW                  desk ok, ann rights, public rights
PREVIEW x                desk ok, ann rights
AGREE 1                  desk rights, ann rights, public rights
"""


@pytest.mark.parametrize("row", LINES.strip().splitlines())
def test_each_line_is_of_those_who_may_send_it(row: str) -> None:
    for pair in row[24:].strip().split(", "):
        name, wanted = pair.split()
        assert (ROLES[name].refusal(row[:24].strip().encode()) or "ok") == wanted, pair


def test_the_server_gets_a_command_without_what_is_for_the_front() -> None:
    lines = {b"IN 3 BID x 1 a 100": b"BID x 1 a 100", b"CLOSE 4 ENDING": b"CLOSE 4", b"CLOSE ENDING": b"CLOSE ENDING", b"WAIVE x 1": b"WAIVE x 1"}
    assert [for_server(line) for line in lines] == list(lines.values())
    assert all(sender_and_ticket(line) for line in lines.values())


def test_an_announcement_has_no_control_characters() -> None:
    desk_role = Role("auctioneer")
    assert desk_role.refusal(b"SAY all \x1b[2J") == desk_role.refusal(b"SAY all a\x7f") == desk_role.refusal(b"SAY all two  spaces") == "line"
    assert desk_role.refusal("SAY all schön".encode()) is None


def test_commands_of_a_round_are_written_and_read() -> None:
    commands: list[tuple[Command, str]] = [
        (Bid("x", "a", 100, 1, round=3), "IN 3 BID x 1 a 100"), (Waive("x", 2, round=1), "IN 1 WAIVE x 2"), (Bid("x", "a", 100, 1), "BID x 1 a 100"),
        (Close(4, ending=True), "CLOSE 4 ENDING"), (Close(4), "CLOSE 4"),
    ]
    for command, line in commands:
        assert format_line(command) == line and parse_command_of_front(line) == command
    for line in ("IN 3 CLOSE 4", "IN x BID x 1 a 100", "IN 3", "BID x 1 a 100 ENDING"):
        with pytest.raises(BadLine):
            parse_command_of_front(line)
    with pytest.raises(BadLine):
        parse_line("IN 3 BID x 1 a 100")


@pytest.mark.parametrize(
    ("line", "wanted"),
    [
        (
            "SCHEDULE ROUND 3 STATE open OPENS - UNTIL 2026-12-02T09:30:00Z LEFT 600 NOW 2026-12-02T09:20:00Z",
            of_front.Schedule(3, "open", None, "2026-12-02T09:30:00Z", 600, "2026-12-02T09:20:00Z"),
        ),
        ("EVENT 7 2026-12-02T09:20:00Z SAY all we begin", of_front.News(7, "2026-12-02T09:20:00Z", "SAY all we begin")),
        ("EVENT -", of_front.NoNews()),
        ("READ 7", of_front.ReadUpTo(7)),
        ("AGREE 4", of_front.Agreed(4)),
        ("PREVIEW ROUND 2 REVENUE 500 SHORT 3 WAIVERS 2 LOSING 1 ENDS no", of_front.Previewed(2, 500, 3, 2, 1, False)),
        ("PREVIEW x ELIGIBILITY 10 ACTIVITY 0 SHORT 8 WAIVER auto AFTER 10", of_front.Prospect("x", 10, 0, 8, "auto", 10)),
    ],
)
def test_answers_of_a_front_are_read_and_written(line: str, wanted: Any) -> None:
    assert parse_answer(line) == wanted and format_answer(wanted) == line


@pytest.mark.parametrize("line", ["EVENT", "EVENT 0 2026-12-02T09:20:00Z SAY all x", "SCHEDULE", "PREVIEW x", "READ", "AGREE x", "EVENT 1 09:20 OPEN 1"])
def test_other_lines_are_no_answers(line: str) -> None:
    with pytest.raises(NoAnswer):
        parse_answer(line)


def test_an_announcement_may_have_other_characters_than_ascii() -> None:
    news = parse_answer("EVENT 7 2026-12-02T09:20:00Z SAY all schön".encode().decode("latin-1"))
    assert isinstance(news, of_front.News) and news.said == "schön"


# What a close would do.


def previewed(books: Books) -> Preview:
    found = books.preview()
    assert found
    return found


def test_a_preview_says_what_the_close_then_does() -> None:
    """Over auctions by seeds: the books are begun somewhere in the auction, by the answers of then and the commands of the round so far."""
    seen = 0
    for seed in range(150):
        dice = random.Random(seed)
        definition = read_definition(definition_of(dice))
        auction, books, lines = begin(definition), Books(is_known=True), list[bytes]()
        starts = dice.sample(range(60), 4)
        for place in range(60):
            if place in starts:
                told = read_told(auction.tree, [format_answer(answer(auction, line)[1]) for line in questions_of(definition)])
                books = books_of(lines).began(auction.tree, told)
            command = command_of(dice, auction)
            before, auction = auction, apply(auction, command)[0]
            if auction.count == before.count:
                continue
            books = books.read_up() if dice.random() < 0.1 else books
            if isinstance(command, Close) and books.base is not None:
                look_at_preview(books, before, auction)
                seen += 1
            books, lines = books.took(format_line(command).encode()), [] if isinstance(command, Close) else [*lines, format_line(command).encode()]
            assert auction.is_over or books.would_end() == (not auction.incoming and not any(one.has_waived for one in auction.bidders.values()))
    assert seen > 200


def look_at_preview(books: Books, before: Any, after: Any) -> None:
    found = previewed(books)
    assert (found.round, found.revenue, found.ends) == (before.round, after.standing.revenue, after.is_over)
    for name, one in found.bidders.items():
        then, now = before.bidders[name], after.bidders[name]
        assert (one.eligibility, one.activity, one.after) == (then.eligibility, before.activity(name), now.eligibility)
        assert (one.waiver == "auto") == (now.waivers < then.waivers) and (one.waiver == "own") == then.has_waived
        assert (one.short > 0) == (one.activity * 100 < before.percentage * one.eligibility)


def test_the_close_of_the_rules_example_is_previewed_by_hand() -> None:
    """docs/RULES.md, waivers over three rounds: before close 2. The percentage is 80: x, y and w lack 8, 8 and 20 units."""
    waivers = DEFINITION.replace(b'"step"', b'"waivers":1,"step"', 1)
    auction = begin(read_definition(waivers))
    books = Books(base=auction, is_known=True)
    for line in ("BID x 1 a 100", "BID y 1 b 150", "BID z 1 all 500", "BID w 1 c 100", "CLOSE 1"):
        books = books.took(line.encode())
    assert previewed(books).ends and books.would_end()
    found = previewed(books.took(b"WAIVE x 2"))
    assert desk.sum_line(found) == "PREVIEW ROUND 2 REVENUE 500 SHORT 3 WAIVERS 2 LOSING 0 ENDS no"
    assert [desk.prospect_line(found, name) for name in "xyzw"] == [
        "PREVIEW x ELIGIBILITY 10 ACTIVITY 0 SHORT 8 WAIVER own AFTER 10", "PREVIEW y ELIGIBILITY 10 ACTIVITY 0 SHORT 8 WAIVER auto AFTER 10",
        "PREVIEW z ELIGIBILITY 40 ACTIVITY 40 SHORT 0 WAIVER none AFTER 40", "PREVIEW w ELIGIBILITY 25 ACTIVITY 0 SHORT 20 WAIVER auto AFTER 25",
    ]


def test_commands_that_nobody_knows_make_a_preview_impossible_until_the_next_start() -> None:
    books = Books(base=begin(read_definition(DEFINITION)), is_known=True).took_unknown()
    assert books.preview() is None and books.would_end()
    assert books.took(b"BID x 1 a 100").took(b"CLOSE 1").preview() is None


# The record.


def entry(number: int, kind: str, **fields: Any) -> dict[str, Any]:
    return {"entry": number, "kind": kind, **fields}


def test_the_state_of_a_record_has_the_commands_of_the_open_round() -> None:
    state = State()
    for number, line in enumerate(["BID x 1 a 100", "CLOSE 1", "STAGE 2", "WAIVE x 2"], 1):
        state.take(entry(number, "accepted", line=line, name="ann"))
    assert state.lines == [b"STAGE 2", b"WAIVE x 2"] and state.head()["lines"] == ["STAGE 2", "WAIVE x 2"]


def test_a_segment_of_an_older_program_lacks_the_open_round_until_the_next_close() -> None:
    older: dict[str, Any] = {"names": {}, "count": 5, "foreign": 0, "used": {"x": 3, "": 2}, "open": []}
    state = State()
    state.take(entry(9, "begin", form=2, segment=2, definition={}, state=older))
    state.take(entry(10, "accepted", line="BID x 4 a 100", name="ann"))
    assert state.lines is None and "lines" not in state.head()
    state.take(entry(11, "accepted", line="CLOSE 3", name="desk"))
    state.take(entry(12, "accepted", line="BID x 5 a 110", name="ann"))
    assert state.lines == [b"BID x 5 a 110"]
    assert is_head(older, {**older, "lines": ["BID x 3 a 90"]}) and not is_head({**older, "count": 6}, {**older, "lines": []})


def test_news_in_a_record_go_on_with_the_next_segment() -> None:
    state = State()
    state.take(entry(1, "said", name="desk", to="ann", text="hello", time="2026-12-02T09:00:00.000Z", news=1))
    state.take(entry(2, "read", name="ann", upto=1))
    more = State()
    more.take(entry(3, "begin", form=2, segment=2, definition={}, state=state.head()))
    assert (more.news, more.read, more.lines) == (state.news, {"ann": 1}, []) and more.news[0].text == "SAY ann hello"


# Words.


def test_pages_say_the_clock_and_the_news_in_words() -> None:
    schedule = of_front.Schedule(3, "open", None, "2026-12-02T09:30:00Z", 600, "2026-12-02T09:20:00Z")
    assert clock_says(schedule) == "Round 3 takes bids until 2026-12-02 09:30:00 UTC." and clock_says(None) == ""
    news = [
        of_front.News(1, "2026-12-02T09:00:00Z", "OPEN 3 UNTIL 2026-12-02T09:30:00Z"), of_front.News(2, "2026-12-02T09:10:00Z", "SAY all old"),
        of_front.News(3, "2026-12-02T09:20:00Z", "WARN 3 600 UNTIL 2026-12-02T09:30:00Z"), of_front.News(4, "2026-12-02T09:21:00Z", "SAY ann call me"),
    ]
    assert news_says(Told(tuple(news), read=2)) == [
        "2026-12-02 09:21:00 UTC: the auctioneer says: call me",
        "2026-12-02 09:20:00 UTC: round 3 ends in 10 minutes, at 2026-12-02 09:30:00 UTC",
        "2026-12-02 09:00:00 UTC: round 3 is open until 2026-12-02 09:30:00 UTC",
    ]


def test_the_words_of_refusals_stand_in_the_document(documents: pathlib.Path) -> None:
    text = (documents / "FRONT.md").read_text(encoding="utf-8")
    for word in ("closed", "round", "clock", "end", "second", "unknown"):
        assert f"| `ERR front {word}` |" in text, word
