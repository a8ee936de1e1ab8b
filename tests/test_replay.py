"""`tools/replay` of records that fronts wrote, and of such as a liar would write, with hashes that are right."""

from __future__ import annotations

import io
import json
import re
from collections.abc import Callable, Iterable, Sequence
from pathlib import Path
from typing import Any
from xml.etree import ElementTree

import pytest
from fronts import Caller, Front
from harness.auctions import EXAMPLES, definition, text_of
from harness.fronts import run_tool
from harness.programs import Program, Ran

from hpb import record as records
from hpb.record import Damaged, Place, entry_line, read_record

DOCS = Path(__file__).resolve().parents[1] / "docs"
PICTURE = DOCS / "pictures" / "replay.svg"
SVG = "{http://www.w3.org/2000/svg}"
TIME = r"\d{4}-\d\d-\d\dT\d\d:\d\d:\d\d\.\d{6}Z"
NAMES: dict[str, object] = {"desk": "auctioneer", "ann": ["x"], "bob": ["y", "z"], "carl": ["w"]}
EACH_ITS_NAME: dict[str, object] = {"desk": "auctioneer", "n0": ["x"], "n1": ["y"], "n2": ["z"], "n3": ["w"]}
COMMANDS = ("BID", "WAIVE", "CLOSE", "STAGE")

# A name, a line and its answer.
Line = tuple[str, str, str]
Entries = list[tuple[str, dict[str, Any]]]
Replays = Callable[..., Ran]


@pytest.fixture
def replay(program: Program) -> Replays:
    """Runs the tool on a record, by the program under test."""
    return lambda record, *words: run_tool("replay", record, "--program", program.path, *words)


def entries_of(text: bytes, lines: Iterable[Line], names: dict[str, object] = NAMES) -> Entries:
    """What a front of the form before would write of these lines."""
    entries: Entries = [("begin", {"form": 1, "definition": json.loads(text)}), ("started", {"names": names, "count": 0})]
    for name, line, answer in lines:
        fields: dict[str, Any] = {"name": name, "line": line, "answer": answer}
        if line.split(" ")[0] in COMMANDS:
            entries.append(("asked", {"name": name, "line": line}))
            fields["asked"] = len(entries)
        count = sum(kind == "accepted" for kind, _ in entries)
        entries.append(("accepted" if answer == f"OK {count + 1}" else "answered", fields))
    return entries


def write(path: Path, entries: Entries) -> Path:
    """A record of these entries, with hashes that are right."""
    place, data = Place(), b""
    for kind, fields in entries:
        line, place = entry_line(place, kind, fields)
        data += line
    path.write_bytes(data)
    return path


def name_for(line: str, bidders: Sequence[str]) -> str:
    """The name that may send a line, if each bidder has one of its own."""
    words = line.split(" ")
    return f"n{bidders.index(words[1])}" if words[0] in ("BID", "WAIVE", "WHO") and words[1] in bidders else "desk"


def without_times(written: str) -> list[str]:
    """The words of both tables, but for times and their titles."""
    tables = " ".join(written.split("\n\n")[:2]).split()
    return [word for word in tables if not re.fullmatch(f"at|closed|{TIME}", word)]


def series(path: Path) -> dict[str, str]:
    """The lines of a picture by their names, each with its values."""
    titles = [title.text or "" for title in ElementTree.parse(path).getroot().iter(f"{SVG}title")][1:]
    return dict(title.split(": ", 1) for title in titles)


# Each example.

CLOSED = [script for script in sorted(EXAMPLES.glob("*.txt")) if "\nCLOSE " in script.read_text()]


def test_more_than_ten_examples_have_a_close() -> None:
    assert len(CLOSED) > 10


@pytest.mark.parametrize("script", CLOSED, ids=[script.stem for script in CLOSED])
def test_the_record_of_an_example_leads_to_the_file_that_a_run_leaves(program: Program, replay: Replays, room: Path, script: Path) -> None:
    """And its picture has a line for the revenue, each licence and each bidder, with a value for the start and each close."""
    text, *lines = script.read_text().splitlines()
    answers = script.with_suffix(".out").read_text().splitlines()
    fields = json.loads(text)
    bidders = [bidder["name"] for bidder in fields["bidders"]]
    names: dict[str, object] = {f"n{place}": [bidder] for place, bidder in enumerate(bidders)} | {"desk": "auctioneer"}
    told = [(name_for(line, bidders), line, answer) for line, answer in zip(lines, answers, strict=True)]
    file = program.keep(room / "F", lines, text.encode())
    record = write(room / "R", entries_of(text.encode(), told, names))
    ran = replay(record, "--file", file, "--svg", room / "S")
    assert (ran.errors, ran.status) == ("", 0)
    values = series(room / "S")
    assert list(values) == ["revenue", *(node["name"] for node in fields["nodes"] if "opening" in node), *bidders]
    closes = {line for line, answer in zip(lines, answers) if line.startswith("CLOSE ") and answer.startswith("OK ")}
    assert {len(text.split(", ")) for text in values.values()} == {len(closes) + 1}


# A first auction, by a front.

FIRST: list[Line] = [
    ("ann", "BID x 1 a 100", "OK 1"),
    ("bob", "BID y 1 b 150", "OK 2"),
    ("bob", "BID z 1 all 500", "OK 3"),
    ("carl", "SHOW", "ROUND 1 STAGE 1 OPEN REVENUE 0 COUNT 3"),
    ("carl", "BID w 1 c 100", "OK 4"),
    ("ann", "BID y 2 b 200", "ERR front rights"),
    ("desk", "CLOSE 1", "OK 5"),
    ("carl", "BID w 2 c 190", "ERR 22 low"),
    ("carl", "BID w 2 c 250", "OK 6"),
    ("desk", "STAGE 2", "OK 7"),
    ("carl", "BID w 2 c 250", "OK 6"),
    ("desk", "CLOSE 3", "OK 8"),
]
OLDER = [line for _, line, answer in FIRST[:7] if answer.startswith("OK")]
LATER = "BID w 2 c 250\nSTAGE 2\nCLOSE 3\n"
# By hand, from the first example of docs/RULES.md and the one on ties. The first close wants 80 percent, and each has bid on as much:
# x and y on their 10 units, z on its 40, w on 20 of its 25. The second one wants 95 percent. Bidders x and y have neither bid nor won,
# and fall to 0. Bidder z won its 40 at the first close. Bidder w has bid on 20, and 20 * 100 / 95 is 21.
TABLE = """
round  number  name  bidder  node  amount
    1       1  ann   x       a        100
    1       2  bob   y       b        150
    1       3  bob   z       all      500
    1       4  carl  w       c        100
    2       6  carl  w       c        250
    2       7  desk  -       stage 2    -

round  commands  revenue  auction
    1         4      500  open
    2         2      500  open
"""
SERIES = {
    "revenue": "0, 500, 500", "a": "0, 138, 100", "b": "0, 187, 150", "c": "0, 175, 250", "d": "0, 0, 0",
    "x": "10, 10, 0", "y": "10, 10, 0", "z": "40, 40, 40", "w": "25, 25, 21",
}  # fmt: skip


@pytest.fixture
def told(front: Front, replay: Replays) -> Front:
    """A front that took the first auction, and has stopped. While it ran its file was in use."""
    front.start()
    assert [(name, line, Caller(front, name).ask(line)) for name, line, _ in FIRST] == FIRST
    ran = replay(front.record, "--file", front.file)
    assert ran.errors.startswith("replay: 91 device: it is in use") and ran.status == 1
    front.stop()
    return front


def test_what_is_shown_of_a_first_auction(told: Front, replay: Replays) -> None:
    ran = replay(told.record, "--file", told.file, "--svg", told.folder / "S")
    assert (ran.errors, ran.status) == ("", 0)
    assert without_times(ran.output) == TABLE.split()
    entries, place = read_record(told.record)
    times = [entry["at"] for entry in entries if entry["kind"] == "accepted"]
    assert re.findall(TIME, ran.output) == [times[number - 1] for number in (1, 2, 3, 4, 6, 7, 5, 8)]
    assert ran.lines()[-1] == f"The last hash is {place.hash}."
    assert series(told.folder / "S") == SERIES
    picture = (told.folder / "S").read_bytes()
    replay(told.record, "--svg", told.folder / "S")
    assert (told.folder / "S").read_bytes() == picture


def test_an_older_copy_is_named_and_is_brought_up_to_date_by_the_record(told: Front, program: Program, replay: Replays) -> None:
    assert replay(told.record, "--commands", "6").output == LATER
    older = program.keep(told.folder / "older", OLDER)
    ran = replay(told.record, "--file", older)
    assert ran.errors.startswith("replay: SHOW: by the record") and ran.status == 1
    assert program.run_lines(older, LATER.encode()).output == "OK 6\nOK 7\nOK 8\n"
    assert replay(told.record, "--file", older).status == 0


WAIVED: list[Line] = [("ann", "WAIVE x 1", "OK 1"), ("bob", "BID z 1 all 500", "OK 2"), ("desk", "CLOSE 1", "OK 3")]
WAIVED_TABLE = """
round  number  name  bidder  node    amount
    1       1  ann   x       waiver       -
    1       2  bob   z       all        500

round  commands  revenue  auction
    1         2      500  open
"""


def test_a_waiver_stands_among_the_bids(replay: Replays, room: Path) -> None:
    record = write(room / "R", entries_of(definition(waivers=1), WAIVED))
    ran = replay(record)
    assert (ran.errors, ran.status, without_times(ran.output)) == ("", 0, WAIVED_TABLE.split())
    assert replay(record, "--commands", "1").output == "WAIVE x 1\nBID z 1 all 500\nCLOSE 1\n"


# A package that wins twice, and loses to its parts; w, who wins more than it is still eligible for; z, who gives up.
PICTURED = """BID x 1 a 100, BID y 1 b 150, BID z 1 all 500, BID w 1 c 100, CLOSE 1, BID w 2 c 250, BID x 2 a 160, BID y 2 b 210, CLOSE 2,
    BID z 2 all 690, BID w 3 d 100, CLOSE 3, BID x 3 a 210, BID y 3 b 270, CLOSE 4, STAGE 5, BID z 3 east 530, CLOSE 6, BID y 4 b 370,
    CLOSE 7, CLOSE 8"""


def test_the_picture_of_the_document_is_that_of_these_rounds(program: Program, replay: Replays, room: Path) -> None:
    lines = re.split(r",\s+", PICTURED)
    answers = program.run(text=definition() + text_of(lines)).lines()
    assert answers == [f"OK {number}" for number in range(1, len(lines) + 1)]
    told = [(name_for(line, "xyzw"), line, answer) for line, answer in zip(lines, answers)]
    ran = replay(write(room / "R", entries_of(definition(), told, EACH_ITS_NAME)), "--svg", room / "S")
    assert (ran.errors, ran.status) == ("", 0)
    assert (room / "S").read_text() == PICTURE.read_text()
    assert f"](pictures/{PICTURE.name})" in (DOCS / "FRONT.md").read_text()


# Changes with hashes that are wrong.


def is_damaged(data: bytes) -> bool:
    try:
        list(records.entries_of(io.BytesIO(data)))
    except Damaged:
        return True
    return False


@pytest.fixture(scope="module")
def whole(tmp_path_factory: pytest.TempPathFactory) -> bytes:
    """The record of the first auction, of the form before."""
    return write(tmp_path_factory.mktemp("record") / "R", entries_of(definition(), FIRST)).read_bytes()


def test_each_changed_byte_is_found(whole: bytes, replay: Replays, room: Path) -> None:
    """Some of them by the tool, too."""
    assert not is_damaged(whole)
    unseen = [at for at in range(len(whole)) if not is_damaged(whole[:at] + bytes([whole[at] ^ 1 << at % 8]) + whole[at + 1 :])]
    assert unseen == []
    for at in range(0, len(whole), 997):
        (room / "R").write_bytes(whole[:at] + bytes([whole[at] ^ 1]) + whole[at + 1 :])
        ran = replay(room / "R")
        assert (ran.output, ran.errors.startswith("replay: entry "), ran.status) == ("", True, 1), (at, ran)


def test_a_copy_that_ends_within_an_entry_is_read_up_to_there(program: Program, replay: Replays, room: Path) -> None:
    """As docs/FRONT.md says of a copy that is made while the front runs. In the middle of a record that would be damage."""
    told: list[Line] = [("ann", "BID x 1 a 100", "OK 1"), ("bob", "BID y 1 b 150", "OK 2"), ("desk", "CLOSE 1", "OK 3")]
    entries: Entries = [("begin", {"form": 1, "definition": json.loads(definition())}), ("started", {"names": NAMES, "count": 0})]
    for name, line, answer in told:
        entries += [("asked", {"name": name, "line": line}), ("accepted", {"name": name, "line": line, "answer": answer, "asked": len(entries) + 1})]
    whole = write(room / "R", entries).read_bytes()
    ends = [place + 1 for place, byte in enumerate(whole) if byte == 10]
    said = "replay: entry 8: it is cut short, as in a copy that was made while a front wrote. All before it was read\n"
    for length in (ends[6] + 1, ends[7] - 1):
        (room / "R").write_bytes(whole[:length])
        ran = replay(room / "R")
        assert ran.errors == said and ran.status == 1
        assert [line.split()[-4:] for line in ran.output.split("\n\n")[0].splitlines()[1:]] == [["ann", "x", "a", "100"], ["bob", "y", "b", "150"]]
        ran = replay(room / "R", "--commands", "2")
        assert (ran.output, ran.errors, ran.status) == ("BID y 1 b 150\n", said, 1)
    (room / "R").write_bytes(whole[: ends[4] - 5] + whole[ends[5] :])
    ran = replay(room / "R")
    assert (ran.output, ran.status) == ("", 1)


def at_another_time(line: bytes) -> bytes:
    """An entry that is changed, under a hash that is right of itself."""
    entry = json.loads(line[records.HASH_BYTES + 1 :])
    entry["at"] = "2026-01-01T00:00:00.000000Z"
    return records.sealed(json.dumps(entry, separators=(",", ":")).encode())


@pytest.mark.parametrize("change", ["lacks", "has twice", "turns round", "changes"])
def test_a_record_that_lacks_doubles_turns_round_or_changes_an_entry_is_found(whole: bytes, change: str) -> None:
    lines = whole.splitlines(keepends=True)
    for place in range(len(lines) - 1):
        one, after = lines[place : place + 2]
        middles = {"lacks": [after], "has twice": [one, one, after], "turns round": [after, one], "changes": [at_another_time(one), after]}
        assert is_damaged(b"".join([*lines[:place], *middles[change], *lines[place + 2 :]])), place + 1


# Lies with hashes that are right.

Lie = Callable[[Entries], object]


def accepted(entries: Entries, number: int) -> int:
    """The place of the entry by which a command was accepted."""
    return [place for place, (kind, _) in enumerate(entries) if kind == "accepted"][number - 1]


def command(number: int, **fields: object) -> Lie:
    """Changes the entry by which a command was accepted, and the one by which it was asked."""

    def change(entries: Entries) -> None:
        place = accepted(entries, number)
        entries[place][1].update(fields)
        entries[entries[place][1]["asked"] - 1][1].update({field: value for field, value in fields.items() if field != "answer"})

    return change


def answered(place: int, **fields: object) -> Lie:
    """Changes an answer that accepted nothing."""
    return lambda entries: [found for kind, found in entries if kind == "answered"][place].update(fields)


def without(number: int) -> Lie:
    return lambda entries: entries.pop(accepted(entries, number))


LIES: dict[str, tuple[Lie, str]] = {
    "a greater bid": (command(1, line="BID x 1 a 130"), "by the record"),
    "a bid that is refused": (command(1, line="BID x 1 a 90"), "in memory"),
    "another's bid": (command(1, name="bob"), "had no right"),
    "a bid of another": (command(2, line="BID x 1 b 150"), "had no right"),
    "a close by a bidder": (command(5, name="ann"), "had no right"),
    "another number": (command(4, answer="OK 5"), "stands in the place of"),
    "a bid that is left out": (without(2), "stands in the place of"),
    "the last command left out": (without(8), "by the record"),
    "an answer to SHOW": (answered(0, answer="ROUND 1 STAGE 1 OPEN REVENUE 9 COUNT 3"), "was shown"),
    "a repeat of another line": (answered(-1, line="BID w 2 c 260"), "repeats no command"),
    "another definition": (lambda entries: entries[0][1]["definition"].update(percent=20), "another definition"),
    "no definition": (lambda entries: entries[0][1].update(definition={"step": 1}), "missing"),
    "a name that breaks pages": (lambda entries: entries[0][1]["definition"]["bidders"][0].update(name="<b>"), "'<b>'"),
    "no begin": (lambda entries: entries.pop(0), "doesn't begin"),
    "an entry that lacks a field": (lambda entries: entries[3][1].pop("line"), "no front writes"),
    "a bid that lacks its words": (command(1, line="BID x"), "no front writes"),
    "two lines in one": (command(1, line="BID x 1 a 110\nCLOSE 1"), "had no right"),
    "a character that is no byte": (command(1, line="BID x 1 a 11\u20ac"), "no front writes"),
    "an answer that is no text": (answered(0, answer=5), "no front writes"),
    "a name that moves the cursor": (command(1, name="\x1b[2J"), "\\x1b[2J had no right"),
    "foreign commands": (lambda entries: entries.append(("foreign", {"from": 9, "to": 9})), "weren't told by the front"),
}


@pytest.fixture
def kept(program: Program, room: Path) -> Path:
    """The file that the commands of the first auction lead to."""
    return program.keep(room / "F", [line for _, line, answer in FIRST if answer.startswith("OK")])


def test_the_truth_is_found_right(kept: Path, replay: Replays, room: Path) -> None:
    ran = replay(write(room / "R", entries_of(definition(), FIRST)), "--file", kept)
    assert (ran.errors, ran.status, "in one chain" in ran.output) == ("", 0, True)


@pytest.mark.parametrize(("change", "word"), LIES.values(), ids=LIES)
def test_a_lie_with_hashes_that_are_right_is_found(kept: Path, replay: Replays, room: Path, change: Lie, word: str) -> None:
    """By the commands, the file or the rights, which don't fit. No word about it moves a terminal."""
    entries = entries_of(definition(), FIRST)
    change(entries)
    ran = replay(write(room / "R", entries), "--file", kept)
    assert (word in ran.errors, "in one chain" in ran.output, ran.status) == (True, False, 1), ran
    assert [one for one in ran.output + ran.errors if one < " " and one != "\n"] == []


# Words.


def test_what_is_no_record_is_named(replay: Replays, room: Path) -> None:
    helped = run_tool("replay", "--help")
    assert helped.status == 0 and "--svg" in helped.output
    assert run_tool("replay").status == 2
    ran = replay(room / "nothing")
    assert (ran.errors, ran.status) == (f"replay: {room / 'nothing'}: No such file or directory\n", 1)
    (room / "empty").touch()
    assert replay(room / "empty").status == 1
    (room / "text").write_text("BID x 1 a 100\n")
    ran = replay(room / "text")
    assert (ran.errors, ran.status) == ("replay: entry 1: its hash isn't that of its text\n", 1)
