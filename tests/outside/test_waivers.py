"""Files of auctions with waivers, and files of an earlier program, whose states have none: the answers, and each byte.

The bytes follow from docs/FORMATS.md, docs/DEVICE.md and docs/RULES.md alone, by an encoder of their own.
"""

from __future__ import annotations

from pathlib import Path

import pytest

from harness.auctions import EXAMPLES, FIRST_ROUND, PAGE, Layout, text_of
from harness.notices import closes
from harness.programs import Program
from harness.serving import Serve
from outside.encoder import BIDDERS, BIDDERS_AT, FIRST_FORMAT, HEAD_AT, SLOTS, WAIVERS_FORMAT, Auction, Image
from outside.jobs import EMPTY, first_shown
from outside.keeping import Kept
from outside.lies import Liar
from outside.waivers import with_waivers

HEAD = slice(HEAD_AT, 3 * PAGE)
BIDDER_SIZE = 48
# `check` after the first round.
SHOWN = """ROUND 2 STAGE 1 OPEN REVENUE 500 COUNT 5
NODE all HIGH 500 z PRICE 500 MIN 550 WIN yes
NODE east HIGH 0 - PRICE 325 MIN 360 WIN no
NODE a HIGH 100 x PRICE 138 MIN 160 WIN no
NODE b HIGH 150 y PRICE 187 MIN 210 WIN no
NODE c HIGH 100 w PRICE 175 MIN 200 WIN no
NODE d HIGH 0 - PRICE 0 MIN 100 WIN no
"""
# Three rounds with one waiver for each bidder: an own one holds the second open, and those that closes take hold none.
AT_WORK = (EXAMPLES / "waivers-at-work.txt").read_text().splitlines()[1:]
AT_WORK_ANSWERS = (EXAMPLES / "waivers-at-work.out").read_text()
NO_CHECKPOINT, NO_LAYOUT, NO_FRAME = "ERR 44 checkpoint", "ERR 42 layout", "ERR 45 frame"


def in_slot(slot: int, at: int = 0) -> int:
    """The place of a byte of a slot's body."""
    return SLOTS[slot] + PAGE + at


def of_bidder(bidder: str, at: int) -> int:
    """The place of a byte of its entry in the first slot."""
    return in_slot(0, BIDDERS_AT + BIDDER_SIZE * BIDDERS.index(bidder) + at)


def image_of(layout: Layout, waivers: int = 0, form: int = WAIVERS_FORMAT) -> Image:
    """A new file with the least journal."""
    return Image(layout, layout.least_journal, waivers, form)


def old_image(layout: Layout, has_checkpoint: bool = False) -> Image:
    """A file in which an earlier program kept the first round, in one batch, and perhaps made a checkpoint of it."""
    image, auction = image_of(layout, form=FIRST_FORMAT), Auction()
    image.put_batch(0, 1, FIRST_ROUND)
    for line in FIRST_ROUND:
        auction.take(line)
    if has_checkpoint:
        image.put_state(1, auction.state(1, FIRST_FORMAT))
    return image


@pytest.fixture(params=[False, True], ids=["a batch", "a checkpoint"])
def old(request: pytest.FixtureRequest, layout: Layout) -> Image:
    """Each such file, in each layout."""
    return old_image(layout, request.param)


def test_an_old_file_is_shown_and_left_alone(program: Program, room: Path, old: Image) -> None:
    """By commands that aren't accepted, and by `format`. No bidder has a waiver."""
    file = room / "F"
    file.write_bytes(old.bytes)
    assert program.check(file).told() == (SHOWN, "", 0)
    ran = program.format(file, old.layout, text=with_waivers(1))
    assert (ran.output, ran.status) == ("ERR 41 formatted\n", 1)
    lines = ["WHO x", "WAIVE x 2", "BID x 1 a 100", "WHO z"]
    answers = ["WHO x ELIGIBILITY 10 ACTIVITY 0 TICKET 1", "ERR 28 waiver", "OK 1", "WHO z ELIGIBILITY 40 ACTIVITY 40 TICKET 1"]
    ran = program.run_lines(file, text_of(lines), "--every", 1)
    assert (ran.lines(), ran.status) == (answers, 0)
    ran = program.run_lines(file, b"", "--every", 1)
    assert (ran.output, ran.status) == ("", 0)
    assert file.read_bytes() == old.bytes


def test_an_old_file_grows(program: Program, room: Path, old: Image) -> None:
    """It keeps its head; a state that is written anew has the newer format."""
    file, before = room / "F", bytes(old.bytes)
    file.write_bytes(before)
    kept = Kept(old, batches=[FIRST_ROUND])
    for number, line in enumerate(["BID w 2 c 250", "CLOSE 2"]):
        answer = f"OK {6 + number}"
        assert program.run_lines(file, text_of([line]), "--every", 1).lines() == [answer]
        kept.run([line], [answer], 1, 1)
        image = file.read_bytes()
        assert image == kept.image.bytes
        assert (image[HEAD] == before[HEAD], image[25]) == (True, FIRST_FORMAT)
        assert image[in_slot(kept.newest)] == WAIVERS_FORMAT
        assert image[in_slot(1 - kept.newest)] == (WAIVERS_FORMAT if number else FIRST_FORMAT)
    assert first_shown(program, file) == "ROUND 3 STAGE 1 OPEN REVENUE 500 COUNT 7"


def test_an_old_file_is_served(program: Program, room: Path, layout: Layout, serve: Serve) -> None:
    file, before = room / "F", bytes(old_image(layout).bytes)
    file.write_bytes(before)
    server = serve(file)
    session = server.connect()
    lines = ["SHOW", "WHO x", "WAIVE x 2", "BID w 2 c 250", "CLOSE 2"]
    answers = [SHOWN.split("\n")[0], "WHO x ELIGIBILITY 10 ACTIVITY 0 TICKET 1", "ERR 28 waiver", "OK 6", "OK 7"]
    assert [session.ask(line) for line in lines] == answers
    assert session.finish() == []
    closes(server, 7)
    assert file.read_bytes()[HEAD] == before[HEAD]
    assert first_shown(program, file).endswith(" COUNT 7")


def new_file(program: Program, room: Path, layout: Layout, waivers: int) -> Path:
    """A new file of an auction with so many waivers."""
    file = room / f"F{waivers}"
    assert program.format(file, layout, text=with_waivers(waivers)).status == 0
    return file


def tells_waivers(program: Program, room: Path, layout: Layout, waivers: int) -> None:
    """A new file has the newer format, and says how many waivers there are."""
    file = new_file(program, room, layout, waivers)
    image = file.read_bytes()
    assert (image[25], image[34:36]) == (2, bytes([waivers, 0]))
    assert image == image_of(layout, waivers).bytes
    who = f"WHO x ELIGIBILITY 10 ACTIVITY 0 TICKET 0{f' WAIVERS {waivers}' if waivers else ''}"
    assert program.run_lines(file, b"WHO x\n").lines() == [who]


@pytest.mark.parametrize("waivers", [0, 1, 20])
def test_a_new_file(program: Program, room: Path, layout: Layout, waivers: int) -> None:
    tells_waivers(program, room, layout, waivers)


def differing(some: bytes, other: bytes | bytearray) -> dict[int, tuple[int, int]]:
    """Each place at which two files differ, with both bytes."""
    return {at: (some[at], other[at]) for at in range(len(some)) if some[at] != other[at]}


def test_few_bytes_differ(program: Program, room: Path, layout: Layout) -> None:
    """A new file with a waiver from one without, and from an old one: in its head, and in the state of each bidder."""
    one, none = (new_file(program, room, layout, waivers).read_bytes() for waivers in (1, 0))
    assert differing(one, none) == dict.fromkeys([0x22, 0x4C24, 0x4C54, 0x4C84, 0x4CB4], (1, 0))
    assert differing(none, image_of(layout, form=FIRST_FORMAT).bytes) == dict.fromkeys([0x19, 0x4000], (2, 1))


Parts = dict[int, bytes]
ONE, NONE, OLD = "one waiver", "no waivers", "an old file"
IN_HEAD: list[tuple[str, Parts, str]] = [
    (ONE, {}, EMPTY),
    (ONE, {34: b"\x14"}, EMPTY),
    (ONE, {25: b"\x01"}, NO_LAYOUT),
    (ONE, {25: b"\x03"}, NO_LAYOUT),
    (ONE, {25: b"\x00"}, NO_LAYOUT),
    (ONE, {34: b"\x15"}, NO_LAYOUT),
    (ONE, {34: b"\xff"}, NO_LAYOUT),
    (ONE, {35: b"\x01"}, NO_LAYOUT),
    # Fewer waivers than a bidder has left.
    (ONE, {34: b"\x00"}, NO_CHECKPOINT),
    (OLD, {}, EMPTY),
    (OLD, {34: b"\x01"}, NO_LAYOUT),
    (OLD, {35: b"\x01"}, NO_LAYOUT),
    (OLD, {25: b"\x02"}, EMPTY),
]
X_LEFT, X_WAIVED, W_BEHIND, IS_OVER, FORM = of_bidder("x", 12), of_bidder("x", 13), of_bidder("w", 14), in_slot(0, 2), in_slot(0)
IN_STATE: list[tuple[str, Parts, str]] = [
    # An old state under a definition with waivers; a state with waivers that says the first format; a third format.
    (ONE, {FORM: Auction().state(0, FIRST_FORMAT)}, NO_CHECKPOINT),
    (ONE, {FORM: b"\x01"}, NO_CHECKPOINT),
    (ONE, {FORM: b"\x03"}, NO_CHECKPOINT),
    # None left, one waived; two left of one; one waived that has all left; one waived twice.
    (ONE, {X_LEFT: b"\0"}, EMPTY),
    (ONE, {X_LEFT: b"\0\x01"}, EMPTY),
    (ONE, {X_LEFT: b"\x02"}, NO_CHECKPOINT),
    (ONE, {X_WAIVED: b"\x01"}, NO_CHECKPOINT),
    (ONE, {X_LEFT: b"\0\x02"}, NO_CHECKPOINT),
    # None left, or one waived, once all is over.
    (ONE, {IS_OVER: b"\x01", X_LEFT: b"\0"}, EMPTY.replace("OPEN", "CLOSED")),
    (ONE, {IS_OVER: b"\x01", X_LEFT: b"\0\x01"}, NO_CHECKPOINT),
    (ONE, {W_BEHIND: b"\x01"}, NO_CHECKPOINT),
    (ONE, {W_BEHIND + 1: b"\x01"}, NO_CHECKPOINT),
    (ONE, {of_bidder("w", 12 + BIDDER_SIZE): b"\x01"}, NO_CHECKPOINT),
    (NONE, {FORM: b"\x01"}, EMPTY),
    (NONE, {X_LEFT: b"\x01"}, NO_CHECKPOINT),
    (NONE, {X_WAIVED: b"\x01"}, NO_CHECKPOINT),
    (OLD, {FORM: b"\x02"}, EMPTY),
    (OLD, {X_LEFT: b"\x01"}, NO_CHECKPOINT),
]


def shown_of(program: Program, room: Path, image: bytes | bytearray, parts: Parts) -> str:
    """The first line of `check` for these bytes, with others at some places."""
    changed = bytearray(image)
    for at, part in parts.items():
        changed[at : at + len(part)] = part
    (room / "changed").write_bytes(changed)
    return first_shown(program, room / "changed")


@pytest.mark.parametrize("which, parts, shown", [*IN_HEAD, *IN_STATE])
def test_other_bytes(program: Program, room: Path, layout: Layout, which: str, parts: Parts, shown: str) -> None:
    """Under the first format there are no waivers, and no third format is known. Each state alone in its file."""
    image = image_of(layout, int(which == ONE), FIRST_FORMAT if which == OLD else WAIVERS_FORMAT)
    assert shown_of(program, room, image.bytes, parts) == shown


def test_an_old_state_beside_a_newer_one(program: Program, room: Path, layout: Layout) -> None:
    image = image_of(layout, 1)
    image.put_batch(0, 1, ["WAIVE x 1"])
    (room / "F").write_bytes(image.bytes)
    assert program.run_lines(room / "F", b"WAIVE y 1\n", "--every", 1).status == 0
    two = EMPTY.replace("COUNT 0", "COUNT 2")
    assert shown_of(program, room, (room / "F").read_bytes(), {FORM: b"\x01"}) == two


def test_a_state_with_a_waiver(program: Program, room: Path, layout: Layout) -> None:
    """Byte by byte: x has none of its one left, waived in this round, and its last command is that."""
    file = new_file(program, room, layout, 1)
    assert program.run_lines(file, b"WAIVE x 1\n", "--every", 1).lines() == ["OK 1"]
    image, at, record = file.read_bytes(), in_slot(1, BIDDERS_AT), image_of(layout).frame(0) + 40
    entry = "0000000a 00000001 00000001 00010000 04000000 00000001 0000000000000000" + " 00000000" * 4
    assert image[at : at + BIDDER_SIZE].hex() == entry.replace(" ", "")
    assert image[record : record + 16].hex() == "04000000000000010000000000000000"
    answers = ["WHO x ELIGIBILITY 10 ACTIVITY 0 TICKET 1 WAIVERS 0", "OK 1", "ERR 28 waiver", "ROUND 1 STAGE 1 OPEN REVENUE 0 COUNT 1"]
    assert program.run_lines(file, text_of(["WHO x", "WAIVE x 1", "WAIVE x 2", "SHOW"])).lines() == answers


@pytest.mark.parametrize("batch, every", [(1, 1), (1, 0), (64, 1), (3, 2)])
def test_waivers_of_runs(program: Program, room: Path, layout: Layout, batch: int, every: int) -> None:
    """The answers are those in memory, whatever the batches are; and so is each byte, and each answer when it is opened again."""
    file = new_file(program, room, layout, 1)
    ran = program.run_lines(file, text_of(AT_WORK), "--batch", batch, "--every", every)
    assert (ran.output, ran.status) == (AT_WORK_ANSWERS, 0)
    kept = Kept(image_of(layout, 1), 1)
    kept.run(AT_WORK, AT_WORK_ANSWERS.splitlines(), batch, every)
    assert file.read_bytes() == kept.image.bytes
    again = program.run_lines(file, text_of(["WHO x", "SHOW", "WAIVE x 2", "WAIVE x 3"]))
    assert again.lines() == [*AT_WORK_ANSWERS.splitlines()[:-3:-1], "OK 6", "ERR 20 closed"]


# Of a batch: how many waivers a bidder has, its lines, and the end of the first line that is shown.
BATCHES = [
    (1, ["WAIVE x 1"], "COUNT 1"),
    (0, ["WAIVE x 1"], NO_FRAME),
    (1, ["WAIVE x 2"], NO_FRAME),
    (2, ["WAIVE x 1", "WAIVE x 2"], NO_FRAME),
    (2, ["WAIVE x 1", "CLOSE 1", "WAIVE x 2"], "COUNT 3"),
    (1, ["WAIVE x 1", "CLOSE 1", "WAIVE x 2"], NO_FRAME),
    (1, ["CLOSE 1", "WAIVE x 1"], NO_FRAME),
]


@pytest.mark.parametrize("waivers, lines, shown", BATCHES)
def test_a_batch_with_waivers(program: Program, room: Path, layout: Layout, waivers: int, lines: list[str], shown: str) -> None:
    image = image_of(layout, waivers)
    image.put_batch(0, 1, lines)
    assert shown_of(program, room, image.bytes, {}).endswith(shown)


# Bytes of a waiver's record: a fifth kind; a bidder that isn't there; a node; a byte behind it; no ticket; an amount.
RECORDS = [(0, b"\x05"), (1, b"\x04"), (2, b"\x01"), (3, b"\x01"), (7, b"\x00"), (15, b"\x01")]


@pytest.mark.parametrize("at, part", RECORDS)
def test_a_record_that_no_waiver_has(program: Program, room: Path, layout: Layout, at: int, part: bytes) -> None:
    image = image_of(layout, 1)
    image.put_batch(0, 1, ["WAIVE y 1"])
    assert shown_of(program, room, image.bytes, {image.frame(0) + 40 + at: part}) == NO_FRAME


def waived() -> Auction:
    """One in which y has waived."""
    auction = Auction(1)
    auction.take("WAIVE y 1")
    return auction


Y_TICKET, Y_KIND = of_bidder("y", 4), of_bidder("y", 16)
LAST: list[tuple[Parts, str]] = [
    ({}, "COUNT 1"),
    # It is another bidder's, a close, or the auctioneer's.
    ({Y_KIND + 1: b"\0"}, NO_CHECKPOINT),
    ({Y_KIND: b"\x02\0"}, NO_CHECKPOINT),
    ({in_slot(0, 24): waived().last["y"], Y_TICKET: bytes(8), Y_KIND: bytes(16)}, NO_CHECKPOINT),
]


@pytest.mark.parametrize("parts, shown", LAST, ids=["its own", "another's", "a close", "the auctioneer's"])
def test_a_last_command_that_is_a_waiver(program: Program, room: Path, layout: Layout, parts: Parts, shown: str) -> None:
    image = image_of(layout, 1)
    image.put_state(0, waived().state(0))
    assert shown_of(program, room, image.bytes, parts).endswith(shown)


@pytest.mark.parametrize("form, shown", [(WAIVERS_FORMAT, "COUNT 2"), (FIRST_FORMAT, NO_CHECKPOINT)])
def test_a_waiver_where_nobody_has_one_left(program: Program, room: Path, layout: Layout, form: int, shown: str) -> None:
    """The state may be one of a definition that has none; the first format has no such record."""
    auction, image = waived(), image_of(layout)
    auction.take("CLOSE 1")
    image.put_state(0, auction.state(0, form))
    assert shown_of(program, room, image.bytes, {}).endswith(shown)


@pytest.mark.parametrize("lie", ["wrong", "ill"])
def test_other_waivers_are_seen(liar: Liar, room: Path, lie: str) -> None:
    with pytest.raises(AssertionError):
        tells_waivers(liar(lie), room, Layout.PAGES, 1)
