"""Files: random auctions that the program keeps, in both layouts, read by the package; and each kind of damage that is refused."""
import pathlib
import random
import tempfile

import pytest
from hypothesis import given
from hypothesis import strategies as some

from generators import auction_of, lines_of, questions_of
from hpb.file import AuctionFile, Layout, auctions_in, read_auction, state_of
from hpb.file.slots import read_state
from hpb.lines import Accepted, format_answer
from hpb.refusals import BadFrame, BadHead, NoCheckpoint, Refused, Unformatted
from hpb.rules import Auction, answer, begin, read_definition
from serving import DEFINITION, Program, few

PAGE = 4096


def kept_by(program: Program, definition: bytes, lines: list[str], layout: Layout, batch: int, every: int = 0, journal: int = 16) -> bytes:
    """The bytes of a file after a run of these lines."""
    with tempfile.TemporaryDirectory(dir="/dev/shm") as folder:
        file = pathlib.Path(folder, "auction.hpb")
        program.format(file, definition, layout, journal)
        program.run("run", "--file", file, "--batch", batch, "--every", every, text="".join(line + "\n" for line in lines).encode())
        return file.read_bytes()


def shown_by(program: Program, image: bytes, auction: Auction) -> tuple[list[str], list[str]]:
    """The answers to each question: the program's from the file, and the package's from the auction."""
    questions = questions_of(auction.tree.definition)
    with tempfile.TemporaryDirectory(dir="/dev/shm") as folder:
        file = pathlib.Path(folder, "auction.hpb")
        file.write_bytes(image)
        text = "".join(line + "\n" for line in questions).encode()
        return program.run("run", "--file", file, text=text)[0], [format_answer(answer(auction, line)[1]) for line in questions]


@few(8)
@given(some.integers(0, 2**32), some.sampled_from(Layout), some.sampled_from([1, 5, 29, 30, 64]), some.sampled_from([0, 1, 3]))
def test_what_the_program_keeps_is_read(program: Program, seed: int, layout: Layout, batch: int, every: int) -> None:
    definition, commands, auction = auction_of(seed, commands=120)
    image = kept_by(program, definition, lines_of(commands), layout, batch, every)
    found = read_auction(image)
    assert found.auction == auction
    assert (found.head.layout, found.head.frames, found.head.state_format) == (layout, 16, 2)
    answered, wanted = shown_by(program, image, found.auction)
    assert answered == wanted


@few(8)
@given(some.integers(0, 2**32), some.sampled_from(Layout))
def test_a_state_has_the_bytes_of_a_slot(program: Program, seed: int, layout: Layout) -> None:
    """But for the batch index, which counts the batches of one file."""
    definition, commands, auction = auction_of(seed, commands=60)
    image = kept_by(program, definition, lines_of(commands), layout, 1, every=1)
    for gate in (3 * PAGE, 8 * PAGE):
        body = bytearray(image[gate + PAGE : gate + 5 * PAGE])
        body[16:24] = bytes(8)
        # A slot that was never written is closed.
        assert image[gate] != 0xA5 or state_of(read_state(bytes(body), auction.tree.definition).auction) == body
    assert read_auction(image).checkpoint.auction == auction


@few(6)
@given(some.integers(0, 2**32), some.sampled_from(Layout), some.sampled_from([1, 5, 64]))
def test_the_auctions_that_a_file_still_shows_are_those_after_its_last_commands(program: Program, seed: int, layout: Layout, batch: int) -> None:
    definition, commands, newest = auction_of(seed, commands=120)
    image = kept_by(program, definition, lines_of(commands), layout, batch)
    by_count = {0: begin(newest.tree.definition)}
    for line in lines_of(commands):
        told = by_count[max(by_count)]
        told, _ = answer(told, line)
        by_count[told.count] = told
    shown = list(auctions_in(image))
    assert all(one == by_count[one.count] for one in shown)
    # All that behind the older slot's auction, or at least behind the newer one's.
    counts = sorted({one.count for one in shown})
    assert counts[-1] == newest.count and read_auction(image).checkpoint.auction.count in counts


def test_a_long_auction_wraps_its_journal_and_checkpoints(program: Program) -> None:
    """Forty batches of one command each, in sixteen frames."""
    auction = begin(read_definition(DEFINITION))
    lines = [line for round_ in range(1, 5) for line in round_of(round_)]
    for line in lines:
        auction, answered = answer(auction, line)
        assert isinstance(answered, Accepted), line
    for layout in Layout:
        found = read_auction(kept_by(program, DEFINITION, lines, layout, 1))
        assert found.auction == auction
        assert found.checkpoint.batches > 16


def round_of(number: int) -> list[str]:
    """Nine bids and a close, each accepted."""
    first = ["x 1 a", "y 1 b", "z 5 all", "z 5 east", "z 5 a", "z 5 b", "z 5 c", "w 2 c", "w 2 d"]
    used, lines = dict.fromkeys("xyzw", 0), []
    for bidder, many, node in (text.split() for text in first):
        used[bidder] += 1
        amount = 1000 * 2**number * {"all": 3, "east": 2}.get(node, 1)
        lines.append(f"BID {bidder} {(number - 1) * int(many) + used[bidder]} {node} {amount}")
    return [*lines, f"CLOSE {number}"]


def first_file(program: Program, layout: Layout = Layout.PAGES) -> bytearray:
    """The file of the first round, with one command in each batch."""
    lines = ["BID x 1 a 100", "BID y 1 b 150", "BID z 1 all 500", "BID w 1 c 100", "CLOSE 1"]
    return bytearray(kept_by(program, DEFINITION, lines, layout, 1))


def read(image: bytes | bytearray) -> AuctionFile:
    return read_auction(bytes(image))


def test_the_first_batch_is_the_one_of_the_documents(program: Program) -> None:
    batch = read(first_file(program)).batches[0]
    assert (batch.index, batch.first, [str(command) for command in batch.commands]) == (
        0, 1, ["Bid(bidder='x', node='a', amount=100, ticket=1)"],
    )


def in_first_format(image: bytearray) -> bytearray:
    """The file as an `hpb` without waivers writes it: byte 25 of the head, and the first byte of the first slot's state, are 1."""
    image[25] = image[4 * PAGE] = 1
    return image


def test_a_file_of_the_first_state_format_is_read(program: Program) -> None:
    image = in_first_format(first_file(program))
    found = read(image)
    assert (found.head.state_format, found.checkpoint.state_format) == (1, 1)
    answered, wanted = shown_by(program, bytes(image), found.auction)
    assert answered == wanted


@pytest.mark.parametrize("kind, damage", [
    (Unformatted, lambda image: image.__setitem__(0, 0)),
    (Unformatted, lambda image: image.__setitem__(16, 0)),
    (Unformatted, lambda image: image.extend(b"\0")),
    (Unformatted, lambda image: image.clear()),
    (BadHead, lambda image: image.extend(bytes(PAGE))),
    (BadHead, lambda image: image.__setitem__(24, 3)),
    (BadHead, lambda image: image.__setitem__(25, 3)),
    (BadHead, lambda image: image.__setitem__(35, 1)),
    (BadHead, lambda image: image.__setitem__(28, 51)),
    (BadHead, lambda image: image.__setitem__(PAGE + 16, 0)),
    (BadHead, lambda image: image.__setitem__(PAGE + 18, 1)),
    (BadHead, lambda image: image.__setitem__(2 * PAGE + 20, 1)),
    (NoCheckpoint, lambda image: image.__setitem__(3 * PAGE, 0)),
    (NoCheckpoint, lambda image: image.__setitem__(4 * PAGE + 3, 1)),
    (NoCheckpoint, lambda image: image.__setitem__(4 * PAGE + 6168, 1)),
    (BadFrame, lambda image: image.__setitem__(13 * PAGE + 30, 1)),
    (BadFrame, lambda image: image.__setitem__(13 * PAGE + 40, 9)),
    (BadFrame, lambda image: image.__setitem__(13 * PAGE, 0)),
    (BadFrame, lambda image: image.__setitem__(13 * PAGE + 31, 7)),
    (BadFrame, lambda image: image.__setitem__(14 * PAGE + 47, 9)),
])
def test_damages_are_refused_as_by_the_program(program: Program, tmp_path: pathlib.Path, kind: type[Refused], damage: "object") -> None:
    image = first_file(program)
    damage(image)  # type: ignore[operator]
    with pytest.raises(kind) as refused:
        read(image)
    file = tmp_path / "auction.hpb"
    file.write_bytes(image)
    assert program.run("check", "--file", file)[0] == [refused.value.line]


@few(10)
@given(some.integers(0, 2**32))
def test_bytes_that_are_changed_are_read_or_refused_as_by_the_program(program: Program, seed: int) -> None:
    dice = random.Random(seed)
    layout = dice.choice(list(Layout))
    image = bytearray(kept_by(program, *story(seed), layout, dice.choice([1, 2, 30]), dice.choice([0, 2])))
    places = [place for place in range(len(image)) if image[place]]
    for _ in range(dice.choice([1, 1, 2])):
        image[dice.choice(places) + dice.choice([0, 0, 1])] = dice.choice([0, 1, 0xA5, dice.randrange(256)])
    with tempfile.TemporaryDirectory(dir="/dev/shm") as folder:
        file = pathlib.Path(folder, "auction.hpb")
        file.write_bytes(image)
        checked, _ = program.run("check", "--file", file)
    try:
        found = read(image).auction
    except Refused as refused:
        assert checked == [refused.line]
    else:
        questions = [line for line in questions_of(found.tree.definition) if not line.startswith("WHO")]
        assert checked == [format_answer(answer(found, line)[1]) for line in questions]


def story(seed: int) -> tuple[bytes, list[str]]:
    definition, commands, _ = auction_of(seed % 50, commands=40)
    return definition, lines_of(commands)
