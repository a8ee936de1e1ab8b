"""`format`, `run`, `serve` and `check`, killed at some moment on each file system: nothing that was answered is lost."""

from __future__ import annotations

import random
import subprocess
import tempfile
import time
from contextlib import ExitStack
from pathlib import Path

import pytest

from cuts.bidders import BIDDERS, BIDS, hold, new_bidders
from cuts.running import kept, least_kept, lines_from
from harness.auctions import Layout, commands, text_of
from harness.bidding import attend_all, bidders_definition
from harness.programs import Program, Ran, format_words, shown
from harness.serving import Server

pytestmark = pytest.mark.as_root

KILLS = 6
SEED = 61
EMPTY = "ROUND 1 STAGE 1 OPEN REVENUE 0 COUNT 0"
# How many seconds a program lives before it is killed: less than a whole job takes, or about as long.
MOST_SECONDS = 0.03


def killed(program: Program, dice: random.Random, text: bytes, *words: object) -> Ran:
    """The answers of a program that is killed at some moment, or ends before."""
    with tempfile.TemporaryFile() as input:
        input.write(text)
        input.seek(0)
        process = program.start(*words, input=input, errors=subprocess.DEVNULL)
        time.sleep(dice.uniform(0, MOST_SECONDS))
        process.kill()
        written, _ = process.communicate()
    return Ran(shown(written), "", process.returncode, 0.0)


def test_a_format_that_is_killed_leaves_nothing_an_unformatted_file_or_a_new_one(program: Program, mounted: Path, layout: Layout) -> None:
    dice = random.Random(SEED)
    for place in range(KILLS):
        file = mounted / f"F{place}"
        journal = layout.least_journal * dice.choice((1, 8))
        ran = killed(program, dice, bidders_definition(BIDDERS), *format_words(file, layout, journal))
        first = program.check(file).output.split("\n")[0]
        assert first in ("ERR 91 device", "ERR 40 unformatted", EMPTY), first
        assert first == EMPTY or not ran.output, f"{ran}, and the file is {first}"
        again = program.format(file, layout, journal)
        assert again.output == ("ERR 41 formatted\n" if first == EMPTY else f"FORMATTED {layout.pages(journal)}\n")
        assert program.count(file) == 0


def test_a_run_that_is_killed_keeps_what_it_answered(program: Program, mounted: Path, layout: Layout) -> None:
    dice = random.Random(SEED)
    file = mounted / "F"
    assert program.format(file, layout).status == 0
    count = 0
    for _ in range(KILLS):
        lines = lines_from(dice, count)
        ran = killed(program, dice, text_of(lines), "run", "--file", file, "--batch", dice.choice((1, 8)), "--every", 1)
        most = count + sum(line != "SHOW" for line in lines)
        count = kept(program, file, least_kept(ran, lines, count), most, f"killed: {ran}")


def test_a_server_that_is_killed_keeps_what_it_answered(program: Program, mounted: Path, layout: Layout) -> None:
    dice = random.Random(SEED)
    file = mounted / "F"
    assert program.format(file, layout, text=bidders_definition(BIDDERS)).status == 0
    bidders = new_bidders()
    for _ in range(KILLS):
        with ExitStack() as stack:
            server = stack.enter_context(Server(program, file, BIDDERS))
            clients = [stack.enter_context(server.connect()) for _ in bidders]

            def kills(server: Server = server) -> None:
                time.sleep(dice.uniform(0, MOST_SECONDS))
                server.kill()

            attend_all(list(zip(bidders, clients)), BIDS // 2, 1, kills)
        hold(program, file, bidders, "killed")


def test_a_check_that_is_killed_changes_nothing(program: Program, mounted: Path, layout: Layout) -> None:
    dice = random.Random(SEED)
    file = mounted / "F"
    assert program.format(file, layout).status == 0
    assert program.run_lines(file, text_of(commands(12)), "--every", 3).status == 0
    before = file.read_bytes()
    for _ in range(KILLS):
        killed(program, dice, b"", "check", "--file", file)
        assert file.read_bytes() == before
    assert program.count(file) == 12
