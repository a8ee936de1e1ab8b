"""Cuts of a front with its record and its server. It starts again by itself, nothing that was answered OK is lost, and record and
file agree.
"""

from __future__ import annotations

import random
from contextlib import ExitStack

from cuts.bidders import AHEAD, BIDDERS, BIDS, cutting, hold, new_bidders
from cuts.setting import Setting, new_file
from fronts import Front
from harness.bidding import Bidder, attend_all, bidders_definition
from harness.fronts import run_tool

CUTS = 4
LIMITS = {"lines_per_second": 100_000}


def story(setting: Setting, seed: int) -> None:
    """A front that is cut, and started again on the files that the cut left."""
    dice = random.Random(seed)
    data = new_file(setting.program, setting.layout, setting.layout.least_journal, bidders_definition(BIDDERS), setting.beside)
    setting.disk.reset(setting.lie)
    setting.disk.put(setting.file.name, data)
    bidders = new_bidders()
    front = configured(setting, bidders)
    for _ in range(CUTS):
        let_in_until_cut(front, setting, dice, bidders)
        hold(setting.program, setting.file, bidders, setting.leave(dice))
    agree(front, bidders)


def configured(setting: Setting, bidders: list[Bidder]) -> Front:
    """A front with a name for each bidder. File and record are on the disk, but the tokens aren't."""
    names: dict[str, object] = {name_of(bidder): [bidder.name] for bidder in bidders}
    places = {"file": str(setting.file), "record": str(setting.disk.folder / "R")}
    return Front(setting.program, setting.beside, {**names, "desk": "auctioneer"}, LIMITS, places)


def name_of(bidder: Bidder) -> str:
    """The name that bids for this bidder."""
    return f"name_of_{bidder.name}"


def let_in_until_cut(front: Front, setting: Setting, dice: random.Random, bidders: list[Bidder]) -> None:
    """Lets all bidders in until the power is cut or all have bid. Or cuts it while the front starts. Then kills the front."""
    if dice.randrange(4) == 0:
        setting.disk.arm(dice.randint(1, 8))
        try:
            front.start()
        except AssertionError as fault:
            assert setting.disk.is_cut(), fault
            return
    else:
        front.start()
    with front, ExitStack() as stack:
        try:
            clients = [stack.enter_context(front.client(name_of(bidder))) for bidder in bidders]
        except OSError:
            assert setting.disk.is_cut()
            return
        attend_all(list(zip(bidders, clients)), BIDS, dice.choice(AHEAD), cutting(setting, dice))


def agree(front: Front, bidders: list[Bidder]) -> None:
    """With power, the front lets each bidder go on, stops when asked to, and leaves a record that agrees with the file."""
    with front.start():
        for bidder in bidders:
            with front.client(name_of(bidder)) as client:
                if bidder.ticket:
                    assert client.ask(bidder.bid(bidder.ticket)) == f"OK {bidder.numbers[bidder.ticket]}"
                bidder.attend(client, 1)
                assert not bidder.refused, bidder
        ran = front.stop()
        assert ran.status == 0, ran
    ran = run_tool("replay", front.record, "--file", front.file, "--program", front.program.path)
    assert ran.status == 0, ran
