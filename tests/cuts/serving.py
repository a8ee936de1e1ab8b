"""Cuts of `serve` with several clients: nothing that was answered OK is lost, and each bid is kept once."""

from __future__ import annotations

import random
from contextlib import ExitStack

from cuts.bidders import AHEAD, BIDDERS, BIDS, cutting, hold, new_bidders
from cuts.setting import Setting, new_file
from harness.bidding import Bidder, attend_all, bidders_definition
from harness.serving import Server

CUTS = 4
FAILED = "ERR 93 failed"


def story(setting: Setting, seed: int) -> None:
    """A file that is served, cut, and served again as the cut left it."""
    dice = random.Random(seed)
    data = new_file(setting.program, setting.layout, setting.layout.least_journal, bidders_definition(BIDDERS), setting.beside)
    setting.disk.reset(setting.lie)
    setting.disk.put(setting.file.name, data)
    bidders = new_bidders()
    for _ in range(CUTS):
        serve_until_cut(setting, dice, bidders)
        hold(setting.program, setting.file, bidders, setting.leave(dice))


def serve_until_cut(setting: Setting, dice: random.Random, bidders: list[Bidder]) -> None:
    """Serves the file to all bidders until the power is cut or all have bid. Then the server is killed, or ends by itself."""
    is_killed = bool(dice.randrange(2))
    with ExitStack() as stack:
        server = stack.enter_context(Server(setting.program, setting.file, BIDDERS))
        clients = [stack.enter_context(server.connect()) for _ in bidders]
        attend_all(list(zip(bidders, clients)), BIDS, dice.choice(AHEAD), cutting(setting, dice))
        assert all(answer == FAILED for bidder in bidders for answer in bidder.refused), bidders
        if is_killed:
            server.kill()
            return
        for client in clients:
            client.finish()
        ended = server.ended()
        assert ended.status == 0 or (ended.status == 1 and setting.disk.is_cut()), ended
