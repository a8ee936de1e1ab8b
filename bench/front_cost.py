"""Measures the processor's time that a front uses for a command, also on a busy machine. Its clients go in step, so other work changes how
long it takes, but not how many commands come together.

    bench/front_cost crates/hpb/out/hpb                            files in /dev/shm
    bench/front_cost crates/hpb/out/hpb --beside OTHER --runs 3    in turns with the front of another checkout

So many names send a bid each, and wait for all answers: one name alone, then 8 and 32 together. A front's use while nobody sends anything
is taken off. Needs Linux.
"""
import argparse
import os
import pathlib
import socket
import tempfile
import time
from statistics import median

import fronts
from auctions import Auction
from fronts import ADDRESS, Front, token_of
from harness.programs import Program
from layouts import LAYOUTS

HERE = pathlib.Path(__file__).resolve().parent.parent
LEVELS, BIDDERS, NODES, JOURNAL, PRICE = 7, 64, 127, 1_024, 1_000
MOST_NAMES = 32
LIMITS = {"lines_per_second": 1_000_000}
IDLE_SECONDS = 2.0


def names_of(count):
    """The names, with the bidders shared out."""
    names = {f"s{place}": [f"b{bidder}" for bidder in range(BIDDERS * place // count, BIDDERS * (place + 1) // count)] for place in range(count)}
    return {**names, "desk": "auctioneer"}


def licences(node):
    """How many licences are below a node of the binary tree."""
    return 1 if node >= NODES // 2 else licences(2 * node + 1) + licences(2 * node + 2)


def bids_of(bidders):
    """Bids of a name that are all accepted: each is on another node or of another bidder."""
    tickets = dict.fromkeys(bidders, 0)
    for node in range(NODES):
        for bidder in bidders:
            tickets[bidder] += 1
            yield b"BID %s %d n%d %d\n" % (bidder.encode(), tickets[bidder], node, PRICE * licences(node))


def used(process):
    """Seconds of the processor that the threads of a process have used, to the nanosecond."""
    tasks = pathlib.Path(f"/proc/{process.pid}/task").iterdir()
    return sum(int((task / "schedstat").read_text().split()[0]) for task in tasks) / 1e9


class Clients:
    """The clients of a front, one of each name."""

    def __init__(self, front, names):
        self.bids = [bids_of(bidders) for bidders in names.values() if isinstance(bidders, list)]
        self.sockets = [socket.create_connection((ADDRESS, front.port)) for _ in self.bids]
        for place, one in enumerate(self.sockets):
            one.setsockopt(socket.IPPROTO_TCP, socket.TCP_NODELAY, 1)
            self.say(place, f"TOKEN {token_of(f's{place}')}\n".encode(), b"WELCOME ")

    def say(self, place, line, wanted):
        self.sockets[place].sendall(line)
        self.hear(place, wanted)

    def hear(self, place, wanted):
        answer = self.sockets[place].recv(200)
        assert answer.startswith(wanted), answer

    def bid(self, rounds):
        """Each sends a bid and gets its answer, so many times."""
        for _ in range(rounds):
            for one, bids in zip(self.sockets, self.bids):
                one.sendall(next(bids))
            for place in range(len(self.sockets)):
                self.hear(place, b"OK ")


def cost_of(checkout, program, folder, count, commands):
    """Microseconds of the processor that the front of a checkout uses for a command, with so many names."""
    file = os.path.join(folder, "auction")
    made, is_made = LAYOUTS[1].format(program, Auction(LEVELS, BIDDERS).definition(), file, JOURNAL)
    assert is_made, made
    fronts.with_package = lambda variables: {**variables, "PYTHONPATH": str(checkout / "python" / "src")}
    names = names_of(count)
    front = Front(Program(pathlib.Path(program)), pathlib.Path(folder), names, limits=LIMITS, fields={"file": "auction"}).start()
    try:
        clients = Clients(front, names)
        clients.bid(2)
        before = used(front.process)
        time.sleep(IDLE_SECONDS)
        idle = (used(front.process) - before) / IDLE_SECONDS
        began, before, rounds = time.monotonic(), used(front.process), commands // count
        clients.bid(rounds)
        seconds = used(front.process) - before - idle * (time.monotonic() - began)
        front.stop()
    finally:
        front.kill()
    return seconds / (rounds * count) * 1e6


def main():
    words = argparse.ArgumentParser(description=__doc__, formatter_class=argparse.RawDescriptionHelpFormatter)
    words.add_argument("program", type=os.path.abspath, help="the built program")
    words.add_argument("--beside", type=pathlib.Path, help="a checkout whose front is measured, too")
    words.add_argument("--names", type=int, nargs="+", default=[1, 8, MOST_NAMES], help="1 to 32 each (default 1 8 32)")
    words.add_argument("--commands", type=int, default=2_000, help="of each run, 8,000 at most (default 2,000)")
    words.add_argument("--runs", type=int, default=3, help="of each; the median is shown (default 3)")
    words.add_argument("--folder", default="/dev/shm", help="the folder of the data (default /dev/shm)")
    given = words.parse_args()
    checkouts = [HERE, *([given.beside.resolve()] if given.beside else [])]
    for count in given.names:
        costs = {checkout: [] for checkout in checkouts}
        for _ in range(given.runs):
            for checkout, found in costs.items():
                with tempfile.TemporaryDirectory(prefix="front-", dir=given.folder) as folder:
                    found.append(cost_of(checkout, given.program, folder, count, given.commands))
        told = "; ".join(f"{checkout}: {median(found):,.0f} us a command" for checkout, found in costs.items())
        print(f"{count} names: {told}", flush=True)


main()
