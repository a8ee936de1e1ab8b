"""Counts the bids that a front acknowledges, and compares with `hpb serve` alone: the same sessions, bids and closes on both, in
turns.

    bench/front crates/hpb/out/hpb                          files in the current folder
    bench/front crates/hpb/out/hpb --sessions 32 --runs 1   one run with 32 sessions
    bench/front crates/hpb/out/hpb --sessions 1 8 32 --runs 3 --rows     rows of the table in bench/README.md, in two minutes

Each session has one bid outstanding. At the front each session is a name of its own, and connects without TLS. Needs a C compiler
and Linux.
"""
import argparse
import os
import pathlib
import sys
import tempfile
from statistics import median

from fronts import Front
from harness.programs import Program
from servers import Fails, Load, add_options, seconds_used

FASTEST = {"lines_per_second": 1_000_000}
BUSY = 1.0


def names_of(sessions, bidders):
    """The names, with the bidders shared out as in the load. The name after the last one is the auctioneer."""
    names = {}
    for place in range(sessions):
        names[f"s{place}"] = [f"b{bidder}" for bidder in range(bidders * place // sessions, bidders * (place + 1) // sessions)]
    return {**names, f"s{sessions}": "auctioneer"}


def of_front(load, sessions):
    """The figures of the front. `cost` is how many microseconds of the processor it uses for a command."""
    file = pathlib.Path(load.new_file())
    names = names_of(sessions, load.given.bidders)
    program = Program(pathlib.Path(load.given.program).resolve())
    front = Front(program, file.parent, names, limits=FASTEST, fields={"file": file.name}).start()
    try:
        before = seconds_used(front.process)
        figures = load.measure("front", front.port, sessions)
        used = seconds_used(front.process) - before
        ran = front.stop()
        if ran.status != 0:
            raise Fails(f"the front ended with {ran.status}: {ran.errors}")
        figures.cost = used / int(ran.output.split("STOPPED ")[1].split()[0]) * 1e6
    finally:
        front.kill()
    return figures


def told(what, runs):
    rate, middle, late = (median(getattr(run, of) for run in runs) for of in ("rate", "middle", "late"))
    return f"{what} {rate:,.0f} a second, answered in {middle:,.0f} us, 99 of 100 in {late:,.0f} us"


def row(sessions, alone, behind):
    """A row of the table in bench/README.md. Times are milliseconds, the 50th and the 99th percentile."""
    rates = [median(run.rate for run in runs) for runs in (alone, behind)]
    times = [f"{median(run.middle for run in runs) / 1000:.2f}, {median(run.late for run in runs) / 1000:.2f}" for runs in (alone, behind)]
    cost = f"{median(run.cost for run in behind):,.0f}"
    return f"| {sessions} | {rates[0]:,.0f} | {rates[1]:,.0f} | {rates[1] / rates[0]:.2f} | {times[0]} | {times[1]} | {cost} |"


def main():
    words = argparse.ArgumentParser(description=__doc__, formatter_class=argparse.RawDescriptionHelpFormatter)
    add_options(words)
    words.add_argument("--rows", action="store_true", help="rows of the table in bench/README.md")
    given = words.parse_args()
    others = os.getloadavg()[0]
    with tempfile.TemporaryDirectory(prefix="front-", dir=given.folder) as folder:
        load = Load(given, os.path.abspath(folder))
        for sessions in given.sessions:
            alone, behind = [], []
            for _ in range(given.runs):
                alone.append(load.of_hpb(sessions))
                behind.append(of_front(load, sessions))
            if given.rows:
                print(row(sessions, alone, behind), flush=True)
                continue
            cost = median(run.cost for run in behind)
            print(f"{sessions} sessions: {told('alone', alone)}; {told('behind a front', behind)}", end="; ")
            print(f"the front uses {cost:,.0f} us of the processor for a command", flush=True)
    if others > BUSY:
        print(f"the machine was busy: a load of {others:.1f} on {os.cpu_count()} cores before this")


try:
    main()
except Fails as fault:
    sys.exit(str(fault))
