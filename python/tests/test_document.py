"""docs/CLIENTS.md: its programs, run in order, print what it says; and everything that it names exists."""
import inspect
import os
import pathlib
import re
import subprocess
import sys
import time

import hpb
import hpb.refusals
import hpb.rules
from serving import ADDRESS, SECONDS, Server

TOP = pathlib.Path(__file__).resolve().parents[2]

# The bidder's program that runs until the auction is over is tested separately.
ENDLESS = "me = "
WANTED: list[list[str]] = [
    ["Accepted(number=1)", "10 1"],
    ["21 step: the amount isn't a multiple of the step. What to do: round it up to one"],
    ["[2, 'low', 4, 3]"],
    [
        "[WhoShown(bidder='x', eligibility=10, activity=10, ticket=1, waivers=None), "
        "WhoShown(bidder='y', eligibility=10, activity=10, ticket=1, waivers=None)]",
        "1 300",
    ],
    ["1 100 10"],
    [],
    ["Keeping(bids={'c': 200}, spending=200, activity=20, needed=20)", "Rise(node='c', amount=250, rise=150, parts_rise=None)"],
]


def test_the_programs_print_what_the_document_says(server: Server, documents: pathlib.Path, room: pathlib.Path) -> None:
    text = (documents / "CLIENTS.md").read_text(encoding="utf-8")
    (room / "examples").symlink_to(TOP / "examples")
    programs = [program for program in programs_of(text) if ENDLESS not in program]
    assert len(programs) == len(WANTED)
    for program, wanted in zip(programs, WANTED):
        output, errors = started(program, server, room).communicate(timeout=SECONDS)
        assert (output.splitlines(), errors) == (wanted, ""), program
        for line in wanted:
            assert line in text or line.startswith(("[Who", "1 "))


def programs_of(text: str) -> list[str]:
    """The programs of a document."""
    return re.findall(r"```python\n(.*?)```", text, re.DOTALL)


def started(program: str, server: Server, folder: pathlib.Path) -> subprocess.Popen[str]:
    """Starts a program of the document, with a server's port."""
    words = [sys.executable, "-B", "-c", program.replace("5000", str(server.port))]
    environment = {**os.environ, "PYTHONPATH": str(TOP / "python" / "src")}
    return subprocess.Popen(words, stdout=subprocess.PIPE, stderr=subprocess.PIPE, text=True, cwd=folder, env=environment)


def test_a_bidder_stays_eligible_with_the_least_spending(server: Server, documents: pathlib.Path, room: pathlib.Path) -> None:
    """In round 1 c, with the 20 units that w needs, costs 100. Then z outbids it by 500 on all: c costs 330, and east 220 for as
    many units. In round 3 z has still won: all passes 500 - 320 = 180 down, 90 to c, which then costs 210, and 90 to east, which
    costs 350.
    """
    (program,) = [program for program in programs_of((documents / "CLIENTS.md").read_text(encoding="utf-8")) if ENDLESS in program]
    (room / "examples").symlink_to(TOP / "examples")
    process = started(program, server, room)
    try:
        with hpb.Client(ADDRESS, server.port, timeout=SECONDS) as others:
            wait_for(others, 1)
            others.bid("z", "all", 500)
            others.close()
            assert [others.node(name).minimum for name in ("c", "east")] == [330, 220]
            wait_for(others, 4)
            others.close()
            assert others.node("east").bidder == "w"
            assert [others.node(name).minimum for name in ("c", "east")] == [210, 350]
            wait_for(others, 6)
            others.close()
            assert [others.node(name).bidder for name in ("c", "east", "all")] == ["w", "w", "z"]
            assert others.node("c").high == 210
            assert others.who("w").eligibility == 25
    finally:
        process.kill()
        _, errors = process.communicate()
    assert errors == ""


def wait_for(client: hpb.Client, count: int) -> None:
    """Waits until so many commands are accepted."""
    end = time.monotonic() + SECONDS
    while client.show().count < count:
        assert time.monotonic() < end
        time.sleep(0.1)


def test_each_name_of_the_tables_is_there(documents: pathlib.Path) -> None:
    text = (documents / "CLIENTS.md").read_text(encoding="utf-8")
    kinds: list[type[object]] = [hpb.Client, hpb.AsyncClient]
    for kind in kinds:
        calls = {name for name in vars(kind) if not name.startswith("_")}
        assert calls == set(re.findall(r"^\| `(\w+)\(", text, re.MULTILINE)) & calls
    exceptions = {name for name in hpb.__all__ if isinstance(getattr(hpb, name), type) and issubclass(getattr(hpb, name), hpb.HpbError)}
    assert all(f"`{name}`" in text for name in exceptions)
    words = set(re.findall(r"^\| `(\w+)` \|", text[text.index("## Words of a client") : text.index("## Losses")], re.MULTILINE))
    assert words == set(inspect.signature(hpb.Client).parameters) - {"host", "port"}
