"""How a front goes on and ends: with its server or a server of somebody else, beside a file in use, with clocks that jump, unread."""

from __future__ import annotations

import fcntl
import json
import os
import resource
import signal
import socket
import sys
import threading
import time
from collections.abc import Callable
from contextlib import ExitStack
from pathlib import Path

import pytest
from fronts import Caller, Front, rest_of, script
from harness.auctions import definition, text_of
from harness.conditions import Conditions
from harness.fronts import run_tool
from harness.ports import listening
from harness.programs import Program
from harness.serving import ADDRESS, Client, Server, free_port, wait_until

from hpb.record import read_record

PAUSE, SECONDS = 0.3, 60


def test_a_front_that_is_told_to_stop_and_goes_on(front: Front) -> None:
    """It says how its record ends. After a restart it knows the commands that it accepted."""
    front.start()
    client = front.client("ann")
    assert client.ask("BID x 1 a 100") == "OK 1"
    ran = front.stop()
    place = read_record(front.record)[1]
    assert (ran.output, ran.status, rest_of(client)) == (f"STOPPED 1 RECORD {place.number} {place.hash}\n", 0, [])
    front.start()
    assert front.ask("ann", "BID x 1 a 100") == "OK 1"
    front.stop()
    front.file.write_bytes(front.file.read_bytes()[:-4096])
    assert front.run().status == 2


def test_the_end_of_an_auction_ends_its_front(front: Front) -> None:
    """Questions are answered for a while. The line of each close has the hash of that close's entry."""
    front.configure({"after_end_seconds": 1}).start()
    assert front.ask("ann", "BID x 1 a 100") == "OK 1"
    desk = Caller(front, "desk")
    assert [desk.ask(line) for line in ("CLOSE 1", "CLOSE 2 ENDING")] == ["OK 2", "OK 3"]
    assert desk.ask("SHOW") == "ROUND 2 STAGE 1 CLOSED REVENUE 100 COUNT 3"
    ran = front.ended()
    lines = [line.split(" RECORD ") for line in ran.lines()]
    closes = ["ROUND 2 STAGE 1 OPEN REVENUE 100 COUNT 2", "ROUND 2 STAGE 1 CLOSED REVENUE 100 COUNT 3"]
    assert ([line for line, _ in lines], ran.status) == ([*closes, "STOPPED 3"], 0)
    assert "the auction is over" in ran.errors
    entries = front.record.read_text().splitlines()
    told = [place.split() for _, place in lines[:2]]
    assert [entries[int(number) - 1][:64] for number, _ in told] == [digest for _, digest in told]
    assert [json.loads(entries[int(number) - 1][65:])["line"] for number, _ in told] == ["CLOSE 1", "CLOSE 2"]


@pytest.mark.parametrize("by", ["SIGTERM", "Ctrl-C"])
def test_what_was_taken_is_answered_before_the_end(front: Front, by: str) -> None:
    """Ctrl-C at its terminal reaches the server, too."""
    front.start(conditions=Conditions(last=os.setsid))
    assert front.process
    client, other, server = front.client("bob"), front.client("ann"), front.child("serve")
    os.kill(server, signal.SIGSTOP)
    client.send(b"BID z 1 a 200\n")
    time.sleep(PAUSE)
    if by == "SIGTERM":
        front.signal(signal.SIGTERM)
    else:
        os.killpg(front.process.pid, signal.SIGINT)
    assert rest_of(other) == []
    os.kill(server, signal.SIGCONT)
    assert rest_of(client) == ["OK 1"]
    ran = front.ended()
    assert (ran.output.split(" RECORD")[0], "gone" in ran.errors, ran.status) == ("STOPPED 1", False, 0)
    assert front.entries("stopped")[-1]["count"] == 1


# Files and servers.


def test_a_file_in_use_is_waited_for(front: Front) -> None:
    with front.file.open("rb") as held:
        fcntl.flock(held, fcntl.LOCK_EX)
        front.begin()
        front.wait_until_said("tried again")
        fcntl.flock(held, fcntl.LOCK_UN)
        front.listens()
        assert front.ask("ann", "BID x 1 a 100") == "OK 1"


def test_a_file_that_stays_in_use_isnt_waited_for_for_ever(front: Front) -> None:
    with front.file.open("rb") as held:
        fcntl.flock(held, fcntl.LOCK_EX)
        ran = front.run()
    said = "front: the server doesn't come up: ERR 91 device"
    assert [line for line in ran.errors.splitlines() if line.startswith("front: ")] == [f"{said}; it is tried again", said]
    assert (ran.output, ran.status) == ("", 1)


def test_an_older_copy_that_comes_meanwhile_ends_the_front(front: Front) -> None:
    """Nobody is answered by it."""
    front.start()
    older = front.file.read_bytes()
    assert [front.ask("ann", "BID x 1 a 100"), front.ask("bob", "BID z 1 all 500")] == ["OK 1", "OK 2"]
    server = front.child("serve")
    os.kill(server, signal.SIGSTOP)
    front.file.write_bytes(older)
    os.kill(server, signal.SIGKILL)
    ran = front.ended(SECONDS)
    told = "the file has lost commands: 2 were accepted, and it shows"
    assert ("STOPPED" in ran.output, told in ran.errors, ran.status) == (False, True, 1), ran


@pytest.mark.parametrize(
    ("lines", "rules", "word"),
    [
        (["BID z 1 all 500", "BID w 1 c 100"], definition(), "it has 0 commands of x, and {} has 1"),
        (["BID x 1 a 100", "CLOSE 1"], definition(), "it has 1 commands of the auctioneer, and {} has 0"),
        (["BID x 1 a 100", "BID z 1 all 500"], definition().replace(b'"d"', b'"e"'), "no answer to NODE d"),
    ],
    ids=["another bidder's", "a close", "another node"],
)
def test_another_auction_with_as_many_commands_that_comes_meanwhile_ends_the_front(
    front: Front, lines: list[str], rules: bytes, word: str
) -> None:
    """The files are swapped while the server is down. The other file answers nobody; with the right one the front goes on."""
    other = front.program.keep(front.folder / "other", lines, rules)
    front.start()
    assert [front.ask("ann", "BID x 1 a 100"), front.ask("bob", "BID z 1 all 500")] == ["OK 1", "OK 2"]
    server = front.child("serve")
    os.kill(server, signal.SIGSTOP)
    own = front.folder / "own"
    front.file.rename(own)
    other.rename(front.file)
    os.kill(server, signal.SIGKILL)
    ran = front.ended(SECONDS)
    told = f"the file is that of another auction than {front.record.name}: {word.format(front.record.name)}"
    assert ("STOPPED" in ran.output, told in ran.errors, ran.status) == (False, True, 1), ran
    own.rename(front.file)
    front.start()
    assert front.ask("ann", "BID x 1 a 100") == "OK 1"


@pytest.mark.parametrize(
    ("old", "new", "lines", "word"),
    [
        (b'"d"', b'"e"', [], "no answer to NODE d"),
        (b'"name":"x"', b'"name":"q"', [], "'x'"),
        (b'"step":10', b'"step":20', ["BID z 1 all 480", "CLOSE 1"], "the minimum of"),
    ],
    ids=["another node", "another bidder", "another step"],
)
def test_a_server_of_another_auction_lets_nobody_in(front: Front, old: bytes, new: bytes, lines: list[str], word: str) -> None:
    other = front.program.keep(front.folder / "other", lines, definition().replace(old, new))
    with Server(front.program, other, 8) as server:
        ran = front.configure(port=server.port, shared_network=True).run()
    assert (ran.output, "another auction than the file" in ran.errors, word in ran.errors, ran.status) == ("", True, True, 1), ran


def test_what_is_no_auction_at_the_port_is_named(front: Front) -> None:
    port = free_port()
    front.configure(port=port, shared_network=True)
    answer = "socket.create_server((sys.argv[1], int(sys.argv[2]))).accept()[0].sendall(b'HTTP/1.1 400 Bad Request\\n'); time.sleep(100)"
    words = [sys.executable, "-c", f"import socket, sys, time; {answer}", ADDRESS, str(port)]
    process = os.posix_spawn(words[0], words, os.environ)
    try:
        wait_until(lambda: port in listening(), SECONDS, "somebody listens")
        ran = front.run()
    finally:
        os.kill(process, signal.SIGKILL)
        os.waitpid(process, 0)
    assert (ran.output, "HTTP/1.1 400" in ran.errors, ran.status) == ("", True, 1), ran


def test_a_server_that_somebody_starts_again(front: Front) -> None:
    """A client waits meanwhile. What a stranger told the server is noted."""
    with Server(front.program, front.file, 8) as server:
        front.configure(port=server.port, shared_network=True).start()
        caller = Caller(front, "ann")
        assert caller.ask("BID x 1 a 100") == "OK 1"
    asked: list[str] = []
    thread = threading.Thread(target=lambda: asked.append(caller.ask("BID x 2 a 110")), daemon=True)
    thread.start()
    time.sleep(PAUSE)
    assert asked == []
    with Server(front.program, front.file, 8, server.port):
        thread.join(SECONDS)
        assert (asked, caller.connections) == (["ERR 24 again"], 1)
        with Client(server.port) as stranger:
            assert stranger.ask("BID y 1 b 150") == "OK 2"
        assert front.ask("bob", "BID z 1 all 500") == "OK 3"
        assert [(entry["from"], entry["to"]) for entry in front.entries("foreign")] == [(2, 2)]
        front.stop()


# What stands in the place of a server: it answers questions as one does before the first command. Any other line it notes in the file
# `told`, with whether it stands beside the record by then, and answers by what the file `answer-BID-x-1` has, once that is there.
STAND_IN = """#!{python}
import pathlib, socket, sys, threading, time
answers, folder, lock = {answers}, pathlib.Path({folder!r}), threading.Lock()
def answered(line):
    with lock, open(folder / "told", "a") as told:
        print(line.strip() in (folder / "R.asked").read_bytes(), line.decode().strip(), file=told)
    path = folder / "-".join(["answer", *line.decode().split()[:3]])
    while not path.exists():
        time.sleep(0.01)
    return path.read_bytes()
def serve(taken):
    for line in taken.makefile("rb"):
        taken.sendall(answers.get(line) or answered(line))
words = dict(zip(sys.argv[2::2], sys.argv[3::2]))
listener = socket.create_server(("127.0.0.1", int(words["--port"])))
print("LISTENING", words["--port"], flush=True)
while True:
    threading.Thread(target=serve, args=(listener.accept()[0],), daemon=True).start()
"""

Answers = Callable[[str, str], None]


@pytest.fixture
def answers(front: Front, program: Program) -> Answers:
    """The front has such a server: `answers("BID x 1", "OK 1")` lets it answer."""
    fields = json.loads(definition())
    names = [("NODE", node["name"]) for node in fields["nodes"]] + [("WHO", bidder["name"]) for bidder in fields["bidders"]]
    # A front asks for the bidder by which a mock is known, too.
    names.append(("WHO", "mock_auction"))
    questions = ["SHOW", *(f"{word} {name}" for word, name in names)]
    shown = program.run(text=definition() + text_of(questions)).lines()
    known = {f"{question}\n".encode(): f"{answer}\n".encode() for question, answer in zip(questions, shown, strict=True)}
    path = front.folder / "stand-in"
    path.write_text(STAND_IN.format(python=sys.executable, answers=known, folder=str(front.folder)))
    path.chmod(0o755)
    front.configure(program="./stand-in")

    def answers_so(line: str, answer: str) -> None:
        (front.folder / "new").write_text(f"{answer}\n")
        (front.folder / "new").rename(front.folder / "-".join(["answer", *line.split()]))

    return answers_so


def test_nobody_is_answered_by_93(front: Front, answers: Answers) -> None:
    """The front ends, and what the file has of it is found when it is started again."""
    answers("BID x 1", "ERR 93 failed")
    front.start()
    client = front.client("ann")
    client.send(b"BID x 1 a 100\n")
    assert rest_of(client) == []
    ran = front.ended()
    assert ("STOPPED" in ran.output, "the disk of the file failed" in ran.errors, ran.status) == (False, True, 1)
    front.configure(program=str(front.program.path)).start()
    assert front.ask("ann", "BID x 1 a 100") == "OK 1"
    front.stop()
    assert [entry["line"] for entry in front.entries("lapsed")] == ["BID x 1 a 100"]


def test_nobody_is_answered_by_95(front: Front, answers: Answers) -> None:
    """The server is started again, and the line is sent again."""
    answers("BID x 1", "ERR 95 order")
    here = front.folder
    script(here / "once", f'[ -e {here}/begun ] && exec {front.program.path} "$@"\ntouch {here}/begun\nexec {here}/stand-in "$@"')
    front.configure(program="./once").start()
    caller = Caller(front, "ann")
    assert (caller.ask("BID x 1 a 100"), caller.connections) == ("OK 1", 1)
    assert "the server is gone" in front.stop().errors


def told(front: Front) -> list[str]:
    """The lines that reached the server, each behind whether it stood beside the record by then."""
    path = front.folder / "told"
    return sorted(path.read_text().splitlines()) if path.exists() else []


def has_nothing(client: Client) -> bool:
    """Whether nothing has come to a client after a pause."""
    client.socket.settimeout(PAUSE)
    try:
        line = client.line()
    except TimeoutError:
        return True
    finally:
        client.socket.settimeout(SECONDS)
    raise AssertionError(line)


def test_answers_leave_in_the_order_of_their_numbers(front: Front, answers: Answers) -> None:
    """No command reaches the server before it stands beside the record. While numbers are missing, later answers wait for all lines that
    may have them; a number that none has is foreign. Places beside the record are used again."""
    front.configure(shared_network=True).start()
    ann, bob, carl = (front.client(name) for name in ("ann", "bob", "carl"))
    ann.send(b"BID x 1 a 100\n")
    bob.send(b"BID y 1 b 150\n")
    wait_until(lambda: told(front) == ["True BID x 1 a 100", "True BID y 1 b 150"], SECONDS, f"both are told: {told(front)}")
    answers("BID y 1", "OK 2")
    assert has_nothing(bob) and front.accepted() == []
    answers("BID x 1", "OK 1")
    assert (ann.line(), bob.line()) == ("OK 1", "OK 2")
    both = [("BID x 1 a 100", "OK 1"), ("BID y 1 b 150", "OK 2")]
    assert front.accepted() == both
    answers("BID z 1", "OK 4")
    carl.send(b"BID w 1 c 100\n")
    bob.send(b"BID z 1 a 200\n")
    assert ann.ask("BID x 1 a 100") == "OK 1"
    assert has_nothing(bob) and has_nothing(carl)
    answers("BID w 1", "ERR 22 low")
    assert (carl.line(), bob.line()) == ("ERR 22 low", "OK 4")
    assert front.accepted() == [*both, ("BID z 1 a 200", "OK 4")]
    assert [(entry["from"], entry["to"]) for entry in front.entries("foreign")] == [(3, 3)]
    wait_until(lambda: len(front.log_lines("answered")) == 2, SECONDS, "what changed nothing is in the log")
    assert [line["answer"] for line in front.log_lines("answered")] == ["OK 1", "ERR 22 low"]
    assert [client.ask(line) for client, line in ((ann, "BID x 1 a 100"), (carl, "BID w 1 c 100"))] == ["OK 1", "ERR 22 low"]
    assert (front.folder / "R.asked").stat().st_size <= 1_024 * (1 + 3)


# Clocks and streams.

# Python reads this before a program: clocks that jump by a day, back and forth, each time that they are read.
JUMPING = """
import itertools, time
days, then = itertools.cycle([0, -86_400, 0, 86_400]), time.time_ns
time.time_ns = lambda: then() + next(days) * 10**9
time.time = lambda: time.time_ns() / 10**9
"""


def test_a_clock_that_jumps_changes_times_alone(front: Front, room: Path) -> None:
    before = room / "before"
    before.mkdir()
    (before / "sitecustomize.py").write_text(JUMPING)
    jumping = Conditions(environment={"PYTHONPATH": str(before)})
    front.configure({"token_seconds": 5, "idle_seconds": 5}).start(conditions=jumping)
    client = front.client("ann")
    one_bid = "ROUND 1 STAGE 1 OPEN REVENUE 0 COUNT 1"
    assert [client.ask(line) for line in ("BID x 1 a 100", "SHOW", "BID x 1 a 100")] == ["OK 1", one_bid, "OK 1"]
    time.sleep(1)
    assert client.ask("SHOW") == one_bid
    front.kill()
    front.start(conditions=jumping)
    assert front.ask("bob", "BID y 1 b 150") == "OK 2"
    assert front.stop().status == 0
    times = [entry["at"] for entry in read_record(front.record)[0]]
    assert times != sorted(times)
    assert run_tool("replay", front.record, "--file", front.file, "--program", front.program.path).status == 0


def test_standard_output_that_nobody_reads_keeps_nobody_from_bidding(front: Front) -> None:
    front.start()
    assert front.process
    output = os.open(f"/proc/{front.process.pid}/fd/1", os.O_WRONLY | os.O_NONBLOCK)
    try:
        while True:
            os.write(output, b"x" * 65_536)
    except BlockingIOError:
        os.close(output)
    lines = [("ann", "BID x 1 a 100"), ("desk", "CLOSE 1"), ("ann", "BID x 2 a 110"), ("desk", "CLOSE 2")]
    assert [front.ask(name, line) for name, line in lines] == ["OK 1", "OK 2", "OK 3", "OK 4"]
    assert front.stop().status == 0


def test_standard_output_that_nobody_reads_to_the_end_is_told(front: Front) -> None:
    """The lines of two closes and `STOPPED` are missing. Before, the front ended with 0."""
    front.start()
    assert front.process
    output = os.open(f"/proc/{front.process.pid}/fd/1", os.O_WRONLY | os.O_NONBLOCK)
    try:
        while True:
            os.write(output, b"x" * 65_536)
    except BlockingIOError:
        os.close(output)
    lines = [("ann", "BID x 1 a 100"), ("desk", "CLOSE 1"), ("ann", "BID x 2 a 110"), ("desk", "CLOSE 2")]
    assert [front.ask(name, line) for name, line in lines] == ["OK 1", "OK 2", "OK 3", "OK 4"]
    front.signal(signal.SIGTERM)
    assert front.process.wait(SECONDS) == 1
    assert "front: nobody reads standard output: its last 3 lines are missing\n" in front.words_said()
    assert b"STOPPED" not in front.process.communicate()[0]


def test_connections_leave_the_front_the_descriptors_that_it_needs(front: Front, cleanup: ExitStack) -> None:
    """If the system gives fewer than the limits allow, strangers can't take those of server, record and tokens. Before, they ended the front
    together with one kill of the server.
    """
    front.start(conditions=Conditions(limits={resource.RLIMIT_NOFILE: 80}))
    front.wait_until_said("there may be 80 (ulimit -n)")
    caller = Caller(front, "ann")
    assert caller.ask("BID x 1 a 100") == "OK 1"
    for _ in range(100):
        cleanup.enter_context(socket.create_connection((ADDRESS, front.port), SECONDS))
    assert caller.ask("SHOW").endswith(" COUNT 1")
    os.kill(front.child("serve"), signal.SIGKILL)
    assert caller.ask("SHOW").endswith(" COUNT 1")
    front.signal(signal.SIGHUP)
    front.wait_until_said("tokens, certificate and limits were read again")
    assert "can't be taken" not in front.words_said()
    assert front.stop().status == 0
