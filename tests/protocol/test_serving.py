"""What the page says of sessions: answers, ends, losses, a disk that fails, and lines that are sent ahead."""

from __future__ import annotations

import fcntl
import os
import signal
import subprocess
import tempfile
import time
from contextlib import suppress
from pathlib import Path

import pytest

from harness.auctions import EXAMPLES, Layout
from harness.conditions import Conditions
from harness.full_disks import fill_disk, no_signal
from harness.programs import Program
from harness.serving import ADDRESS, Client, Serve, free_port, read_line
from protocol.page import PAGE, TOP, codes, sentences
from protocol.talking import EMPTY, FULL_DISK, SHOWN, transcript, without_places

MOST_BYTES = 1_000_000_000


def asks(client: Client, text: str) -> None:
    """These lines are sent at once, and answered so."""
    lines, answers = transcript(text)
    client.send(lines.encode())
    assert [client.line() for _ in answers.splitlines()] == answers.splitlines()


@sentences(
    """`hpb serve --file .. All sessions share .. First session | Answer | Second session | Answer .. It writes `LISTENING .. Then `n` is .. N
    connections are .. Any further one .. 0 | all sessions .."""
)
def test_two_sessions_share_one_auction(serve: Serve, file: Path) -> None:
    server = serve(file, sessions=2)
    clients = [server.connect(), server.connect()]
    for row in PAGE.table("First session", "Answer", "Second session", "Answer").rows:
        line, answer = codes(" ".join(row))
        assert clients[not row[0]].ask(line) == answer
    assert clients[0].finish() == [] and server.process.poll() is None
    with suppress(OSError):
        assert server.connect().finish() == []
    assert clients[1].finish() == []
    ran = server.ended()
    assert (ran.output, ran.status, without_places(ran.errors)) == ("CLOSED 2\n", 0, "")
    server = serve(file)
    asks(server.connect(), "STAGE 1 = OK 3")
    assert server.ended().output == "CLOSED 3\n"


@sentences("Any session may .. So one client should ..")
def test_any_session_may_send_any_line(serve: Serve, file: Path) -> None:
    first, second = (server := serve(file, sessions=2)).connect(), server.connect()
    asks(first, "BID x 1 a 100 = OK 1")
    asks(second, "BID y 1 b 150 = OK 2; CLOSE 1 = OK 3; BID x 2 a 110 = OK 4")
    asks(first, "BID x 2 a 120 = 14")


@sentences("Each connection .. No definition stands .. Each line gets one answer, and ..")
@pytest.mark.parametrize("script", sorted(path.stem for path in EXAMPLES.glob("*.txt")))
def test_a_session_answers_as_a_script(program: Program, serve: Serve, room: Path, layout: Layout, script: str) -> None:
    definition, _, lines = (EXAMPLES / f"{script}.txt").read_bytes().partition(b"\n")
    assert program.format(room / "F", layout, text=definition).status == 0
    client = serve(room / "F").connect()
    client.send(lines)
    assert client.finish() == (EXAMPLES / f"{script}.out").read_text().splitlines()


@sentences("A session ends when .. Its accepted commands .. A client that ends .. Each session of .. A session waits .. One that is silent ..")
def test_sessions_end(serve: Serve, file: Path) -> None:
    server = serve(file, sessions=5)
    lost, ended, long, half, last = (server.connect() for _ in range(5))
    asks(lost, "BID x 1 a 100 = OK 1")
    lost.close()
    half.send(b"SHOW\n" * 10 + b"WHO")
    ended.send(b"SHOW\nBID y 1 b 150\nWHO y")
    assert ended.finish() == [SHOWN.format(1)[:-1], "OK 2", "ERR 10 line"]
    asks(long, "BID z 1 all 500 = OK 3")
    part = bytes(1 << 20)
    with suppress(OSError):
        for _ in range(0, MOST_BYTES, len(part)):
            long.send(part)
        assert long.finish() == []
    long.close()
    asks(last, f"SHOW = {SHOWN.format(3)}")
    half.close()
    last.close()
    assert server.ended().output == "CLOSED 3\n"


def take_interrupts() -> None:
    """Ctrl-C ends this process, even if it doesn't end the tests."""
    signal.signal(signal.SIGINT, signal.SIG_DFL)


CLIENTS = {
    """By hand, `nc 127.0.0.1 .. Bash can be ..""": (PAGE.block("exec 3<>") + 'echo "$answer"\n', b""),
    "nc": (f"nc {ADDRESS} 5000", b"BID x 1 a 100\n"),
    """`tools/client` does ..""": (f"cd {TOP}; {PAGE.block('tools/client').replace('lines.txt', '/dev/stdin')}", b"BID x 1 a 100\n"),
}


@pytest.mark.parametrize("quotes", CLIENTS)
def test_a_client_by_hand(serve: Serve, file: Path, quotes: str) -> None:
    script, text = CLIENTS[quotes]
    server = serve(file)
    words = ["bash", "-c", script.replace("5000", str(server.port))]
    client = subprocess.Popen(words, stdin=subprocess.PIPE, stdout=subprocess.PIPE, start_new_session=True, preexec_fn=take_interrupts)
    assert client.stdin is not None
    client.stdin.write(text)
    client.stdin.flush()
    assert read_line(client) == "OK 1"
    if quotes == "nc":
        os.killpg(client.pid, signal.SIGINT)
    client.communicate(timeout=20)
    assert server.ended().output == "CLOSED 1\n"


@sentences("A client that has no .. The command's ticket .. So send no next .. Each reconnection uses ..")
def test_a_client_sends_again_what_has_no_answer(serve: Serve, file: Path) -> None:
    server = serve(file, sessions=2)
    with server.connect() as client:
        client.send(b"BID x 1 a 100\n")
    with server.connect() as client:
        asks(client, f"BID x 1 a 100 = OK 1; SHOW = {SHOWN.format(1)}")
        client.send(b"BID y 1 b 150\n")
        server.kill()
    server = serve(file, sessions=2, port=server.port)
    tool = subprocess.Popen([str(TOP / "tools" / "client"), str(server.port)], stdin=subprocess.PIPE, stdout=subprocess.PIPE)
    assert tool.stdin is not None
    for line, answer in (("BID y 1 b 150", "OK 2"), ("BID z 1 all 500", "OK 3")):
        tool.stdin.write(f"{line}\n".encode())
        tool.stdin.flush()
        assert read_line(tool) == answer
        if answer == "OK 2":
            server.kill()
            server = serve(file, sessions=2, port=server.port)
    tool.communicate(timeout=20)
    asks(server.connect(), "BID x 1 a 100 = OK 1")
    assert (tool.returncode, server.ended().output) == (0, "CLOSED 3\n")


@sentences(
    """You can skip this .. A client that sends ahead .. Of a session, up .. Each line is judged .. A refused command .. Tickets behind .. So each
    later command .. Commands of other .. Number those again .. Sent in this order | Answer .."""
)
def test_lines_that_are_sent_ahead(serve: Serve, file: Path) -> None:
    server = serve(file, sessions=2)
    gaps = "; ".join(f"BID z {ticket} d {ticket}00 = 15" for ticket in range(3, 18))
    asks(server.connect(), f"BID z 1 d 100 = OK 1; BID z 2 d 200 = 24; {gaps}")
    asks(server.connect(), "BID z 2 c 100 = OK 2")


@sentences(
    """After a loss, send .. Then each command .. Of each sender's .. Here a 13 means .. You don't learn .. Of these lines the .. Sent again |
    Answer .."""
)
def test_after_a_loss_all_lines_without_an_answer_are_sent_again(serve: Serve, file: Path, program: Program) -> None:
    rows = PAGE.table("Sent again", "Answer").pairs()
    kept = "".join(f"{line}\n" for line, _ in rows[:2]).encode()
    for wanted in ("OK 1\nOK 2\n", "ERR 13 old\nOK 2\n"):
        assert program.run_lines(file, kept).output == wanted
    server = serve(file)
    asks(server.connect(), "; ".join(f"{line} = {answer}" for line, answer in rows))
    assert server.ended().output == "CLOSED 3\n"


@sentences("A line without an .. Under its ticket .. Under another ticket ..")
def test_a_line_without_an_answer_may_still_be_judged(serve: Serve, file: Path) -> None:
    server = serve(file, sessions=2)
    lines = b"BID z 1 a 100\nBID z 2 b 100\n"
    with server.connect() as client:
        client.send(lines)
    with server.connect() as client:
        client.send(lines)
        assert [client.line(), client.line()][1] == "OK 2"
    assert server.ended().output == "CLOSED 2\n"


@sentences(
    """When a call of the device fails, no .. Commands are answered .. Each command that .. Of each session .. So a client sends that .. The program
    goes .. Standard error has .. No session is answered .. 1 | the file or .. a call of the disk .."""
)
def test_a_disk_that_fails_under_sessions(serve: Serve, file: Path) -> None:
    server = serve(file, sessions=2, conditions=Conditions(folder=file.parent, last=no_signal))
    first, second = server.connect(), server.connect()
    asks(first, "BID x 1 a 100 = OK 1")
    fill_disk(server.process)
    shown = f"SHOW = {SHOWN.format(1)}NODE a = HIGH 0 - PRICE 0 MIN 100 WIN no"
    asks(first, f"CLOSE 1 = 93; {shown}; BID nobody 1 a 100 = 11")
    asks(second, "BID y 1 b 150 = 93; BID x 1 a 100 = 93; WHO x = ELIGIBILITY 10 ACTIVITY 10 TICKET 1")
    first.close()
    (said,) = [codes(row[1])[0] for row in PAGE.table("Event beside sessions", "Its line").rows if row[0] == "a call of the disk failed"]
    server.wait_until_said(said.replace(" of F ", f" of {file} ") + "\n")
    assert server.process.poll() is None
    second.close()
    ran = server.ended()
    assert (ran.output, ran.status) == ("CLOSED 1\n", 1) and FULL_DISK.replace(" F ", f" {file} ") in ran.errors
    server = serve(file)
    asks(server.connect(), "BID x 1 a 100 = OK 1; BID y 1 b 150 = OK 2; CLOSE 1 = OK 3")
    assert server.ended().output == "CLOSED 3\n"


@sentences("If nobody reads standard output, .. It doesn't read ..")
def test_an_output_that_nobody_reads_holds_up_the_start_and_the_end(program: Program, file: Path) -> None:
    (reader, writer), port = os.pipe(), free_port()
    room = os.write(writer, b"x" * fcntl.fcntl(writer, fcntl.F_SETPIPE_SZ, 4096))
    with tempfile.TemporaryFile() as lines:
        lines.write(b"SHOW\n")
        lines.seek(0)
        process = program.start("serve", "--file", file, "--port", port, "--sessions", 1, input=lines, output=writer)
        time.sleep(0.2)
        assert os.lseek(lines.fileno(), 0, os.SEEK_CUR) == 0
    assert process.poll() is None
    os.read(reader, room)
    assert os.read(reader, 4096) == f"LISTENING {port}\n".encode()
    with Client(port) as client:
        asks(client, "BID x 1 a 100 = OK 1")
        os.write(writer, b"x" * room)
    time.sleep(0.2)
    assert process.poll() is None and program.count(file) == 1
    os.read(reader, room)
    assert (os.read(reader, 4096), process.wait(20)) == (b"CLOSED 1\n", 0)


@sentences("If F was served ..")
def test_a_last_line_that_cannot_be_written(serve: Serve, file: Path, program: Program) -> None:
    server = serve(file)
    assert server.process.stdout is not None
    server.process.stdout.close()
    server.connect().close()
    server.process.wait(20)
    goes_on = PAGE.block(". All sessions have").strip().replace(" F ", f" {file} ").replace("--file F", f"--file {file}")
    assert (without_places(server.said()), server.process.returncode) == (f"hpb: 92 stream: writing: Broken pipe (os error 32){goes_on}\n", 1)
    with open("/dev/full", "wb") as full:
        ran = program.run("serve", "--file", file, "--port", server.port, "--sessions", 1, output=full)
    assert (ran.errors, ran.status) == ("hpb: 92 stream: writing: No space left on device (os error 28)\n", 1)


@sentences("Nothing comes unasked .. To see the next .. When `ROUND` is .. Several answers ..")
def test_questions_write_nothing(serve: Serve, file: Path) -> None:
    before = (file.read_bytes(), file.stat().st_mtime_ns)
    server = serve(file)
    with server.connect() as client:
        for _ in range(100):
            asks(client, f"SHOW = {EMPTY}NODE a = HIGH 0 - PRICE 0 MIN 100 WIN no; WHO x = ELIGIBILITY 10 ACTIVITY 0 TICKET 0")
    assert server.ended().output == "CLOSED 0\n"
    assert (file.read_bytes(), file.stat().st_mtime_ns) == before
