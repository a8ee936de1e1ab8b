"""The tools' standard streams: closed, full, set not to block, or leading into a file that a tool reads. Nothing is lost, and no file is written."""

from __future__ import annotations

import os
import socket
import subprocess
import time
from collections.abc import Iterator, Sequence
from contextlib import suppress
from pathlib import Path

import pytest
from fronts import Front
from harness.fronts import tool_words, with_package
from harness.programs import Program
from harness.serving import Serve

from hpb.streams import lines_of

SECONDS = 60
ENVIRONMENT = with_package(os.environ)


def ran(redirection: str, words: Sequence[object], text: bytes = b"") -> subprocess.CompletedProcess[bytes]:
    """A command with this redirection of a shell; its standard input has the text, if it isn't redirected."""
    command = f'exec "$@" {redirection}'
    name, *rest = map(str, words)
    return subprocess.run(
        ["sh", "-c", command, "sh", *tool_words(name), *rest], input=text, capture_output=True, env=ENVIRONMENT, timeout=SECONDS
    )


@pytest.fixture
def recorded(front: Front) -> Front:
    """A front that has ended, whose record has a bid."""
    front.start()
    assert front.client("ann").ask("BID x 1 a 100") == "OK 1"
    assert front.stop().status == 0
    return front


def contents(folder: Path) -> dict[str, bytes]:
    return {found.name: found.read_bytes() for found in folder.iterdir() if found.is_file()}


@pytest.mark.parametrize(
    "line",
    [
        "report F --program nothing 2>>F",
        "definition F 2>>F >&2",
        "definition F 1<>F",
        "report F --nothing 2>>F",
        "replay F 2>>F",
        "replay R >>R",
        "replay R 2>>R --file R",
        "replay R 2>>R.asked --file R",
        "replay R >>R.asked",
        "replay R --file=F >>F",
        "watch --port 4 --definition F --once 2>>F",
        "client 4 --token F 2>>F",
        "explain F 2>>F",
        "verify F 2>>F",
    ],
)
def test_no_tool_writes_into_a_file_that_it_is_given(line: str, recorded: Front, program: Program) -> None:
    """Whatever it has to say of it, or of its words."""
    before = contents(recorded.folder)
    words = line.replace("--program nothing", f"--program {program.path}").split()
    shell = " ".join([*tool_words(words[0]), *words[1:]])
    ended = subprocess.run(["sh", "-c", f"cd {recorded.folder} && {shell}"], input=b"SHOW\n", capture_output=True, env=ENVIRONMENT, timeout=SECONDS)
    assert ended.returncode in (0, 1, 2), ended
    assert contents(recorded.folder) == before


@pytest.mark.parametrize("name", ["R", "R.asked", "R.log", "F", "C", "T"])
def test_a_picture_takes_no_files_place(name: str, recorded: Front, program: Program) -> None:
    before = contents(recorded.folder)
    words = ["replay", recorded.record, "--program", program.path, "--svg", recorded.folder / name]
    ended = ran("", words)
    assert (ended.returncode, ended.stdout) == (1, b"")
    assert ended.stderr.decode() == f"replay: {recorded.folder / name} is there, and is no picture: name another file by --svg\n"
    assert contents(recorded.folder) == before


def test_a_picture_takes_the_place_of_a_picture(recorded: Front, program: Program) -> None:
    words = ["replay", recorded.record, "--program", program.path, "--svg", recorded.folder / "rounds.svg"]
    assert ran("", words).returncode == 0
    drawn = (recorded.folder / "rounds.svg").read_bytes()
    (recorded.folder / "rounds.svg").write_bytes(drawn + b"more")
    assert ran("", words).returncode == 0
    assert (recorded.folder / "rounds.svg").read_bytes() == drawn


@pytest.mark.parametrize("words", [["definition", "none"], ["report", "none"], ["replay", "none"], ["explain", "none"], ["verify", "none"]])
def test_what_is_said_comes_on_no_other_stream(words: list[str]) -> None:
    ended = ran("2>&-", words)
    assert (ended.stdout, ended.returncode in (1, 2)) == (b"", True)


@pytest.mark.parametrize("stream", ["<&-", "2>&-", "<&- 2>&-"])
def test_a_closed_stream_makes_no_tool_refuse_a_file(stream: str, file: Path, program: Program) -> None:
    """Nothing that is opened gets the stream's number."""
    for words in (["definition", file], ["report", file, "--program", program.path]):
        ended, whole = ran(stream, words), ran("", words)
        assert (ended.returncode, ended.stdout, ended.stderr) == (0, whole.stdout, b"")


def test_a_closed_input_is_an_empty_one(file: Path) -> None:
    definition = file.with_name("definition.json")
    definition.write_bytes(ran("", ["definition", file]).stdout)
    assert ran("<&-", ["verify", definition]).stderr == b"verify: no answer to SHOW\n"
    assert ran("<&-", ["client", 4]).returncode == 0


@pytest.mark.parametrize("unbuffered", ["", "1"])
@pytest.mark.parametrize("redirection", [">/dev/full", ">&-"])
@pytest.mark.parametrize("tool", ["replay", "explain"])
def test_an_output_that_takes_nothing_is_told(
    tool: str, redirection: str, unbuffered: str, recorded: Front, program: Program, monkeypatch: pytest.MonkeyPatch
) -> None:
    definition = recorded.folder / "definition.json"
    text = ran("", ["definition", recorded.file]).stdout.replace(b'"stages":[80,95]', b'"stages":[95,80]')
    definition.write_bytes(text)
    words = {"replay": ["replay", recorded.record, "--program", program.path], "explain": ["explain", definition]}
    monkeypatch.setitem(ENVIRONMENT, "PYTHONUNBUFFERED", unbuffered)
    ended = ran(redirection, words[tool])
    assert ended.returncode == 1 and ended.stderr.startswith(f"{tool}: standard output can't be written: ".encode()), ended


@pytest.fixture
def listener() -> Iterator[socket.socket]:
    """A socket at which a client is answered."""
    with socket.create_server(("127.0.0.1", 0)) as made:
        made.settimeout(SECONDS)
        yield made


def client_of(listener: socket.socket, **streams: int) -> subprocess.Popen[bytes]:
    words = [*tool_words("client"), str(listener.getsockname()[1])]
    return subprocess.Popen(words, stdout=subprocess.PIPE, env=ENVIRONMENT, **streams)  # type: ignore[call-overload,no-any-return]


def test_client_waits_for_an_input_that_never_waits(listener: socket.socket) -> None:
    """A pipe that is set not to block, and lines that come late and in parts."""
    read, write = os.pipe()
    os.set_blocking(read, False)
    with client_of(listener, stdin=read, stderr=subprocess.PIPE) as client:
        os.close(read)
        for part in (b"SH", b"OW\nWHO", b" x\n"):
            time.sleep(0.5)
            os.write(write, part)
        os.close(write)
        with listener.accept()[0] as taken:
            taken.settimeout(SECONDS)
            for line, answer in ((b"SHOW\n", b"OK 1\n"), (b"WHO x\n", b"OK 2\n")):
                assert taken.recv(100) == line
                taken.sendall(answer)
            assert client.communicate(timeout=SECONDS) == (b"OK 1\nOK 2\n", b"")
    assert client.returncode == 0


@pytest.mark.parametrize("errors", ["2>&-", "2>/dev/full"])
def test_client_says_nothing_among_answers(errors: str, listener: socket.socket) -> None:
    """Standard error takes nothing, and the last line is half a line; another one had to be sent twice, some seconds apart."""
    port = listener.getsockname()[1]
    command = ["sh", "-c", f'exec "$@" {errors}', "sh", *tool_words("client"), str(port)]
    with subprocess.Popen(command, stdin=subprocess.PIPE, stdout=subprocess.PIPE, env=ENVIRONMENT) as client:
        assert client.stdin
        client.stdin.write(b"SHOW\nhalf")
        client.stdin.close()
        client.stdin = None
        end = time.monotonic() + 3.5
        while time.monotonic() < end:
            listener.accept()[0].close()
        with listener.accept()[0] as taken:
            taken.settimeout(SECONDS)
            assert taken.recv(100) == b"SHOW\n"
            taken.sendall(b"OK 1\n")
            assert client.communicate(timeout=SECONDS)[0] == b"OK 1\n"
    assert client.returncode == 1


def test_a_long_line_is_read_in_time(listener: socket.socket) -> None:
    """Eight megabytes without an LF are half a line."""
    client = client_of(listener, stdin=subprocess.PIPE, stderr=subprocess.PIPE)
    began = time.monotonic()
    written, said = client.communicate(b"x" * 8_000_000, timeout=SECONDS)
    assert (written, client.returncode) == (b"", 1) and b"has no LF" in said
    assert time.monotonic() - began < SECONDS / 2


@pytest.mark.parametrize("size", [1, 2, 3, 5, 100])
def test_lines_come_whole_in_whatever_parts(size: int) -> None:
    text = b"BID x 1 a 100\n\nWHO x\n\n\nSHOW\nhalf"
    read, write = os.pipe()
    for at in range(0, len(text), size):
        os.write(write, text[at : at + size])
    os.close(write)
    assert list(lines_of(read)) == [b"BID x 1 a 100\n", b"\n", b"WHO x\n", b"\n", b"\n", b"SHOW\n", b"half"]
    os.close(read)


def test_a_page_goes_on_though_nobody_reads_what_it_says(file: Path, serve: Serve) -> None:
    """More connections than there may be descriptors, which it tells on a standard error that is full."""
    server = serve(file)
    definition = file.with_name("definition.json")
    definition.write_bytes(ran("", ["definition", file]).stdout)
    read, write = os.pipe()
    os.set_blocking(write, False)
    with suppress(BlockingIOError):
        while True:
            os.write(write, b"x" * 65_536)
    os.set_blocking(write, True)
    words = [*tool_words("board"), "--port", str(server.port), "--definition", str(definition), "--listen", "127.0.0.1:0"]
    command = ["sh", "-c", 'ulimit -n 16; exec "$@"', "sh", *words]
    with subprocess.Popen(command, stdout=subprocess.PIPE, stderr=write, env=ENVIRONMENT) as board:
        os.close(write)
        assert board.stdout
        place = ("127.0.0.1", int(board.stdout.readline().decode().strip().rstrip("/").rsplit(":", 1)[1]))
        crowd = [socket.create_connection(place) for _ in range(30)]
        time.sleep(1)
        for one in crowd:
            one.close()
        with socket.create_connection(place, SECONDS) as viewer:
            viewer.sendall(b"GET / HTTP/1.1\r\nHost: localhost\r\n\r\n")
            assert viewer.recv(12) == b"HTTP/1.1 200"
        board.terminate()
    os.close(read)
