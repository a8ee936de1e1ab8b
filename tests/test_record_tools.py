"""Tools that reach an auction or warn about a definition: no connection to itself, no control characters, no stage that asks for
too much.
"""

from __future__ import annotations

import json
import os
import pty
import socket
import subprocess
from collections.abc import Iterator
from contextlib import suppress
from pathlib import Path
from typing import Any

import pytest

from hpb.pages import following, reaching

TOOLS = Path(__file__).resolve().parents[1] / "tools"
PORT = 40_001
# In a network of its own, in which the system hands out only this port to connections.
ALONE = f"ip link set lo up && echo '{PORT} {PORT}' > /proc/sys/net/ipv4/ip_local_port_range && exec \"$@\""


def own_end(monkeypatch: pytest.MonkeyPatch, port: int) -> None:
    """Makes each connection begin at this port, as the system may do."""
    dial = socket.create_connection
    monkeypatch.setattr(socket, "create_connection", lambda place, patience: dial(place, patience, ("127.0.0.1", port)))


def free_port() -> int:
    with socket.socket() as probe:
        probe.bind(("127.0.0.1", 0))
        port: int = probe.getsockname()[1]
        return port


def test_a_connection_to_itself_is_refused(monkeypatch: pytest.MonkeyPatch) -> None:
    """For client, page and watch, which make their connections by these two functions."""
    ports = free_port(), free_port()
    with monkeypatch.context() as patch, pytest.raises(ConnectionRefusedError):
        own_end(patch, ports[0])
        reaching.connected(("127.0.0.1", ports[0]), None, None, 5)
    with monkeypatch.context() as patch, pytest.raises(ConnectionRefusedError):
        own_end(patch, ports[1])
        following.at_port(ports[1])(5)


def test_a_connection_to_another_is_taken() -> None:
    with socket.create_server(("127.0.0.1", 0)) as listener:
        reaching.connected(listener.getsockname(), None, None, 5).close()
        following.at_port(listener.getsockname()[1])(5).close()


@pytest.mark.as_root
@pytest.mark.parametrize("tool", ["client", "watch", "board"])
def test_a_tool_alone_in_a_network_isnt_answered_by_itself(tool: str, tmp_path: Path) -> None:
    """Nobody listens at the port, and each connection gets that very port."""
    definition = tmp_path / "definition.json"
    definition.write_text(json.dumps(DEFINITION))
    words = {"client": [str(PORT)], "watch": ["--port", str(PORT), "--definition", str(definition)]}
    words["board"] = [*words["watch"], "--listen", "127.0.0.1:40100"] if tool == "board" else []
    command = ["unshare", "-n", "sh", "-c", ALONE, "sh", "timeout", "3", str(TOOLS / tool), *words[tool]]
    ran = subprocess.run(command, input="SHOW\n", capture_output=True, text=True, timeout=30)
    assert "SHOW" not in ran.stdout and "hpb serve?" not in ran.stderr, ran


DEFINITION = {
    "step": 10,
    "percent": 10,
    "stages": [80, 95],
    "waivers": 3,
    "nodes": [
        {"name": "all", "parent": None},
        {"name": "a", "parent": "all", "units": 10, "opening": 100},
        {"name": "b", "parent": "all", "units": 20, "opening": 100},
    ],
    "bidders": [{"name": "x", "units": 30}, {"name": "y", "units": 37}],
}


def explained(text: str, folder: Path) -> tuple[str, int]:
    path = folder / "definition.json"
    path.write_text(text)
    ran = subprocess.run([TOOLS / "explain", path], capture_output=True, text=True, timeout=30)
    assert not ran.stderr
    return ran.stdout, ran.returncode


def test_a_stage_that_asks_for_more_than_all_licences_have_is_warned_of(tmp_path: Path) -> None:
    """By hand: 80 percent of 37 are 29.6, so 30 of 30 units suffice; 95 percent are 35.15, so 36 are needed. Of 38, 80 percent are 30.4."""
    told = "stage {} asks y for an activity of {} units, and all licences have 30: each close {} its eligibility\n"
    waives = "takes a waiver of it, and without one lowers"
    assert explained(json.dumps(DEFINITION), tmp_path) == (told.format(2, 36, waives), 1)
    bidders = [{"name": "x", "units": 30}, {"name": "y", "units": 38}]
    assert explained(json.dumps({**DEFINITION, "bidders": bidders}), tmp_path) == (told.format(1, 31, waives), 1)
    assert explained(json.dumps({**DEFINITION, "waivers": 0}), tmp_path) == (told.format(2, 36, "lowers"), 1)
    assert explained(json.dumps({**DEFINITION, "stages": [80]}), tmp_path) == ("", 0)


def test_control_characters_of_a_definition_are_escaped(tmp_path: Path) -> None:
    """A name may move a terminal's cursor, set its title or end a line."""
    bidders = [{"name": "\x1b[2J\r\x9b1A\u202e\u00e9", "units": 1}]
    written, status = explained(json.dumps({**DEFINITION, "bidders": bidders}), tmp_path)
    assert status == 1 and r"\x1b[2J\r\x9b1A\u202e\xe9 has 1 units" in written
    assert all(" " <= one <= "~" or one == "\n" for one in written)


def test_client_escapes_what_a_server_says(tmp_path: Path) -> None:
    """An answer that isn't a welcome is shown in a way that is safe for a terminal."""
    token = tmp_path / "T"
    token.touch(mode=0o600)
    token.write_text("a-token-of-a-trial-0\n")
    with socket.create_server(("127.0.0.1", 0)) as listener:
        words = [str(TOOLS / "client"), f"127.0.0.1:{listener.getsockname()[1]}", "--token", str(token), "--plain"]
        with subprocess.Popen(words, stdin=subprocess.PIPE, stderr=subprocess.PIPE, text=True) as client:
            assert client.stdin and client.stderr
            client.stdin.write("SHOW\n")
            client.stdin.close()
            taken = listener.accept()[0]
            taken.recv(100)
            taken.sendall(b"\x1b[2Jno\n")
            assert client.stderr.read() == r"client: the token is answered \x1b[2Jno" + "\n"
            taken.close()


@pytest.fixture
def listener() -> Iterator[socket.socket]:
    """A stranger's auction."""
    with socket.create_server(("127.0.0.1", 0)) as made:
        yield made


def client_at(listener: socket.socket, output: int, **more: Any) -> subprocess.Popen[bytes]:
    """A client that asks it once."""
    words = [str(TOOLS / "client"), str(listener.getsockname()[1])]
    client = subprocess.Popen(words, stdin=subprocess.PIPE, stdout=output, stderr=subprocess.PIPE, **more)
    assert client.stdin
    client.stdin.write(b"SHOW\n")
    client.stdin.close()
    client.stdin = None
    return client


@pytest.mark.parametrize(
    ("answer", "is_taken"),
    [(b"x" * 104 + b"\n", True), (b"x" * 105 + b"\n", False), (b"x" * 1_000_000, False)],
    ids=["longest", "longer", "endless"],
)
def test_client_reads_no_longer_answer_than_there_is(answer: bytes, is_taken: bool, listener: socket.socket) -> None:
    """By docs/PROTOCOL.md the longest answer has 104 bytes without its LF. The connection stays open, and the line isn't ended."""
    client = client_at(listener, subprocess.PIPE)
    with listener.accept()[0] as taken:
        taken.settimeout(20)
        assert taken.recv(100) == b"SHOW\n"
        with suppress(OSError):
            taken.sendall(answer)
        written, said = client.communicate(timeout=20)
    port = listener.getsockname()[1]
    told = f"client: no auction answers at 127.0.0.1, port {port}: the answer has more than 104 bytes\n"
    assert (written, said.decode(), client.returncode) == ((answer, "", 0) if is_taken else (b"", told, 1))


def test_client_escapes_answers_for_a_terminal_alone(listener: socket.socket) -> None:
    """A title, a cleared screen, and a byte that some terminals take for the beginning of a sequence."""
    answer = b"OK \x1b]0;title\x07\x1b[2J\r\x9b1A\n"
    mine, its = pty.openpty()
    for output in (its, subprocess.PIPE):
        client = client_at(listener, output)
        with listener.accept()[0] as taken:
            taken.recv(100)
            taken.sendall(answer)
            written, _ = client.communicate(timeout=20)
        shown = os.read(mine, 1_000) if output == its else written
        assert shown == (rb"OK \x1b]0;title\x07\x1b[2J\r\x9b1A" + b"\r\n" if output == its else answer)
    os.close(mine)
    os.close(its)


def test_client_says_that_its_output_fails(listener: socket.socket) -> None:
    with open("/dev/full", "wb") as full:
        client = client_at(listener, full.fileno())
        with listener.accept()[0] as taken:
            taken.recv(100)
            taken.sendall(b"OK 1\n")
            assert client.communicate(timeout=20)[1] == b"client: [Errno 28] No space left on device\n"
    assert client.returncode == 1


def test_client_sends_no_answer_to_the_server(listener: socket.socket) -> None:
    """If standard output is closed, a connection would get its number."""
    client = client_at(listener, subprocess.DEVNULL, preexec_fn=lambda: os.close(1))
    with listener.accept()[0] as taken:
        taken.settimeout(20)
        assert taken.recv(100) == b"SHOW\n"
        taken.sendall(b"OK 1\n")
        assert client.communicate(timeout=20)[1] == b"client: [Errno 9] Bad file descriptor\n"
        assert taken.recv(100) == b""
    assert client.returncode == 1
