"""`tools/client` with a front over TLS and in clear, and the eight commands of README that let bidders in."""

from __future__ import annotations

import os
import re
import signal
import ssl
import subprocess
import time
from contextlib import ExitStack, suppress
from pathlib import Path

import pytest
from fronts import ADDRESS, SECONDS, Front, listening_socket, make_certificate, rest_of, token_of
from harness.auctions import definition
from harness.conditions import Conditions
from harness.fronts import run_tool, start_tool
from harness.programs import Program
from harness.serving import Client, free_port, wait_until

from hpb.front.tls import Records

TOP = Path(__file__).resolve().parents[1]
EMPTY = "ROUND 1 STAGE 1 OPEN REVENUE 0 COUNT 0"
HALF = "client: the last line has no LF and may be half a line: it isn't sent\n"


@pytest.fixture
def over_tls(front: Front) -> Front:
    """The front with a certificate that clients know, at a port that stays; ann bids for x and z, bob for y."""
    front.context = make_certificate(front.folder)
    front.names = {"desk": "auctioneer", "ann": ["x", "z"], "bob": ["y"]}
    front.write_tokens({name: token_of(name) for name in front.names})
    return front.configure(certificate="S", key="K", listen=f"127.0.0.1:{free_port()}")


def words(front: Front, name: str) -> list[object]:
    """The words of a client for a name over TLS, with a file that has its token alone."""
    token = front.folder / f"token-{name}"
    token.touch(mode=0o600)
    token.write_text(f"{token_of(name)}\n")
    return [f"localhost:{front.port}", "--token", token, "--ca", front.folder / "S"]


def of_client(text: bytes, *more: object) -> tuple[str, str, int]:
    """What a client writes and says, and its status."""
    ran = run_tool("client", *more, text=text, seconds=80)
    return ran.output, ran.errors, ran.status


def test_over_tls_nobody_is_answered_in_clear(over_tls: Front) -> None:
    front = over_tls.configure({"token_seconds": 1, "unknown_connections": 4}).start()
    waiting = [Client(front.port) for _ in range(6)]
    client = front.client("ann")
    assert [client.ask(line) for line in ("BID x 1 a 100", "BID y 1 b 100")] == ["OK 1", "ERR front rights"]
    assert isinstance(client.socket, ssl.SSLSocket) and client.socket.version() in ("TLSv1.2", "TLSv1.3")
    clear = Client(front.port)
    clear.send(f"TOKEN {token_of('ann')}\nBID x 2 b 100\n".encode())
    assert [line for line in rest_of(clear) if "WELCOME" in line or "OK" in line] == []
    front.context, known = ssl.create_default_context(), front.context
    with pytest.raises(ssl.SSLError):
        front.client("ann")
    front.context = known
    assert [rest_of(waiter) for waiter in waiting] == [[]] * len(waiting)
    assert client.ask("SHOW") == "ROUND 1 STAGE 1 OPEN REVENUE 0 COUNT 1"
    assert front.stop().status == 0
    (front.folder / "K").chmod(0o644)
    assert front.run().status == 2


# A context of TLS that lacks all algorithms for its certificate, as after a lack of memory. Python loads this module at its start.
CRIPPLED = """
import ssl
load = ssl.SSLContext.load_cert_chain
def crippled(self, *words, **more):
    load(self, *words, **more)
    self.maximum_version = ssl.TLSVersion.TLSv1_2
    self.set_ciphers("ECDHE-ECDSA-AES128-GCM-SHA256")
ssl.SSLContext.load_cert_chain = crippled
"""


def test_a_front_with_which_no_handshake_can_be_made_says_so(over_tls: Front, room: Path) -> None:
    """At its start, and not only to the clients."""
    (room / "sitecustomize.py").write_text(CRIPPLED)
    ran = over_tls.run(conditions=Conditions(environment={"PYTHONPATH": str(room)}))
    assert (ran.output, ran.status) == ("", 2) and "front: certificate: [SSL: NO_SHARED_CIPHER]" in ran.errors, ran


def test_a_client_of_a_token_file(over_tls: Front) -> None:
    """One that has its token alone, or the file of all with `--name`."""
    front = over_tls.start()
    ann = words(front, "ann")
    assert of_client(b"BID x 1 a 100\nWHO y\n", *ann) == ("OK 1\nERR front rights\n", "", 0)
    several = [ann[0], "--token", front.tokens, *ann[3:]]
    assert of_client(b"BID y 1 b 150\n", *several, "--name", "bob") == ("OK 2\n", "", 0)
    assert of_client(b"a" * 1_000_000 + b"\nBID x 1 a 100\n", *ann) == ("ERR front long\nOK 1\n", "", 0)
    assert of_client(b"BID x 1 a 100\nBID x 2 b 1", *ann) == ("OK 1\n", HALF, 1)
    for more, said in [
        (several, "it has not one token; say --name"),
        ([*several, "--name", "eve"], "there is no token of eve"),
        (ann[:3], "isn't known by its certificate"),
        ([f"127.0.0.1:{front.port}", *ann[1:]], "isn't known by its certificate"),
        ([*ann[:4], front.folder / "nowhere"], "nowhere"),
    ]:
        found = of_client(b"BID x 2 a 110\n", *more)
        assert (found[0], said in found[1], found[2]) == ("", True, 1), found
    (front.folder / "token-ann").chmod(0o640)
    assert "others may read it" in of_client(b"SHOW\n", *ann)[1]
    (front.folder / "token-ann").chmod(0o600)
    (front.folder / "token-ann").write_text(f"{token_of('nobody')}\n")
    assert of_client(b"SHOW\n", *ann) == ("", "client: the token is answered ERR front token\n", 1)


def test_a_client_goes_on(over_tls: Front, cleanup: ExitStack) -> None:
    """After it was silent too long, after another connection took its place, and after a kill of the front; each command is accepted once."""
    front = over_tls.configure({"idle_seconds": 1, "connections": 1}).start()
    ann = words(front, "ann")
    client = cleanup.enter_context(start_tool("client", *ann, input=subprocess.PIPE, errors=subprocess.DEVNULL))
    cleanup.callback(client.kill)
    assert client.stdin and client.stdout

    def ask(line: bytes) -> str:
        assert client.stdin and client.stdout
        client.stdin.write(line)
        client.stdin.flush()
        return client.stdout.readline().decode()

    assert ask(b"BID x 1 a 100\n") == "OK 1\n"
    time.sleep(2.5)
    assert ask(b"SHOW\n") == "ROUND 1 STAGE 1 OPEN REVENUE 0 COUNT 1\n"
    assert of_client(b"SHOW\n", *ann)[0] == "ROUND 1 STAGE 1 OPEN REVENUE 0 COUNT 1\n"
    assert ask(b"BID x 2 nowhere 100\n") == "ERR 12 node\n"
    front.kill()
    front.start()
    assert ask(b"BID z 1 all 500\n") == "OK 2\n"
    client.stdin.close()
    assert client.wait(SECONDS) == 0
    assert front.stop().status == 0
    assert front.accepted() == [("BID x 1 a 100", "OK 1"), ("BID z 1 all 500", "OK 2")]


def test_a_client_whose_token_goes_says_that_its_command_may_count(front: Front, cleanup: ExitStack) -> None:
    """The server has it, and carries it out. Before, its answer seemed to be `ERR front token`, and the client ended with 0."""
    front.start()
    (front.folder / "token-ann").touch(mode=0o600)
    (front.folder / "token-ann").write_text(f"{token_of('ann')}\n")
    where = f"{ADDRESS}:{front.port}"
    client = start_tool("client", where, "--plain", "--token", front.folder / "token-ann", input=subprocess.PIPE)
    cleanup.callback(client.kill)
    assert client.stdin and client.stdout
    client.stdin.write(b"SHOW\n")
    client.stdin.flush()
    assert client.stdout.readline() == b"ROUND 1 STAGE 1 OPEN REVENUE 0 COUNT 0\n"
    (front.folder / "definition").write_bytes(definition())
    known = ["--plain", "--token", front.folder / "token-ann", "--definition", front.folder / "definition"]
    watch = start_tool("watch", "--front", where, *known)
    cleanup.callback(watch.kill)
    assert watch.stdout and watch.stdout.readline() == b"Live.\n"
    server = front.child("serve")
    os.kill(server, signal.SIGSTOP)
    client.stdin.write(b"BID x 1 a 100\n")
    client.stdin.flush()
    wait_until(lambda: b"BID x 1 a 100" in (front.folder / "R.asked").read_bytes(), SECONDS, "a command on its way")
    front.write_tokens({name: token_of(name) if name != "ann" else "another-token-of-ann" for name in front.names})
    front.signal(signal.SIGHUP)
    front.wait_until_said("were read again")
    written, said = client.communicate(timeout=SECONDS)
    assert (written, client.returncode) == (b"", 1)
    assert said == b"client: the token isn't known any more (ERR front token): if the last line is a command, it may be accepted or not\n"
    _, said = watch.communicate(timeout=SECONDS)
    assert (said, watch.returncode) == (b"watch: the token isn't known any more: ERR front token\n", 1)
    os.kill(server, signal.SIGCONT)
    assert front.stop().status == 0
    assert front.accepted() == [("BID x 1 a 100", "OK 1")]


def test_a_client_is_refused_at_once_if_there_is_no_tls(front: Front) -> None:
    make_certificate(front.folder)
    front.start()
    ann = words(front, "ann")
    found = of_client(b"SHOW\n", *ann)
    assert (found[0], "no TLS with localhost" in found[1], found[2]) == ("", True, 1), found
    assert of_client(b"SHOW\n", *ann[:3], "--plain") == (f"{EMPTY}\n", "", 0)


@pytest.mark.parametrize("wrong", ["5000 --plain", "0", "70000", "localhost", "a:b:1", "5000 --token T --ca S --plain", "", "a..b:6000", "a" * 70 + ":6000"])
def test_words_that_are_wrong(wrong: str) -> None:
    assert of_client(b"SHOW\n", *wrong.split())[::2] == ("", 2)


# A clock that goes ten times as fast.
FAST = "import time\nthen = time.monotonic\nbegun = then()\ntime.monotonic = lambda: begun + 10 * (then() - begun)\n"


def test_a_client_gives_up_after_a_minute(room: Path) -> None:
    """By a clock that goes ten times as fast it tries for six seconds."""
    (room / "sitecustomize.py").write_text(FAST)
    ran = run_tool("client", free_port(), text=b"SHOW\n", conditions=Conditions(environment={"PYTHONPATH": str(room)}))
    assert (6 <= ran.seconds < 20, ran.errors.splitlines()[-1].startswith("client: no answer from "), ran.status) == (True, True, 1), ran


def test_a_client_says_that_it_waits(cleanup: ExitStack) -> None:
    """It is silent for two seconds, says once that nobody answers, and goes on trying."""
    port, began = free_port(), time.monotonic()
    client = cleanup.enter_context(start_tool("client", port, input=subprocess.PIPE))
    cleanup.callback(client.kill)
    assert client.stdin and client.stderr
    client.stdin.write(b"SHOW\n")
    client.stdin.flush()
    said = client.stderr.readline().decode()
    assert time.monotonic() - began > 2
    assert said.startswith(f"client: no answer yet from 127.0.0.1, port {port}: ") and client.poll() is None
    client.kill()
    assert client.communicate(timeout=SECONDS) == (b"", b"")


def test_a_client_sends_again_what_is_answered_by_95(cleanup: ExitStack) -> None:
    """On a new connection, and says nothing of it."""
    with Listening() as listening:
        client = cleanup.enter_context(start_tool("client", listening.port, input=subprocess.PIPE))
        cleanup.callback(client.kill)
        assert client.stdin
        client.stdin.write(b"BID x 1 a 100\n")
        client.stdin.close()
        client.stdin = None
        assert [listening.answer(answer) for answer in (b"ERR 95 order\n", b"OK 1\n")] == [b"BID x 1 a 100\n"] * 2
        assert (client.communicate(timeout=SECONDS)[0], client.returncode) == (b"OK 1\n", 0)


class Listening:
    """What stands in the place of a server."""

    def __init__(self) -> None:
        self.listener = listening_socket()
        self.listener.settimeout(SECONDS)
        self.port: int = self.listener.getsockname()[1]

    def answer(self, answer: bytes) -> bytes:
        """The line that the next connection sends; it is answered so, and the connection ends."""
        with self.listener.accept()[0] as taken, taken.makefile("rb") as lines:
            line = lines.readline()
            taken.sendall(answer)
            return line

    def __enter__(self) -> Listening:
        return self

    def __exit__(self, *_: object) -> None:
        self.listener.close()


def test_the_eight_commands_of_the_readme(program: Program, room: Path) -> None:
    """From a definition to a report, word for word, but for the ports."""
    text = (TOP / "README.md").read_text().split("## Eight commands let bidders in")[1].split("\n## ")[0]
    lines = [line[4:] for line in text.splitlines() if line.startswith("    ")]
    assert len(" \n".join(lines).replace("\\ \n", "").splitlines()) == 8
    ports = {"6000": str(free_port()), "8443": str(free_port())}
    assert len(set(ports.values())) == 2 and all(port in text for port in ports)
    for name in ("tools", "examples"):
        (room / name).symlink_to(TOP / name)
    script = re.sub("|".join(ports), lambda found: ports[found[0]], "\n".join(lines))
    environment = {**os.environ, "PATH": f"{program.path.parent}:{os.environ['PATH']}"}
    ran = subprocess.run(["bash", "-c", script], capture_output=True, text=True, timeout=110, cwd=room, env=environment)
    told = [line.split(" RECORD")[0] for line in ran.stdout.splitlines() if line.startswith(("OK", "ERR", "STOPPED"))]
    assert (told, ran.returncode) == (["OK 1", "OK 2", "STOPPED 2"], 0), ran.stderr
    assert "<title>Auction, round 1, open</title>" in (room / "report.html").read_text()


def typed(front: Front, cleanup: ExitStack) -> subprocess.Popen[bytes]:
    """A client by hand, over TLS 1.3, once its handshake is done. A line `k` changes its keys, and any other is sent."""
    words = ["openssl", "s_client", "-connect", f"localhost:{front.port}", "-CAfile", str(front.folder / "S"), "-tls1_3"]
    client = subprocess.Popen(words, stdin=subprocess.PIPE, stdout=subprocess.PIPE, stderr=subprocess.DEVNULL)
    cleanup.callback(client.communicate)
    cleanup.callback(client.kill)
    assert client.stdout
    while not client.stdout.readline().startswith(b"Verify return code: 0"):
        pass
    return client


def type_in(client: subprocess.Popen[bytes], line: bytes) -> None:
    """It looks only at the first letter of all that has come."""
    assert client.stdin
    client.stdin.write(line)
    client.stdin.flush()
    time.sleep(0.05)


def test_a_stranger_that_only_changes_keys_is_ended(over_tls: Front, cleanup: ExitStack) -> None:
    """Each change costs the front as much as a line, and no limit of lines counts it. Before, one stranger could take all of its time."""
    front = over_tls.start()
    stranger, bidder = typed(front, cleanup), typed(front, cleanup)
    for _ in range(20):
        type_in(bidder, b"k\n")
    type_in(bidder, f"TOKEN {token_of('ann')}\n".encode())
    type_in(bidder, b"BID x 1 a 100\n")
    assert bidder.stdout
    while (line := bidder.stdout.readline()) != b"OK 1\n":
        assert line
    for _ in range(40):
        with suppress(BrokenPipeError):
            type_in(stranger, b"k\n")
    assert stranger.wait(SECONDS) is not None
    wait_until(lambda: bool(front.log_lines("ended")), SECONDS, "the end of a stranger")
    assert [line["why"] for line in front.log_lines("ended")] == ["TLS: too many records with nothing to read"]
    assert front.client("ann").ask("BID x 1 a 100") == "OK 1"


def test_a_client_may_send_each_byte_in_a_record_of_its_own(over_tls: Front) -> None:
    front = over_tls.start()
    client = front.client("ann")
    for byte in b"BID x 1 a 100\nWHO x\nSHOW\n":
        client.socket.sendall(bytes([byte]))
    assert [client.line() for _ in range(3)] == ["OK 1", "WHO x ELIGIBILITY 10 ACTIVITY 10 TICKET 1", "ROUND 1 STAGE 1 OPEN REVENUE 0 COUNT 1"]


@pytest.mark.parametrize("pieces", [1, 2, 3, 7, 4_096])
def test_records_are_counted_in_any_pieces(pieces: int) -> None:
    """By hand: records of 0, 1, 300 and 16,640 bytes behind their headers, and half a header."""
    data = b"".join(b"\x17\x03\x03" + length.to_bytes(2, "big") + bytes(length) for length in (0, 1, 300, 16_640, 0)) + b"\x17\x03\x03"
    records = Records()
    assert sum(records.count(data[at : at + pieces]) for at in range(0, len(data), pieces)) == 5
    assert records.count(b"\0\1") == 0 and records.count(b"x") == 1
