"""Both clients through a front, over TLS: rights, tokens, and kills of the front with its server."""
import asyncio
import fcntl
import os
import pathlib
import shutil
import signal
import subprocess
import threading
import time
from collections.abc import Callable, Iterator

import pytest

from hpb import Accepted, AsyncClient, Bid, Client, FrontRefused, NotWelcome, Outcome, Unanswered, read_token
from hpb.file import read_auction
from serving import SECONDS, Program, free_port

TOP = pathlib.Path(__file__).resolve().parents[2]
CONFIGURATION = """file = "auction.hpb"
record = "auction.record"
tokens = "auction.tokens"
listen = "127.0.0.1:{port}"
certificate = "front.pem"
key = "front.key"
program = "{program}"

[names]
desk = "auctioneer"
ann = ["x"]
bob = ["y", "z", "w"]

[limits]
lines_per_second = 1000
"""


class Front:
    """`tools/front` in a folder. A kill takes its server with it."""

    def __init__(self, folder: pathlib.Path, program: Program, new_file: bytes) -> None:
        self.folder, self.port = folder, free_port()
        self.process: subprocess.Popen[bytes] | None = None
        (folder / "auction.hpb").write_bytes(new_file)
        (folder / "front.toml").write_text(CONFIGURATION.format(port=self.port, program=program.path))
        words = ["req", "-x509", "-newkey", "rsa:2048", "-nodes", "-days", "30", "-subj", "/CN=localhost"]
        words += ["-addext", "subjectAltName=DNS:localhost", "-keyout", "front.key", "-out", "front.pem"]
        subprocess.run(["openssl", *words], check=True, capture_output=True, cwd=folder, timeout=SECONDS)
        subprocess.run([*self.words, "--make-tokens"], check=True, capture_output=True, cwd=folder, timeout=SECONDS)

    @property
    def words(self) -> list[str]:
        return [str(TOP / "tools" / "front"), "--config", str(self.folder / "front.toml")]

    def start(self) -> None:
        """Starts it, and waits until it takes connections."""
        self.process = subprocess.Popen(self.words, stdout=subprocess.PIPE, stderr=subprocess.DEVNULL, cwd=self.folder)
        assert self.process.stdout
        line = self.process.stdout.readline()
        assert line.startswith(b"LISTENING "), line

    def stop(self, how: signal.Signals = signal.SIGTERM) -> None:
        """Ends it, and waits until it has ended."""
        if self.process:
            self.process.send_signal(how)
            self.process.wait(60)
            assert self.process.stdout
            self.process.stdout.close()
            self.process = None

    def client(self, name: str, timeout: float = 90) -> Client:
        """The client of a name."""
        token = read_token(self.folder / "auction.tokens", name)
        return Client("localhost", self.port, token=token, ca=self.folder / "front.pem", timeout=timeout, silence=20)

    def async_client(self, name: str) -> AsyncClient:
        """The same for asyncio."""
        token = read_token(self.folder / "auction.tokens", name)
        return AsyncClient("localhost", self.port, token=token, ca=self.folder / "front.pem", timeout=90, silence=20)


@pytest.fixture
def front(room: pathlib.Path, program: Program, new_file: bytes) -> Iterator[Front]:
    """A front that has been started, of the first example's auction."""
    if shutil.which("openssl") is None:
        pytest.skip("openssl isn't installed")
    made = Front(room, program, new_file)
    made.start()
    yield made
    made.stop(signal.SIGKILL)


def rounds(count: int) -> list[Bid]:
    """Bids of bob in one round, each accepted once and in its turn."""
    bids = [Bid("z", node, 1000) for node in ("all", "east", "a", "b", "c")] + [Bid("y", "b", 900), Bid("w", "c", 800), Bid("w", "d", 700)]
    return bids[:count]


def test_names_bid_by_their_tokens(front: Front) -> None:
    with front.client("ann") as ann, front.client("bob") as bob, front.client("desk") as desk:
        assert ann.bid("x", "a", 100) == Accepted(1)
        assert bob.send([Bid("y", "b", 150), Bid("z", "all", 500), Bid("w", "c", 100)])[0] == Accepted(2)
        assert desk.close() == Accepted(5)
        assert ann.show().revenue == 500
        calls: list[Callable[[], object]] = [lambda: ann.bid("y", "b", 300), lambda: ann.who("y"), ann.close]
        calls.append(lambda: desk.bid("x", "a", 160))
        for call in calls:
            with pytest.raises(FrontRefused, match="rights"):
                call()
        assert ann.bid("x", "a", 160) == Accepted(6)


def test_who_is_not_known_is_not_welcome(front: Front, tmp_path: pathlib.Path) -> None:
    ca, token = front.folder / "front.pem", read_token(front.folder / "auction.tokens", "ann")
    with Client("localhost", front.port, token="t" * 20, ca=ca, timeout=30) as client, pytest.raises(NotWelcome, match="token"):
        client.show()
    with Client("127.0.0.1", front.port, token=token, ca=ca, timeout=30) as client, pytest.raises(NotWelcome, match="certificate"):
        client.show()
    with Client("localhost", front.port, token=token, timeout=30) as client, pytest.raises(NotWelcome, match="certificate"):
        client.show()

    async def talk() -> None:
        async with AsyncClient("localhost", front.port, token="t" * 20, ca=front.folder / "front.pem", timeout=30) as client:
            with pytest.raises(NotWelcome):
                await client.show()
        async with AsyncClient("127.0.0.1", front.port, token=token, ca=front.folder / "front.pem", timeout=30) as client:
            with pytest.raises(NotWelcome):
                await client.show()

    asyncio.run(talk())
    with Client("127.0.0.1", front.port, timeout=2) as client, pytest.raises(Unanswered):
        client.show()


@pytest.mark.slow
@pytest.mark.timeout(240)
@pytest.mark.parametrize("is_async", [False, True], ids=["sync", "async"])
@pytest.mark.parametrize("seconds", [0.02, 0.1, 0.3, 0.7])
def test_a_kill_of_the_front_loses_and_doubles_no_command(front: Front, is_async: bool, seconds: float) -> None:
    """The front and its server are killed while bids are in flight, and started again."""
    outcomes: list[Outcome] = []

    def bid() -> None:
        with front.client("bob") as bob:
            bob.show()
            started.set()
            outcomes.extend(bob.send(rounds(8)))

    async def bid_async() -> None:
        async with front.async_client("bob") as bob:
            await bob.show()
            started.set()
            outcomes.extend(await bob.send(rounds(8)))

    started = threading.Event()
    bidder = threading.Thread(target=(lambda: asyncio.run(bid_async())) if is_async else bid)
    bidder.start()
    assert started.wait(60)
    time.sleep(seconds)
    front.stop(signal.SIGKILL)
    wait_for_the_file(front.folder / "auction.hpb")
    front.start()
    bidder.join(120)
    assert [type(outcome) for outcome in outcomes] == [Accepted] * 8
    front.stop()
    auction = read_auction((front.folder / "auction.hpb").read_bytes()).auction
    assert auction.count == 8
    tickets = {name: state.last and state.last.command.ticket for name, state in auction.bidders.items()}
    assert tickets == {"x": None, "y": 1, "z": 5, "w": 2}


def wait_for_the_file(file: pathlib.Path) -> None:
    """Waits until the killed front's server has let the file go."""
    end = time.monotonic() + 30
    while time.monotonic() < end:
        descriptor = os.open(file, os.O_RDONLY)
        try:
            fcntl.flock(descriptor, fcntl.LOCK_EX | fcntl.LOCK_NB)
            return
        except BlockingIOError:
            time.sleep(0.05)
        finally:
            os.close(descriptor)
