"""Nobody but the front reaches the server behind it: another user of the machine looks for it and tries."""

from __future__ import annotations

import contextlib
import os
import select
import signal
import socket
import subprocess
import sys
import time
from collections.abc import Iterator
from contextlib import ExitStack

import pytest
from fronts import ADDRESS, Caller, Front, StartsNot, listening_socket, token_of
from harness.auctions import text_of
from harness.conditions import Conditions
from harness.namespaces import Network
from harness.serving import Server, free_port, wait_until
from harness.users import User

from hpb.front import network as front_network
from hpb.front.network import Address, Refused, bound, take

RESTARTS, MOST_SESSIONS = 100, 32
# For how many seconds a front is stopped behind every tenth restart.
STOPPED, STOPPED_EACH = 0.5, 10
BID = b"BID y 1 b 150\n"
# In a user namespace whose limit is 0, no network can be made.
NO_NETWORK = ("unshare", "-Ur", "sh", "-c", 'echo 0 > /proc/sys/user/max_net_namespaces && exec "$@"', "sh")

# A script for the other user. It reads the listening ports from /proc, for each process that it may look at, connects to each of
# them, and bids. If a port answers like the server, it writes the port and the answer.
SCANNER = r"""
import glob, itertools, socket, sys
own, bid = {int(sys.argv[1])}, sys.argv[2].encode() + b"\n"
def ports(paths):
    found = set()
    for path in paths:
        try:
            rows = open(path).read().splitlines()[1:]
        except OSError:
            continue
        found |= {int(row.split()[1].rsplit(":", 1)[1], 16) for row in rows if row.split()[3] == "0A"}
    return found - own
def tried(port):
    try:
        with socket.create_connection(("127.0.0.1", port), 5) as one:
            one.sendall(bid)
            return one.recv(200)
    except OSError:
        return b""
print("BEGUN", flush=True)
known = ports(["/proc/self/net/tcp"])
for turn in itertools.count():
    # Those of its own network are looked at most often, for they are quickly read.
    new = ports(["/proc/self/net/tcp"]) - known if turn % 50 else ports(glob.glob("/proc/[0-9]*/net/tcp"))
    for port in sorted(new):
        if (answer := tried(port)).startswith(b"OK "):
            print(port, answer.decode().strip(), flush=True)
"""


@pytest.fixture
def many(front: Front) -> Front:
    """The same with as many names as there may be sessions. So it takes long until all places are taken, and a stranger has time."""
    front.names = {**front.names, **{f"public_{number}": "observer" for number in range(MOST_SESSIONS - len(front.names))}}
    front.write_tokens({name: token_of(name) for name in front.names})
    front.write_config()
    return front


def scanner(nobody: User, own: int, cleanup: ExitStack) -> subprocess.Popen[bytes]:
    words = [sys.executable, "-c", SCANNER, str(own), BID.decode().strip()]
    process = subprocess.Popen(words, stdout=subprocess.PIPE, preexec_fn=nobody.become, cwd="/")
    cleanup.callback(process.wait)
    cleanup.callback(process.kill)
    assert process.stdout and process.stdout.readline() == b"BEGUN\n"
    return process


def kill_server(front: Front, stopped: float = 0) -> None:
    """Kills the server, and returns once there is another one. The front is stopped for these seconds then, so a stranger has time."""
    wait_until(lambda: front.child("serve") != 0, 30, "a server")
    server = front.child("serve")
    os.kill(server, signal.SIGKILL)
    wait_until(lambda: front.child("serve") not in (0, server), 30, "another server")
    if stopped:
        front.signal(signal.SIGSTOP)
        time.sleep(stopped)
        front.signal(signal.SIGCONT)


@pytest.fixture
def alone(network: Network) -> Iterator[None]:
    """The test, and everything that it starts, are in a network of their own: a scanner finds only the ports of its front."""
    with network.inside():
        yield


@pytest.mark.as_root
@pytest.mark.timeout(600)
def test_another_user_reaches_no_server_over_100_restarts(many: Front, nobody: User, alone: None, cleanup: ExitStack) -> None:
    front = many.start()
    process = scanner(nobody, front.port, cleanup)
    caller = Caller(front, "ann")
    assert caller.ask("BID x 1 a 100") == "OK 1"
    for number in range(RESTARTS):
        kill_server(front, stopped=0 if number % STOPPED_EACH else STOPPED)
        assert caller.ask("SHOW") == "ROUND 1 STAGE 1 OPEN REVENUE 0 COUNT 1"
    process.kill()
    assert process.communicate()[0] == b""
    assert front.stop().status == 0
    assert front.program.count(front.file) == 1


@pytest.mark.as_root
@pytest.mark.timeout(600)
def test_the_same_user_reaches_a_server_on_a_shared_network(many: Front, nobody: User, alone: None, cleanup: ExitStack) -> None:
    """Shows that the test above can fail: on a network that the server shares with that user, the same bid is accepted after some
    restarts.
    """
    front = many
    front.write_config(shared_network=True)
    front.start()
    process = scanner(nobody, front.port, cleanup)
    caller = Caller(front, "ann", seconds=20)
    with contextlib.suppress(AssertionError, TimeoutError):
        for _ in range(RESTARTS):
            kill_server(front, stopped=STOPPED)
            caller.ask("SHOW")
            if select.select([process.stdout], [], [], 0)[0]:
                break
    # The record doesn't explain that command, so the front ends when it next connects, if it hasn't ended yet.
    if front.is_running():
        os.kill(front.child("serve"), signal.SIGKILL)
    ran = front.ended(60)
    process.kill()
    assert process.communicate()[0], f"the scanner never got in: {ran}"
    assert ran.status == 1 and "by another way" in ran.errors


@pytest.mark.as_root
def test_a_front_of_another_user_has_a_network_of_its_own(front: Front, nobody: User) -> None:
    for path in (front.folder, front.file, front.tokens, front.config):
        nobody.own(path)
    front.folder.chmod(0o711)
    front.start(conditions=Conditions(user=nobody))
    server = front.child("serve")
    assert os.readlink(f"/proc/{server}/ns/net") != os.readlink("/proc/self/ns/net")
    assert Caller(front, "ann").ask("BID x 1 a 100") == "OK 1"
    assert front.stop().status == 0


@pytest.mark.as_root
def test_a_system_that_gives_no_network_is_told(front: Front) -> None:
    ran = subprocess.run([*NO_NETWORK, *front.words()], capture_output=True, text=True, timeout=60)
    assert (ran.returncode, ran.stdout) == (1, "")
    assert "gives the front no network of its own" in ran.stderr and "shared_network = true" in ran.stderr


def test_a_port_needs_a_shared_network(front: Front) -> None:
    front.write_config(port=free_port())
    ran = front.run()
    assert (ran.status, ran.output) == (2, "") and "shared_network = true" in ran.errors


def test_a_file_that_was_told_commands_meanwhile_ends_the_front(front: Front) -> None:
    """On a shared network, behind somebody else's server, which lets another client in between two of its starts."""
    port = free_port()
    front.write_config(port=port, shared_network=True)
    with Server(front.program, front.file, 8, port):
        front.start()
        assert Caller(front, "ann").ask("BID x 1 a 100") == "OK 1"
    assert front.program.run_lines(front.file, text_of(["BID y 1 b 150"])).output == "OK 2\n"
    with Server(front.program, front.file, 8, port):
        front.client("ann").send(b"SHOW\n")
        ran = front.ended(30)
    assert ran.status == 1 and "the file has 2 commands, and the record explains 1 at most" in ran.errors
    assert "STOPPED" not in ran.output


def test_sockets_that_are_handed_in_are_taken(front: Front) -> None:
    """As systemd passes them: from descriptor 3 on, with their number and the process that they are for."""
    with listening_socket() as given:
        port = given.getsockname()[1]
        front.write_config(listen=f"{ADDRESS}:{port}")
        script = 'exec 3<&"$0"; LISTEN_PID=$$ LISTEN_FDS=1 exec "$@"'
        words = ["bash", "-c", script, str(given.fileno()), *front.words()]
        front.process = subprocess.Popen(words, stdout=subprocess.PIPE, stderr=front.said, pass_fds=[given.fileno()])
        assert front.process.stdout and front.process.stdout.readline() == f"LISTENING {ADDRESS} {port}\n".encode()
        front.port = port
        assert Caller(front, "ann").ask("BID x 1 a 100") == "OK 1"
        assert front.stop().status == 0


def begin_in(front: Front, network: Network, given: socket.socket, *before: str) -> subprocess.Popen[bytes]:
    """Starts a front in this network, by the words `before`, and hands it a socket that listens elsewhere."""
    front.write_config(listen=f"{ADDRESS}:{given.getsockname()[1]}")
    script = 'exec 3<&"$0"; LISTEN_PID=$$ LISTEN_FDS=1 exec "$@"'
    words = [*before, "bash", "-c", script, str(given.fileno()), *front.words()]
    front.process = subprocess.Popen(
        words, stdout=subprocess.PIPE, stderr=front.said, pass_fds=[given.fileno()], preexec_fn=network.enter
    )
    return front.process


@pytest.mark.as_root
def test_a_network_that_the_front_is_in_already_is_its_own(front: Front, network: Network) -> None:
    """With systemd's PrivateNetwork= the sockets are the machine's and the process is in another network. It stays there if the system
    gives it no other one."""
    with listening_socket() as given:
        process = begin_in(front, network, given, *NO_NETWORK)
        front.port = given.getsockname()[1]
        assert process.stdout and process.stdout.readline() == f"LISTENING {ADDRESS} {front.port}\n".encode()
        server = front.child("serve")
        with network.inside():
            assert os.readlink(f"/proc/{server}/ns/net") == os.readlink("/proc/thread-self/ns/net")
        assert Caller(front, "ann").ask("BID x 1 a 100") == "OK 1"
        assert front.stop().status == 0


@pytest.mark.as_root
def test_sockets_of_elsewhere_make_no_network_the_fronts_own(front: Front, network: Network) -> None:
    """Other processes may be in that network. Before, the server listened there, and each of them reached it."""
    with listening_socket() as given:
        process = begin_in(front, network, given)
        front.port = given.getsockname()[1]
        assert process.stdout and process.stdout.readline() == f"LISTENING {ADDRESS} {front.port}\n".encode()
        server = front.child("serve")
        with network.inside():
            assert os.readlink(f"/proc/{server}/ns/net") != os.readlink("/proc/thread-self/ns/net")
        assert Caller(front, "ann").ask("BID x 1 a 100") == "OK 1"
        assert front.stop().status == 0


@pytest.mark.as_root
def test_a_network_with_an_interface_is_nobodys_own(front: Front, network: Network) -> None:
    """Such as the machine's, beside sockets that somebody made elsewhere. If the system gives no other, the front doesn't start."""
    with network.inside():
        subprocess.run(["sh", "-c", "ip link add v0 type veth peer name v1 && ip link set v0 up"], check=True, timeout=60)
    with listening_socket() as given:
        begin_in(front, network, given, *NO_NETWORK)
        ran = front.ended(60)
    assert (ran.status, ran.output) == (1, "")
    assert "gives the front no network of its own" in ran.errors and "shared_network = true" in ran.errors


@pytest.mark.parametrize("host", [ADDRESS, "0.0.0.0", "::"])
def test_a_socket_listens_as_soon_as_it_has_its_address(host: str) -> None:
    """Otherwise another account could bind a socket to the same address too, and listen first. By hand: a port of all addresses is
    taken for each of them.
    """
    with take(Address("listen", host, free_port()), []) as taken:
        for other in {host, ADDRESS, "0.0.0.0"} - ({ADDRESS, "0.0.0.0"} if host == "::" else set()):
            assert bind_too(other, taken.getsockname()[1]) == "Address already in use"


def bind_too(host: str, port: int) -> str:
    """The system's answer to another socket for that address, which would share it."""
    with socket.socket(socket.AF_INET6 if ":" in host else socket.AF_INET) as other:
        other.setsockopt(socket.SOL_SOCKET, socket.SO_REUSEADDR, 1)
        try:
            other.bind((host, port))
            other.listen()
        except OSError as fault:
            return str(fault.strerror)
    return ""


def test_an_address_that_another_listens_at_first_is_named(monkeypatch: pytest.MonkeyPatch) -> None:
    """Between the two calls by which the front takes its own."""
    port = free_port()
    with socket.socket() as other, monkeypatch.context() as patch:
        other.setsockopt(socket.SOL_SOCKET, socket.SO_REUSEADDR, 1)

        def bind_after(address: Address) -> socket.socket:
            own = bound(address)
            other.bind((ADDRESS, port))
            other.listen()
            return own

        patch.setattr(front_network, "bound", bind_after)
        with pytest.raises(Refused, match=f"^listen: {ADDRESS}:{port}: Address already in use$"):
            take(Address("listen", ADDRESS, port), [])


def test_who_connects_before_the_front_is_up_is_let_in_then(front: Front) -> None:
    port, slow = free_port(), front.folder / "slow"
    slow.write_text(f'#!/bin/sh\nsleep 1\nexec {front.program.path} "$@"\n')
    slow.chmod(0o755)
    front.write_config(listen=f"{ADDRESS}:{port}", program=str(slow))
    process = front.begin()
    wait_until(lambda: front.child("slow") != 0, 30, "a program that comes up")
    front.port = port
    assert front.client("ann").ask("BID x 1 a 100") == "OK 1"
    assert process.stdout and process.stdout.readline() == f"LISTENING {ADDRESS} {port}\n".encode()
    assert front.stop().status == 0


@pytest.mark.parametrize("count", ["9" * 5_000, "", "-1", "1e3", "\N{SUPERSCRIPT TWO}"])
def test_a_count_of_sockets_that_is_none_is_named(front: Front, count: str) -> None:
    words = ["bash", "-c", 'LISTEN_PID=$$ LISTEN_FDS="$0" exec "$@"', count, *front.words()]
    ran = subprocess.run(words, capture_output=True, text=True, timeout=60)
    said = f"front: the sockets that were handed in: LISTEN_FDS has {len(count)} characters, and isn't a number of at most four digits\n"
    assert (ran.returncode, ran.stdout, ran.stderr) == (1, "", said)


def test_an_address_in_use_is_named(front: Front) -> None:
    with listening_socket() as taken:
        address = f"{ADDRESS}:{taken.getsockname()[1]}"
        front.write_config(listen=address)
        with pytest.raises(StartsNot) as ended:
            front.start()
    assert ended.value.ran.status == 1
    assert ended.value.ran.errors == f"front: listen: {address}: Address already in use\n"
