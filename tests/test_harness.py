"""The harness itself: the things that the tests depend on are tested first."""

from __future__ import annotations

import os
import resource
import socket
from collections.abc import Iterator
from pathlib import Path

import pytest
from fronts import Front
from harness.auctions import Layout, commands, text_of
from harness.conditions import Conditions
from harness.fronts import is_running, run_tool
from harness.namespaces import Network
from harness.ports import listening
from harness.programs import Program, TookTooLong
from harness.serving import ADDRESS, Client, Ended, Serve, free_port
from harness.users import User


def test_a_new_file_has_its_pages(file: Path, layout: Layout) -> None:
    assert file.stat().st_size == layout.pages(layout.least_journal) * 4096


def test_the_commands_of_the_auction_are_all_accepted(program: Program, file: Path) -> None:
    ran = program.run_lines(file, text_of(commands(25)), "--batch", "8")
    assert ran.lines() == [f"OK {number}" for number in range(1, 26)]
    assert program.count(file) == 25


def test_a_server_answers_and_ends(file: Path, serve: Serve) -> None:
    server = serve(file, sessions=2)
    with server.connect() as client:
        assert client.ask("BID x 1 a 100") == "OK 1"
        assert client.finish() == []
    assert server.connect().finish() == []
    ended = server.ended()
    assert (ended.output, ended.status) == ("CLOSED 1\n", 0)


def test_a_run_that_takes_too_long_is_ended(program: Program, file: Path, room: Path) -> None:
    with pytest.raises(TookTooLong):
        program.run("serve", "--file", file, "--port", free_port(), "--sessions", 1, seconds=0.3)


def test_another_user_is_one(nobody: User, room: Path) -> None:
    assert nobody.call(os.getuid) == nobody.uid != 0
    with pytest.raises(PermissionError):
        nobody.call((room / "made").write_bytes, b"x")


def test_a_program_is_started_as_another_user(program: Program, nobody: User, room: Path) -> None:
    nobody.own(room)
    assert program.format(room / "F", conditions=Conditions(user=nobody)).status == 0
    assert (room / "F").stat().st_uid == nobody.uid


@pytest.mark.as_root
def test_who_is_outside_a_network_reaches_nobody_inside(file: Path, serve: Serve, network: Network, nobody: User) -> None:
    server = serve(file, conditions=Conditions(network=network))
    assert server.port not in nobody.call(listening)
    with pytest.raises(ConnectionRefusedError):
        socket.create_connection((ADDRESS, server.port), timeout=5)
    with network.inside():
        assert server.port in listening()
        client = Client(server.port)
    assert client.ask("SHOW").startswith("ROUND 1 ")
    with pytest.raises(Ended):
        client.socket.shutdown(socket.SHUT_WR)
        client.line()


def test_limits_hold_in_the_program_alone(program: Program, room: Path) -> None:
    before = resource.getrlimit(resource.RLIMIT_FSIZE)
    limited = Conditions().with_limit(resource.RLIMIT_FSIZE, 4096)
    assert program.format(room / "F", conditions=limited).status != 0
    assert resource.getrlimit(resource.RLIMIT_FSIZE) == before


@pytest.mark.as_root
def test_each_file_system_keeps_an_auction(program: Program, mounted: Path, layout: Layout) -> None:
    assert program.format(mounted / "F", layout).status == 0
    assert program.run_lines(mounted / "F", text_of(commands(5))).status == 0
    assert program.count(mounted / "F") == 5


@pytest.fixture
def front(program: Program, file: Path, room: Path) -> Iterator[Front]:
    """A front of a file of each layout."""
    with Front(program, room, fields={"file": str(file)}) as made:
        yield made.start()


def test_a_front_lets_its_names_in(front: Front) -> None:
    with front.client("ann") as ann, front.client("bob") as bob:
        assert ann.ask("BID x 1 a 100") == "OK 1"
        assert bob.ask("BID x 2 a 110").startswith("ERR ")
        assert bob.ask("BID y 1 b 150") == "OK 2"
    assert front.child("serve")
    ran = front.stop()
    assert ran.status == 0 and ran.output.startswith("STOPPED 2 "), ran
    assert run_tool("replay", front.record, "--file", front.file, "--program", front.program.path).status == 0


def test_a_front_that_is_killed_leaves_no_server(front: Front) -> None:
    server = front.child("serve")
    assert server
    front.kill()
    assert not is_running(server)
