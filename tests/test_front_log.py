"""A front's log has the actions of strangers and names. It is bounded, and never has a token."""

from __future__ import annotations

import json
import os
import signal
import socket
import ssl
import threading
import time
from pathlib import Path

import pytest
from fronts import ADDRESS, Caller, Front, make_certificate, token_of
from harness.conditions import Conditions
from harness.serving import wait_until
from test_front_tokens import id_of

from hpb.front.log import Log, Rotated

SECRET = "a-token-that-nobody-has-0123"
# Nanoseconds that the signature of a handshake takes at least.
LEAST_HANDSHAKE = 200_000


def peer_of(connection: socket.socket) -> str:
    """The address of this end, as the front sees it."""
    address, port = connection.getsockname()[:2]
    return f"{address} {port}"


def logged(front: Front, kind: str, count: int = 1, **fields: object) -> list[dict[str, object]]:
    """The lines of a kind with these fields, once there are so many."""

    def found() -> list[dict[str, object]]:
        return [line for line in front.log_lines(kind) if fields.items() <= line.items()]

    wait_until(lambda: len(found()) >= count, 20, f"{count} lines {kind} with {fields}")
    return found()


def test_each_connection_and_each_token_stands_in_the_log(front: Front) -> None:
    front.start()
    ann = front.client("ann")
    id = id_of(token_of("ann"))
    peer = peer_of(ann.socket)
    assert logged(front, "connection", peer=peer)[0]["outcome"] == "taken"
    [line] = logged(front, "token", peer=peer)
    assert (line["name"], line["token"], line["outcome"]) == ("ann", id, "welcome")
    assert ann.ask("SHOW").startswith("ROUND 1 ")
    ann.close()
    [line] = logged(front, "ended", peer=peer)
    assert (line["name"], line["token"], line["lines"], line["why"]) == ("ann", id, 1, "ended")
    stranger = front.client()
    assert stranger.ask(f"TOKEN {SECRET}") == "ERR front token"
    [line] = logged(front, "token", peer=peer_of(stranger.socket))
    assert line["outcome"] == "unknown" and "token" not in line and "name" not in line
    nobody = front.client()
    assert nobody.ask("SHOW") == "ERR front token"
    assert logged(front, "token", peer=peer_of(nobody.socket))[0]["outcome"] == "none"
    front.stop()
    assert [line["outcome"] for line in front.log_lines("restart")] == ["started"]
    assert len(front.log_lines("started")) == len(front.log_lines("stopped")) == 1
    text = front.log.read_text()
    assert SECRET not in text and not any(token_of(name) in text for name in front.names)
    assert front.log.stat().st_mode & 0o777 == 0o600


def test_a_token_in_a_line_or_a_path_isnt_written(room: Path) -> None:
    """Wherever it stands. Names, numbers and short words are."""
    token = "WeSU47wBdlc16WNG2a-3T9yRfjLLTu0f"
    log = Log(Rotated(str(room / "log"), 1_000_000, 2)).start()
    for line in (token, f"HELLO {token}", f"XTOKEN={token}", f"NODE {token}", f"WHO\t{token}", f"TOKEN {token}", f"x{token}\r"):
        log.write("answered", name="ann", line=line, answer="ERR front line")
    log.write("page", peer="127.0.0.1 1", name=None, path=f"/{token}", status=404)
    kept = "BID bay_of_the_state 4294967295 bay_of_the_state 18446744073709551615"
    log.write("answered", name="ann", line=kept, answer="ERR 23 high")
    log.end(5)
    text = (room / "log").read_text()
    assert token not in text and kept in text and text.count("\n") == 9


def test_a_token_that_looks_like_a_name_or_a_number_isnt_written(front: Front) -> None:
    """If a name sends it in the wrong place. Names and numbers of the same length are written."""
    secrets = {"ann": "word_of_16_chars", "bob": "12345678901234567890"}
    front.write_tokens({name: secrets.get(name, token_of(name)) for name in front.names})
    front.start()
    client = front.client(token=secrets["ann"])
    asked = [*secrets.values(), *(f"NODE {secret}" for secret in secrets.values()), "NODE bay_of_the_state", "CLOSE 18446744073709551615"]
    for line in asked:
        assert client.ask(line).startswith("ERR ")
    front.stop()
    assert [line["line"] for line in front.log_lines("answered")] == ["..", "..", "NODE ..", "NODE ..", *asked[-2:]]
    assert not any(secret in front.log.read_text() for secret in secrets.values())


def test_what_is_asked_for_at_the_page_stands_in_the_log(front: Front) -> None:
    front.has_board = True
    front.write_config()
    front.start()
    assert (front.page("ann"), front.page("ann", token=SECRET)) == (200, 401)
    [line] = logged(front, "page", status=200)
    assert (line["name"], line["path"]) == ("ann", "/")
    [line] = logged(front, "page", status=401)
    assert line["name"] is None and str(line["peer"]).startswith(f"{ADDRESS} ")
    front.stop()
    text = front.log.read_text()
    assert SECRET not in text and token_of("ann") not in text


def test_restarts_and_a_failure_stand_in_the_log(front: Front) -> None:
    front.start()
    os.kill(front.child("serve"), signal.SIGKILL)
    assert Caller(front, "ann").ask("BID x 1 a 100") == "OK 1"
    assert [line["outcome"] for line in logged(front, "restart", 3)] == ["started", "gone", "started"]
    front.signal(signal.SIGHUP)
    assert logged(front, "reload")[0]["outcome"] == "taken"
    front.config.write_text("colour = 1\n")
    front.signal(signal.SIGHUP)
    assert "colour" in str(logged(front, "reload", outcome="refused")[0]["why"])


def test_many_strangers_are_counted_and_not_written(front: Front) -> None:
    """Of 600 connections at once, the log has a hundred or so, and the number of the others."""
    front.write_config()
    with front.config.open("a") as config:
        config.write("[log]\nlines_per_second = 50\n")
    front.start()
    for _ in range(600):
        socket.create_connection((ADDRESS, front.port), timeout=20).close()
    logged(front, "left_out", of="connection")
    # The front takes connections in order, so this one is the last.
    front.client("ann")
    front.stop()
    written = len(front.log_lines("connection"))
    left_out = sum(int(str(line["count"])) for line in front.log_lines("left_out") if line["of"] == "connection")
    assert written + left_out == 601
    assert left_out > 100


def test_the_log_is_rotated_and_bounded(front: Front) -> None:
    front.limits = {"lines_per_second": 1_000_000}
    front.write_config()
    with front.config.open("a") as config:
        config.write("[log]\nbytes = 100_000\nfiles = 3\nlines_per_second = 100_000\n")
    front.start()
    for _ in range(2_000):
        with socket.create_connection((ADDRESS, front.port), timeout=20) as stranger:
            stranger.sendall(b"SHOW\n")
            stranger.recv(100)
    front.stop()
    logs = sorted(front.folder.glob("R.log*"))
    assert [log.name for log in logs] == ["R.log", "R.log.1", "R.log.2"]
    assert all(log.stat().st_size <= 100_000 for log in logs)
    assert all(json.loads(line)["at"].endswith("Z") for log in logs for line in log.read_text().splitlines())


def test_the_log_may_go_to_standard_error(front: Front) -> None:
    front.write_config()
    with front.config.open("a") as config:
        config.write('[log]\nto = "stderr"\n')
    front.start()
    front.client("ann")
    said = front.stop().errors
    assert [json.loads(line)["kind"] for line in said.splitlines() if line.startswith("{")][:2] == ["restart", "started"]
    assert not front.log.exists()


def test_a_log_that_cannot_be_written_is_told_and_holds_up_nobody(front: Front) -> None:
    front.log.mkdir()
    front.start()
    assert Caller(front, "ann").ask("BID x 1 a 100") == "OK 1"
    front.wait_until_said("R.log: Is a directory")
    assert front.stop().status == 0


def test_an_address_that_begins_tls_too_often_is_refused(front: Front) -> None:
    """Twice as many may come at once as may come in a second. Meanwhile, those of another address are let in."""
    front.context = make_certificate(front.folder)
    front.limits = {"handshakes_per_second": 2}
    front.write_config(certificate="S", key="K")
    front.start()
    refused = 0
    for _ in range(20):
        try:
            front.client("ann", seconds=20).close()
        except (ssl.SSLError, OSError):
            refused += 1
    assert 10 <= refused <= 16
    assert len(logged(front, "connection", refused, outcome="refused", why="handshakes")) == refused
    other = socket.create_connection((ADDRESS, front.port), timeout=20, source_address=("127.0.0.2", 0))
    with front.context.wrap_socket(other, server_hostname="localhost") as known:
        known.sendall(f"TOKEN {token_of('ann')}\n".encode())
        assert known.recv(100) == b"WELCOME ann\n"
    time.sleep(1)
    assert front.client("ann").ask("SHOW").startswith("ROUND 1 ")


def shake(front: Front, address: str) -> None:
    """A stranger of this address begins TLS, and goes once it is there."""
    assert front.context
    taken = socket.create_connection((ADDRESS, front.port), timeout=20, source_address=(address, 0))
    with front.context.wrap_socket(taken, server_hostname="localhost"):
        pass


def times_by_nice(process: int) -> dict[int, int]:
    """The nanoseconds that threads of a process have run, by how much they give way."""
    times: dict[int, int] = {}
    for task in Path(f"/proc/{process}/task").iterdir():
        nice = int((task / "stat").read_text().rsplit(")", 1)[1].split()[16])
        times[nice] = times.get(nice, 0) + int((task / "schedstat").read_text().split()[0])
    return times


@pytest.mark.as_root
def test_handshakes_are_done_by_a_thread_that_gives_way(front: Front) -> None:
    """A handshake costs the front a signature. The loop that serves bidders makes none."""
    front.context = make_certificate(front.folder)
    front.write_config(certificate="S", key="K")
    front.start(conditions=Conditions(last=lambda: os.setpriority(os.PRIO_PROCESS, 0, 0)))
    assert front.process
    wait_until(lambda: len(times_by_nice(front.process.pid if front.process else 0)) == 2, 20, "a thread that gives way")
    before = times_by_nice(front.process.pid)
    assert min(before) == 0
    for _ in range(40):
        shake(front, ADDRESS)
    after = times_by_nice(front.process.pid)
    spent = {nice: after[nice] - before[nice] for nice in before}
    assert spent[max(spent)] > 40 * LEAST_HANDSHAKE, spent


def test_of_all_addresses_so_many_handshakes_are_done_in_a_second(front: Front) -> None:
    """Meanwhile a bidder who is in is answered."""
    front.context = make_certificate(front.folder)
    front.limits = {"all_handshakes_per_second": 4}
    front.write_config(certificate="S", key="K")
    front.start()
    bidder = front.client("ann", seconds=20)
    strangers = [threading.Thread(target=shake, args=(front, f"127.0.1.{number}")) for number in range(1, 13)]
    began = time.monotonic()
    for stranger in strangers:
        stranger.start()
    asked = 0
    while any(stranger.is_alive() for stranger in strangers):
        assert bidder.ask("SHOW").startswith("ROUND 1 ")
        asked += 1
        time.sleep(0.05)
    assert time.monotonic() - began > 2 and asked >= 10


def test_what_is_no_tls_is_logged(front: Front) -> None:
    front.context = make_certificate(front.folder)
    front.write_config(certificate="S", key="K")
    front.start()
    with socket.create_connection((ADDRESS, front.port), timeout=20) as stranger:
        stranger.sendall(b"GET / HTTP/1.1\r\n\r\n")
        stranger.recv(100)
        [line] = logged(front, "ended", peer=peer_of(stranger))
    assert str(line["why"]).startswith("TLS: ")
