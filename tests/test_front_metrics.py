"""Metrics and health of a front, at an address of their own."""

from __future__ import annotations

import contextlib
import http.client
import json
import os
import shutil
import signal
import socket
import subprocess
import time
from pathlib import Path
from urllib.parse import quote

import pytest
from fronts import ADDRESS, SECONDS, Front, make_certificate, token_of
from harness.conditions import Conditions
from harness.fixtures import Lack
from harness.fronts import children_of
from harness.serving import free_port, wait_until
from prometheus_client.parser import text_string_to_metric_families

TOP = Path(__file__).resolve().parent.parent
RULES = TOP / "packaging" / "monitoring" / "hpb-rules.yml"


def with_metrics(front: Front) -> int:
    """Gives a front an address for its metrics, and returns the port."""
    port = free_port()
    front.tables = {"metrics": {"listen": f"{ADDRESS}:{port}"}}
    front.write_config()
    return port


def get(port: int, path: str, method: str = "GET", **fields: str) -> tuple[int, str, bytes]:
    """The status, the type and the bytes of a page."""
    connection = http.client.HTTPConnection(ADDRESS, port, timeout=SECONDS)
    connection.request(method, path, headers=fields)
    answer = connection.getresponse()
    found = answer.status, answer.headers["Content-Type"], answer.read()
    connection.close()
    return found


def values(port: int) -> dict[str, float]:
    """Each sample with its labels, as `name{label="value"}`."""
    found = {}
    for family in text_string_to_metric_families(get(port, "/metrics")[2].decode()):  # type: ignore[no-untyped-call]
        for sample in family.samples:
            labels = ",".join(f'{name}="{value}"' for name, value in sorted(sample.labels.items()))
            found[f"{sample.name}{{{labels}}}" if labels else sample.name] = sample.value
    return found


def test_lines_are_counted_by_what_came_of_them(front: Front) -> None:
    port = with_metrics(front)
    front.start()
    ann = front.client("ann")
    answers = [ann.ask(line) for line in ("SHOW", "BID x 1 a 100", "BID x 2 a 1", "BID y 1 b 100", "IN 1 BID x 2 b 100", "nonsense", "x" * 200)]
    assert answers == [
        "ROUND 1 STAGE 1 OPEN REVENUE 0 COUNT 0", "OK 1", "ERR 21 step", "ERR front rights", "ERR 25 eligibility", "ERR front line",
        "ERR front long",
    ]
    assert front.client().ask("TOKEN nobody-has-this-token") == "ERR front token"
    shown = values(port)
    lines = {name: value for name, value in shown.items() if name.startswith("hpb_front_lines_total")}
    assert lines == {
        'hpb_front_lines_total{line="TOKEN",result="answered"}': 1,
        'hpb_front_lines_total{line="TOKEN",result="front token"}': 1,
        'hpb_front_lines_total{line="SHOW",result="answered"}': 1,
        'hpb_front_lines_total{line="BID",result="accepted"}': 1,
        'hpb_front_lines_total{line="BID",result="eligibility"}': 1,
        'hpb_front_lines_total{line="BID",result="step"}': 1,
        'hpb_front_lines_total{line="BID",result="front rights"}': 1,
        'hpb_front_lines_total{line="other",result="front line"}': 1,
        'hpb_front_lines_total{line="other",result="front long"}': 1,
    }
    assert shown['hpb_front_answer_seconds_count{line="BID"}'] == 4
    assert 0 < shown['hpb_front_answer_seconds_sum{line="BID"}'] < SECONDS
    assert shown['hpb_front_tokens_total{outcome="welcome"}'] == shown['hpb_front_tokens_total{outcome="unknown"}'] == 1


def test_the_auction_and_its_record_are_shown(front: Front) -> None:
    port = with_metrics(front)
    front.start()
    desk = front.client("desk")
    assert [desk.ask(line) for line in ("CLOSE 1 ENDING", "SHOW")] == ["OK 1", "ROUND 1 STAGE 1 CLOSED REVENUE 0 COUNT 1"]
    shown = values(port)
    assert (shown["hpb_auction_commands"], shown["hpb_auction_over"], shown["hpb_auction_round"], shown["hpb_auction_paused"]) == (1, 1, 1, 0)
    # The entry that the front has started, and the accepted command; the command beside the record.
    assert shown['hpb_front_sync_seconds_count{what="record"}'] >= 2 and shown['hpb_front_sync_seconds_count{what="beside"}'] == 1
    assert shown['hpb_build_info{version="0.1.0"}'] == 1
    wait_until(lambda: values(port)["hpb_front_record_bytes"] == front.record.stat().st_size, 20, "the record's length isn't shown")
    assert "hpb_front_certificate_days" not in shown and "hpb_auction_seconds_to_close" not in shown


def test_names_with_their_connections_and_waiting_lines_are_shown(front: Front) -> None:
    port = with_metrics(front)
    front.start()
    first, second = front.client("ann"), front.client("ann")
    assert first.ask("SHOW") == second.ask("SHOW")
    stranger = socket.create_connection((ADDRESS, front.port), SECONDS)
    wait_until(lambda: values(port)["hpb_front_unknown_connections"] == 1, 20, "the stranger isn't shown")
    shown = values(port)
    assert {name: shown[f'hpb_front_connections{{name="{name}"}}'] for name in front.names} == {"desk": 0, "ann": 2, "bob": 0, "carl": 0, "public": 0}
    assert front.process
    server = next(child for child in children_of(front.process.pid))
    os.kill(server, signal.SIGSTOP)
    try:
        second.send(b"SHOW\n")
        wait_until(lambda: values(port)['hpb_front_lines_waiting{name="ann"}'] == 1, 20, "the waiting line isn't shown")
    finally:
        os.kill(server, signal.SIGCONT)
    stranger.close()


def test_the_days_of_the_certificate_and_the_seconds_to_the_close_are_shown(front: Front) -> None:
    make_certificate(front.folder, days=20)
    port = with_metrics(front)
    front.tables = {**front.tables, "rounds": {"unsynchronised": True}}
    front.configure(certificate="S", key="K")
    front.start()
    assert 19.9 < values(port)["hpb_front_certificate_days"] <= 20


def test_restarts_of_the_server_are_counted_and_the_front_isnt_ready_meanwhile(front: Front) -> None:
    port = with_metrics(front)
    front.start()
    assert get(port, "/ready") == (200, "text/plain; charset=utf-8", b"ready\n")
    assert front.process
    os.kill(next(iter(children_of(front.process.pid))), signal.SIGKILL)
    wait_until(lambda: values(port).get('hpb_front_restarts_total{outcome="started",what="server"}') == 2, 30, "the restart isn't counted")
    assert values(port)['hpb_front_restarts_total{outcome="gone",what="server"}'] == 1
    wait_until(lambda: get(port, "/ready")[0] == 200, 30, "it isn't ready again")


def test_a_front_that_starts_lives_and_isnt_ready(front: Front) -> None:
    port = with_metrics(front)
    # A program that never listens.
    (front.folder / "P").write_text("#!/bin/sh\nexec sleep 60\n")
    front.begin()
    wait_until(lambda: answers(port), 30, "nobody listens")
    assert get(port, "/live") == (200, "text/plain; charset=utf-8", b"live\n")
    wait_until(lambda: get(port, "/ready")[2] == b"not ready: asking, server down\n", 20, "the phase isn't shown")
    assert get(port, "/ready")[0] == 503
    assert values(port)["hpb_front_ready"] == 0


def answers(port: int) -> bool:
    try:
        return get(port, "/live")[0] == 200
    except OSError:
        return False


def test_a_front_that_stands_still_doesnt_say_that_it_lives(front: Front) -> None:
    port = with_metrics(front)
    front.start()
    front.signal(signal.SIGSTOP)
    try:
        with socket.create_connection((ADDRESS, port), 2) as asked:
            asked.sendall(b"GET /live HTTP/1.1\r\n\r\n")
            with pytest.raises(TimeoutError):
                asked.recv(1)
    finally:
        front.signal(signal.SIGCONT)


def test_only_three_pages_are_there_to_be_read(front: Front) -> None:
    port = with_metrics(front)
    front.start()
    assert get(port, "/") == (404, "text/plain; charset=utf-8", b"there are /metrics, /live, /ready\n")
    assert get(port, "/live", "POST") == (405, "text/plain; charset=utf-8", b"GET and HEAD alone are answered\n")
    assert get(port, "/live", "HEAD") == (200, "text/plain; charset=utf-8", b"")
    assert get(port, "/metrics", Accept="application/openmetrics-text; version=1.0.0")[1].startswith("application/openmetrics-text;")
    for request in (b"nonsense\r\n\r\n", b"GET /live HTTP/2\r\n\r\n", b"x" * 20_000):
        with socket.create_connection((ADDRESS, port), SECONDS) as asked:
            asked.sendall(request)
            assert asked.makefile("rb").readline() == b"HTTP/1.1 400 Bad Request\r\n"


def test_a_crowd_that_asks_nothing_is_ended_and_bidders_are_answered(front: Front) -> None:
    port = with_metrics(front)
    front.start()
    ann = front.client("ann")
    crowd = [socket.create_connection((ADDRESS, port), SECONDS) for _ in range(100)]
    began = time.monotonic()
    assert ann.ask("SHOW").startswith("ROUND 1 ")
    assert time.monotonic() - began < SECONDS
    for one in crowd:
        with contextlib.suppress(ConnectionResetError):
            assert one.recv(1) == b""
        one.close()
    assert get(port, "/live")[0] == 200


def test_an_address_that_others_reach_has_to_be_meant(front: Front) -> None:
    front.tables = {"metrics": {"listen": "0.0.0.0:0"}}
    front.write_config()
    ran = front.run()
    assert (ran.status, ran.errors) == (
        2,
        "front: metrics.listen: 0.0.0.0 is no address of this machine alone, and metrics are sent in clear, to anyone who asks; if that is "
        "meant, set plain = true there\n",
    )
    front.tables = {"metrics": {"listen": "0.0.0.0:0", "plain": True}}
    front.write_config()
    assert front.start().stop().status == 0


@pytest.mark.parametrize(("table", "words"), [
    ({}, "metrics has to be there, as a table"),
    ({"plain": True}, "metrics.listen has to be there, as a text"),
    ({"listen": "localhost:1"}, "metrics.listen: 'localhost:1' has no address in figures and no port, as 127.0.0.1:6000 has"),
    ({"listen": f"{ADDRESS}:0", "plain": 1}, "metrics.plain has to be true or false"),
    ({"listen": f"{ADDRESS}:0", "port": 1}, "metrics.port: there is no such field"),
])
def test_a_wrong_table_is_refused(front: Front, table: dict[str, object], words: str) -> None:
    front.tables = {"metrics": table}
    front.write_config()
    ran = front.run()
    assert (ran.status, ran.errors) == (2, f"front: {words}\n")


def test_without_the_library_a_front_names_its_package(front: Front, room: Path) -> None:
    """Without `[metrics]` it does without it."""
    hidden = room / "hidden"
    hidden.mkdir()
    (hidden / "sitecustomize.py").write_text(
        "import importlib.util as util\n"
        "real = util.find_spec\n"
        "util.find_spec = lambda name, *more: None if name == 'prometheus_client' else real(name, *more)\n"
    )
    without = Conditions(environment={"PYTHONPATH": str(hidden)})
    assert front.start(conditions=without).stop().status == 0
    with_metrics(front)
    ran = front.run(conditions=without)
    assert (ran.status, ran.errors) == (2, "front: metrics: Python's prometheus_client isn't installed; Debian has it in python3-prometheus-client\n")


def test_no_token_and_no_line_of_a_bid_is_shown(front: Front) -> None:
    port = with_metrics(front)
    front.start()
    ann = front.client("ann")
    assert ann.ask("BID x 1 a 31400") == "OK 1"
    text = get(port, "/metrics")[2].decode()
    assert "31400" not in text and token_of("ann") not in text


@pytest.mark.slow
def test_prometheus_takes_metrics_and_rules_as_they_are(front: Front, lack: Lack) -> None:
    """Needs the Debian package prometheus, which has promtool."""
    if shutil.which("promtool") is None:
        lack("promtool isn't there: `apt-get install prometheus`")
    ran = subprocess.run(["promtool", "check", "rules", RULES], capture_output=True, text=True, timeout=SECONDS, check=False)
    assert ran.returncode == 0, ran.stdout + ran.stderr
    port = with_metrics(front)
    front.start()
    assert front.client("ann").ask("BID x 1 a 100") == "OK 1"
    shown = get(port, "/metrics")[2]
    ran = subprocess.run(["promtool", "check", "metrics"], input=shown.decode(), capture_output=True, text=True, timeout=SECONDS, check=False)
    said = [line for line in ran.stderr.splitlines() if not line.startswith("process_") and "_created" not in line]
    assert said == [], ran.stderr


@pytest.mark.slow
def test_a_real_prometheus_scrapes_under_load(front: Front, room: Path, lack: Lack) -> None:
    """Needs the Debian package prometheus. What it has gathered is what the clients had answered, and its rules are loaded."""
    if shutil.which("prometheus") is None:
        lack("prometheus isn't there: `apt-get install prometheus`")
    port, own = with_metrics(front), free_port()
    front.configure(limits={"lines_per_second": 100_000})
    front.start()
    (room / "prometheus.yml").write_text(
        f"global: {{scrape_interval: 1s, evaluation_interval: 1s}}\nrule_files: [{RULES}]\n"
        f"scrape_configs: [{{job_name: hpb, static_configs: [{{targets: ['{ADDRESS}:{port}']}}]}}]\n"
    )
    words = ["prometheus", f"--config.file={room}/prometheus.yml", f"--storage.tsdb.path={room}/data", f"--web.listen-address={ADDRESS}:{own}"]
    with subprocess.Popen(words, stdout=subprocess.DEVNULL, stderr=subprocess.DEVNULL) as process:
        try:
            ann, asked = front.client("ann"), 0
            end = time.monotonic() + 15
            while time.monotonic() < end:
                asked += ann.ask("SHOW").startswith("ROUND ")
            wait_until(lambda: queried(own, 'sum(hpb_front_lines_total{line="SHOW"})') == asked, 30, "Prometheus hasn't all of them")
            assert queried(own, 'up{job="hpb"}') == 1 and queried(own, "hpb_front_ready") == 1
            assert queried(own, "hpb:front_answer_seconds:p99") is not None
            assert queried(own, "ALERTS") is None
        finally:
            process.kill()


def queried(port: int, words: str) -> float | None:
    """The value of an expression in Prometheus, or None if there is none yet."""
    try:
        status, _, body = get(port, f"/api/v1/query?query={quote(words)}")
    except OSError:
        return None
    found = json.loads(body)["data"]["result"] if status == 200 else []
    return float(found[0]["value"][1]) if found else None
