"""Tokens, certificate and limits of a running front: changed by a file and SIGHUP, without a restart."""

from __future__ import annotations

import datetime
import os
import signal
import ssl
import subprocess
import time
from contextlib import ExitStack
from pathlib import Path

import pytest
from cryptography import x509
from cryptography.hazmat.primitives import hashes, serialization
from cryptography.hazmat.primitives.asymmetric import rsa
from cryptography.x509.oid import NameOID
from fronts import Caller, Front, make_certificate, rest_of, token_of
from harness.conditions import Conditions
from harness.serving import wait_until

READ_AGAIN = "tokens, certificate and limits were read again"
REFUSED = "the old tokens, certificate and limits stay in force"


def reload(front: Front, words: str = READ_AGAIN) -> None:
    before = front.words_said().count(words)
    front.signal(signal.SIGHUP)
    while front.words_said().count(words) == before:
        front.wait_until_said(words)


def tokens(front: Front, *words: str) -> list[list[str]]:
    """The output of `tokens`: the words of each line."""
    ran = subprocess.run(front.words("tokens", *words), capture_output=True, text=True, timeout=60)
    assert ran.returncode == 0, ran.stderr
    return [line.split() for line in ran.stdout.splitlines()]


def refused(front: Front, *words: str) -> str:
    ran = subprocess.run(front.words("tokens", *words), capture_output=True, text=True, timeout=60)
    assert (ran.returncode, ran.stdout) == (2, "")
    return ran.stderr


def test_a_token_is_added_and_revoked_while_the_front_runs(front: Front) -> None:
    front.start()
    old = front.client("ann")
    [[name, id, token]] = tokens(front, "add", "ann")
    assert (name, len(id), len(token) >= 32) == ("ann", 12, True)
    assert id == id_of(token)
    assert said_to(front, token) == "ERR front token", "it isn't known before the front is told"
    reload(front)
    new = front.client("ann", token=token)
    assert new.ask("BID x 1 a 100") == "OK 1"
    first = id_of(token_of("ann"))
    assert tokens(front, "list")[-1] == ["ann", id]
    assert tokens(front, "revoke", first) == [["ann", first]]
    assert old.ask("SHOW").endswith(" COUNT 1"), "a token is good until the front is told"
    reload(front)
    assert rest_of(old) == ["ERR front token"]
    assert new.ask("SHOW").endswith(" COUNT 1"), "another token of the same name stays"
    assert said_to(front, token_of("ann")) == "ERR front token"
    assert front.stop().status == 0


def said_to(front: Front, token: str) -> str:
    """The answer to a connection that says this token."""
    client = front.client()
    answer = client.ask(f"TOKEN {token}")
    client.close()
    return answer


def id_of(token: str) -> str:
    """By docs/FRONT.md: the first 12 hexadecimal digits of the token's SHA-256."""
    ran = subprocess.run(["sha256sum"], input=token.encode(), capture_output=True, timeout=60)
    return ran.stdout.decode()[:12]


def test_the_file_never_shows_a_token_that_was_added(front: Front) -> None:
    [[_, id, token]] = tokens(front, "add", "bob")
    text = front.tokens.read_text()
    assert token not in text and id in text
    assert front.tokens.stat().st_mode & 0o777 == 0o600
    shown = tokens(front, "list")
    assert [name for name, _ in shown] == [*front.names, "bob"] and ["bob", id] in shown
    assert not any(token_of(name) in word for row in shown for word in row for name in front.names)


def test_the_last_token_of_a_name_may_be_revoked(front: Front) -> None:
    front.start()
    carl = front.client("carl")
    tokens(front, "revoke", id_of(token_of("carl")))
    assert "carl -" in front.tokens.read_text().splitlines()
    reload(front)
    assert rest_of(carl) == ["ERR front token"]
    [[_, _, token]] = tokens(front, "add", "carl")
    assert "carl -" not in front.tokens.read_text().splitlines()
    reload(front)
    assert front.client("carl", token=token).ask("SHOW").startswith("ROUND 1 ")


def test_what_is_no_name_and_no_id_is_refused(front: Front) -> None:
    before = front.tokens.read_text()
    assert "eve is no name" in refused(front, "add", "eve")
    assert "no token has the id 0123456789ab" in refused(front, "revoke", "0123456789ab")
    assert front.tokens.read_text() == before


def test_lines_that_wait_when_a_token_goes_are_not_told(front: Front) -> None:
    """The line that the server already has is carried out, and none behind it."""
    front.start()
    ann = front.client("ann")
    os.kill(front.child("serve"), signal.SIGSTOP)
    ann.send(b"BID x 1 a 100\nBID x 2 b 100\n")
    time.sleep(0.5)
    front.write_tokens({name: token_of(name) for name in front.names if name != "ann"} | {"ann": "-"})
    reload(front)
    os.kill(front.child("serve"), signal.SIGCONT)
    assert "ERR front token" in rest_of(ann)
    desk = Caller(front, "desk")
    wait_until(lambda: desk.ask("WHO x") == "WHO x ELIGIBILITY 10 ACTIVITY 10 TICKET 1", 20, "the bid that was told")
    assert front.stop().status == 0
    assert front.program.count(front.file) == 1


@pytest.mark.parametrize(
    ("what", "word"),
    [
        ("tokens", "tokens, line 1"),
        ("mode", "others may read it"),
        ("config", "colour: there is no such field"),
        ("limits", "limits.connections"),
        ("certificate", "certificate"),
        ("pipe C", "it is no regular file"),
        ("pipe S", "it is no regular file"),
        ("pipe K", "it is no regular file"),
        ("pipe T", "it is no regular file"),
    ],
)
def test_a_bad_file_is_refused_and_the_old_one_stays(front: Front, what: str, word: str) -> None:
    front.context = make_certificate(front.folder)
    front.write_config(certificate="S", key="K")
    front.start()
    old = front.client("ann")
    if what == "tokens":
        front.tokens.write_text("eve nobody-knows-this-name\n")
    elif what == "mode":
        front.tokens.chmod(0o644)
    elif what == "config":
        front.write_config(certificate="S", key="K", colour="red")
    elif what.startswith("pipe "):
        # Nobody writes into it: a reader that waited for data would wait for ever.
        (front.folder / what[-1]).unlink()
        os.mkfifo(front.folder / what[-1], 0o600)
    elif what == "limits":
        front.limits = {"connections": 0}
        front.write_config(certificate="S", key="K")
    else:
        (front.folder / "S").write_text("no certificate\n")
    reload(front, REFUSED)
    assert word in front.words_said()
    assert old.ask("BID x 1 a 100") == "OK 1"
    assert front.client("bob").ask("SHOW").endswith(" COUNT 1")
    assert front.stop().status == 0


def test_limits_are_read_again(front: Front) -> None:
    front.start()
    first = front.client("ann")
    front.limits = {"connections": 1}
    front.write_config()
    reload(front)
    second = front.client("ann")
    assert rest_of(first) == ["ERR front many"]
    assert second.ask("SHOW").startswith("ROUND 1 ")


def test_what_a_restart_alone_changes_is_named(front: Front) -> None:
    front.start()
    front.write_config(record="another")
    front.signal(signal.SIGHUP)
    front.wait_until_said("these stay as they were until the front is started again: record")
    assert front.client("ann").ask("BID x 1 a 100") == "OK 1"


def test_a_new_certificate_is_shown_to_those_who_come(front: Front) -> None:
    front.has_board = True
    front.context = make_certificate(front.folder)
    front.write_config(certificate="S", key="K")
    front.start()
    old = front.client("ann")
    before = old.socket.getpeercert(binary_form=True)  # type: ignore[attr-defined]
    front.context = make_certificate(front.folder)
    reload(front)
    new = front.client("ann")
    assert new.socket.getpeercert(binary_form=True) != before  # type: ignore[attr-defined]
    assert old.ask("BID x 1 a 100") == "OK 1", "who is in stays in"
    front.wait_until_said(READ_AGAIN)
    end = 50
    for number in range(end):
        try:
            assert front.page("ann") == 200
            break
        except (OSError, ssl.SSLError):
            assert number < end - 1
    assert front.stop().status == 0


def certificate_until(folder: Path, days: float) -> None:
    """Makes a certificate `S` with its key `K`, valid for so many days from now."""
    key = rsa.generate_private_key(public_exponent=65_537, key_size=2_048)
    name = x509.Name([x509.NameAttribute(NameOID.COMMON_NAME, "localhost")])
    end = datetime.datetime.utcnow() + datetime.timedelta(days=days)
    builder = x509.CertificateBuilder().subject_name(name).issuer_name(name).public_key(key.public_key()).serial_number(1)
    made = builder.not_valid_before(end - datetime.timedelta(days=100)).not_valid_after(end).sign(key, hashes.SHA256())
    (folder / "S").write_bytes(made.public_bytes(serialization.Encoding.PEM))
    plain = serialization.NoEncryption()
    (folder / "K").touch(mode=0o600)
    (folder / "K").write_bytes(key.private_bytes(serialization.Encoding.PEM, serialization.PrivateFormat.PKCS8, plain))


@pytest.mark.parametrize(
    ("days", "words"),
    [
        (-1, "error: the certificate ended at "),
        (1, "warning: the certificate ends at "),
        (13.9, "warning: the certificate ends at "),
        (14.1, ""),
        (20_000, ""),
    ],
)
def test_the_end_of_a_certificate_is_told_at_the_start(front: Front, days: float, words: str, cleanup: ExitStack) -> None:
    certificate_until(front.folder, days)
    front.write_config(certificate="S", key="K")
    front.start()
    said = front.stop().errors
    assert words in said if words else "certificate" not in said


# A module that each program of Python reads before it begins.
QUICK = """
from hpb.front import certificate
certificate.LOOK_SECONDS = 1
"""


def test_the_end_of_a_certificate_is_told_daily(front: Front) -> None:
    """With a day that lasts a second."""
    certificate_until(front.folder, 5)
    front.write_config(certificate="S", key="K")
    quick = front.folder / "quick"
    quick.mkdir()
    (quick / "sitecustomize.py").write_text(QUICK)
    front.start(conditions=Conditions(environment={"PYTHONPATH": str(quick)}))
    front.wait_until_said("days. Put a new one in its place, and send SIGHUP\nfront: ")
