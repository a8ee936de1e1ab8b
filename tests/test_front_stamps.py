"""Seals are stamped by an authority, in their order; without a network the auction goes on, and the stamps come later."""

from __future__ import annotations

import base64
import os
import signal
import subprocess
from collections.abc import Callable, Iterator
from pathlib import Path

import pytest
from fronts import Front
from harness.fronts import children_of, words_of
from harness.serving import wait_until
from stamps import Authority

from hpb.record import Entry
from hpb.seals.openssl import stamp_fault
from hpb.seals.statement import signed_seal_of

SECONDS = 90


@pytest.fixture
def authority(tmp_path: Path) -> Iterator[Authority]:
    folder = tmp_path / "authority"
    folder.mkdir()
    with Authority(folder) as made:
        yield made


@pytest.fixture
def stamped(front: Front, authority: Authority) -> Front:
    """A front whose seals are stamped."""
    (front.folder / "authority.pem").write_bytes(authority.certificates.read_bytes())
    front.tables = {**front.tables, "seals": {"key": "seal.key", "stamps": authority.url, "authority": "authority.pem"}}
    front.write_config()
    assert front.run("--make-seal-key").status == 0
    return front


def stamps_of(front: Front) -> list[Entry]:
    return front.entries("stamp")


def close(front: Front, number: int) -> None:
    assert front.ask("ann", f"BID x {number} a {100 + 20 * number}").startswith("OK ")
    assert front.ask("desk", f"CLOSE {number}").startswith("OK ")


def test_each_seal_is_stamped_and_openssl_alone_checks_it(stamped: Front, authority: Authority) -> None:
    stamped.start()
    for number in (1, 2):
        close(stamped, number)
    wait_until(lambda: len(stamps_of(stamped)) == 2, SECONDS, "the stamps don't come")
    shown = stamped.ask("public", "SEAL")
    assert stamped.stop().status == 0
    seals = [signed_seal_of(entry) for entry in stamped.entries("seal")]
    for number, entry in enumerate(stamps_of(stamped), 1):
        token = base64.b64decode(entry["token"])
        (stamped.folder / "data").write_bytes(seals[number - 1].stamped)
        (stamped.folder / "token").write_bytes(token)
        words = f"ts -verify -data data -in token -token_in -CAfile {authority.certificates}"
        subprocess.run(["openssl", *words.split()], cwd=stamped.folder, check=True, capture_output=True, timeout=60)
        assert entry["seal"] == number and not stamp_fault(token, seals[number - 1].stamped, authority.certificates.read_bytes())
        assert stamp_fault(token, seals[2 - number].stamped, authority.certificates.read_bytes())
    assert f" STAMPED {stamps_of(stamped)[1]['time']} CONSISTENCY " in shown
    assert [line["outcome"] for line in stamped.log_lines("stamp")] == ["stamped", "stamped"]


def test_without_a_network_the_auction_goes_on_and_stamps_come_later_in_order(stamped: Front, authority: Authority) -> None:
    """Some at once when it is back, and the others after another start."""
    authority.stop()
    stamped.start()
    for number in (1, 2, 3):
        close(stamped, number)
    wait_until(lambda: len(stamped.log_lines("stamp")) >= 2, SECONDS, "no failure is told")
    assert all(line["outcome"] == "failed" and line["number"] == 1 and "refused" in str(line["why"]) for line in stamped.log_lines("stamp"))
    assert not stamps_of(stamped) and stamped.ask("public", "SEAL").split(" STAMPED ")[1].startswith("- ")
    authority.start()
    wait_until(lambda: len(stamps_of(stamped)) >= 1, SECONDS, "no stamp comes")
    authority.stop()
    assert stamped.stop().status == 0
    authority.start()
    stamped.start()
    # The fourth seal is that of the first front's end.
    wait_until(lambda: len(stamps_of(stamped)) == 4, SECONDS, "the other stamps don't come")
    assert stamped.stop().status == 0
    assert [entry["seal"] for entry in stamps_of(stamped)] == [1, 2, 3, 4]
    known = [signed_seal_of(entry) for entry in stamped.entries("seal")]
    for entry in stamps_of(stamped):
        assert not stamp_fault(base64.b64decode(entry["token"]), known[entry["seal"] - 1].stamped, authority.certificates.read_bytes())


def lies(authority: Authority, front: Front) -> None:
    authority.lies = True


def has_other_certificates(authority: Authority, front: Front) -> None:
    other = authority.folder / "other"
    other.mkdir()
    (front.folder / "authority.pem").write_bytes(Authority(other).certificates.read_bytes())


@pytest.mark.parametrize("what", [lies, has_other_certificates])
def test_a_reply_that_isnt_right_is_no_stamp(stamped: Front, authority: Authority, what: Callable[[Authority, Front], None]) -> None:
    what(authority, stamped)
    stamped.start()
    close(stamped, 1)
    wait_until(lambda: bool(stamped.log_lines("stamp")), SECONDS, "no failure is told")
    assert stamped.log_lines("stamp")[0]["outcome"] == "failed" and "the reply isn't right" in str(stamped.log_lines("stamp")[0]["why"])
    assert stamped.ask("ann", "BID x 2 a 140").startswith("OK ")
    assert stamped.stop().status == 0 and not stamps_of(stamped)


def test_a_stamper_that_is_killed_is_told_and_the_auction_goes_on(stamped: Front) -> None:
    stamped.start()
    assert stamped.process
    os.kill(next(one for one in children_of(stamped.process.pid) if b"hpb.front.stamper" in words_of(one)), signal.SIGKILL)
    close(stamped, 1)
    wait_until(lambda: bool(stamped.log_lines("stamp")), SECONDS, "nothing is told")
    assert "the process that gets stamps has ended" in str(stamped.log_lines("stamp")[0]["why"])
    assert stamped.ask("ann", "BID x 2 a 140").startswith("OK ") and stamped.stop().status == 0


@pytest.mark.parametrize(("more", "said"), [
    ({"stamps": "http://stamps.example/tsr"}, "belong together"), ({"authority": "a.pem"}, "belong together"),
    ({"stamps": "stamps.example", "authority": "a.pem"}, "is no address"), ({"stamps": "http://a/", "authority": "R"}, "is the record already"),
])
def test_a_table_of_stamps_that_cant_be_is_refused(front: Front, more: dict[str, str], said: str) -> None:
    front.tables = {**front.tables, "seals": {"key": "seal.key", **more}}
    front.write_config()
    ran = front.run()
    assert ran.status == 2 and said in ran.errors, ran
