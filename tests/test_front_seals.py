"""A front with seals: each close is sealed, commands have receipts, and a changed entry is found at the next start."""

from __future__ import annotations

import hashlib
import json
import subprocess
from collections.abc import Callable
from pathlib import Path

import pytest
from fronts import Caller, Front, StartsNot
from harness.serving import read_line

from hpb.file import auctions_in, state_of
from hpb.record import read_record
from hpb.record.entries import entry_line
from hpb.seals.receipt import read_receipt
from hpb.seals.statement import read_seal, read_signed, results_sum, sum_of

SEALS = {"seals": {"key": "seal.key"}}


@pytest.fixture
def sealing(front: Front) -> Front:
    """A front with a key of seals, which isn't started yet."""
    front.tables = {**front.tables, **SEALS}
    front.write_config()
    made = front.run("--make-seal-key")
    assert made.status == 0 and len(made.output) == 65, made
    front.public = made.output.strip()  # type: ignore[attr-defined]
    return front


def public_of(front: Front) -> str:
    return str(front.public)  # type: ignore[attr-defined]


def day(front: Front) -> list[str]:
    """Two rounds: the first with two bids, the second without any. Gives the lines on standard output after each close."""
    assert front.process
    told = []
    for lines in ([("ann", "BID x 1 a 100"), ("bob", "BID y 1 b 150"), ("desk", "CLOSE 1")], [("desk", "CLOSE 2 ENDING")]):
        for name, line in lines:
            assert front.ask(name, line).startswith("OK ")
        told += [read_line(front.process, 20), read_line(front.process, 20)]
    return told


def test_a_key_is_made_once_with_mode_600_and_openssl_reads_it(sealing: Front) -> None:
    key = sealing.folder / "seal.key"
    before = key.read_bytes()
    assert key.stat().st_mode & 0o777 == 0o600
    shown = subprocess.run(["openssl", "pkey", "-in", str(key), "-pubout", "-outform", "DER"], capture_output=True, check=True, timeout=20)
    assert shown.stdout[-32:].hex() == public_of(sealing)
    again = sealing.run("--make-seal-key")
    assert again.status == 2 and "is there already, and nothing is written over it" in again.errors
    assert key.read_bytes() == before


def test_each_close_is_sealed_and_all_may_ask_for_the_seals(sealing: Front) -> None:
    sealing.start()
    assert sealing.ask("public", "SEAL") == "ERR front unknown"
    told = day(sealing)
    entries, _ = read_record(sealing.record)
    seals = [entry for entry in entries if entry["kind"] == "seal"]
    assert [line.split()[0] for line in told] == ["ROUND", "SEAL", "ROUND", "SEAL"]
    for number, (entry, line) in enumerate(zip(seals, told[1::2]), 1):
        signed = read_signed(line)
        seal = signed.seal
        assert (seal.number, seal.entries, seal.last) == (number, entry["entry"] - 1, entry["before"])
        assert seal.text == entry["seal"] and seal.at == entry["at"] and seal.key == public_of(sealing)
        assert seal.record == sealing.record.read_text()[:64]
        assert seal.results == results_sum(entry["salt"], entry["answers"])
        assert entry["answers"][0] == told[2 * number - 2].split(" RECORD ")[0]
        assert sealing.ask("public", f"SEAL {number}").startswith(f"{line} STAMPED - CONSISTENCY ")
    assert [(read_signed(line).seal.round, read_signed(line).seal.count) for line in told[1::2]] == [(1, 3), (2, 4)]
    assert sealing.ask("public", "SEAL") == sealing.ask("ann", "SEAL 2")
    assert sealing.ask("ann", "SEAL 3") == "ERR front unknown" and sealing.ask("ann", "SEAL x") == "ERR front line"
    assert sealing.stop().status == 0
    # The file went on behind the first close, and still shows the state of both.
    states = {auction.count: state_of(auction) for auction in auctions_in(sealing.file.read_bytes())}
    for entry in seals:
        seal = read_seal(entry["seal"])
        assert seal.state == sum_of(entry["salt"], states[seal.count])


def test_each_entry_has_a_salt_of_its_own_behind_the_first(sealing: Front) -> None:
    sealing.start()
    day(sealing)
    sealing.stop()
    entries, _ = read_record(sealing.record)
    salts = [entry["salt"] for entry in entries[1:]]
    assert len(set(salts)) == len(salts) and all(len(salt) == 32 for salt in salts)


def test_a_command_has_its_receipt_once_it_is_sealed_and_for_its_sender_alone(sealing: Front) -> None:
    sealing.start()
    assert sealing.ask("ann", "BID x 1 a 100") == "OK 1"
    assert sealing.ask("ann", "RECEIPT 1") == "ERR front unsealed"
    assert sealing.ask("bob", "BID y 1 b 150") == "OK 2"
    assert sealing.ask("desk", "CLOSE 1") == "OK 3"
    answer = sealing.ask("ann", "RECEIPT 1")
    receipt = read_receipt(answer)
    assert (receipt.fields["line"], receipt.fields["answer"], receipt.fields["name"]) == ("BID x 1 a 100", "OK 1", "ann")
    assert hashlib.sha256(receipt.entry.encode()).hexdigest() == receipt.hash and not receipt.fault()
    assert f"{receipt.hash} {receipt.entry}" in sealing.record.read_text()
    # Another's command, and one that there isn't, look alike.
    for number in (2, 3, 4, 9):
        assert sealing.ask("ann", f"RECEIPT {number}") == "ERR front unknown"
    assert read_receipt(sealing.ask("desk", "RECEIPT 3")).fields["line"] == "CLOSE 1"
    assert sealing.ask("desk", "RECEIPT 1") == "ERR front unknown"
    assert sealing.ask("public", "RECEIPT 1") == "ERR front rights"
    assert sealing.ask("ann", "RECEIPT 0") == "ERR front line"


def test_without_a_key_nothing_is_sealed(front: Front) -> None:
    front.start()
    assert [front.ask("ann", line) for line in ("BID x 1 a 100", "SEAL", "RECEIPT 1")] == ["OK 1", "ERR front line", "ERR front line"]
    assert front.ask("desk", "CLOSE 1") == "OK 2"
    assert front.stop().status == 0
    assert not front.entries("seal") and "salt" not in front.record.read_text()


def test_a_record_without_seals_goes_on_with_them(front: Front) -> None:
    """From the next close on. The close before it has none."""
    front.start()
    assert front.ask("ann", "BID x 1 a 100") == "OK 1" and front.ask("desk", "CLOSE 1") == "OK 2" and front.ask("ann", "BID x 2 a 110") == "OK 3"
    assert front.stop().status == 0
    front.tables = {**front.tables, **SEALS}
    front.write_config()
    assert front.run("--make-seal-key").status == 0
    front.start()
    assert front.ask("ann", "RECEIPT 1") == "ERR front unsealed"
    assert front.ask("desk", "CLOSE 2") == "OK 4"
    assert not read_receipt(front.ask("ann", "RECEIPT 1")).fault()
    assert front.ask("ann", "SEAL").split(" ")[1] == "1"
    assert front.stop().status == 0


@pytest.mark.parametrize("round_", range(4))
def test_a_front_that_is_killed_at_a_close_seals_it_at_the_next_start(sealing: Front, round_: int) -> None:
    """However far the seal had come: no bid of the next round comes before it."""
    sealing.start()
    assert sealing.ask("ann", "BID x 1 a 100") == "OK 1"
    client = sealing.client("desk")
    client.send(b"CLOSE 1\n")
    if round_:
        client.line()
    if round_ > 2:
        assert sealing.process
        read_line(sealing.process, 20)
    sealing.kill()
    sealing.start()
    assert Caller(sealing, "desk").ask("CLOSE 1") == "OK 2"
    assert Caller(sealing, "ann").ask("BID x 2 a 110") == "OK 3"
    assert not read_receipt(sealing.ask("ann", "RECEIPT 1")).fault()
    assert sealing.stop().status == 0
    seals = sealing.entries("seal")
    found = [read_signed(f"{entry['seal']} SIGNED {entry['signature']}").seal for entry in seals]
    assert [(seal.round, seal.count) for seal in found] == [(1, 2), (0, 3)]
    numbers = {entry["line"]: entry["entry"] for entry in sealing.entries("accepted")}
    assert numbers["CLOSE 1"] < seals[0]["entry"] < numbers["BID x 2 a 110"]


def test_a_record_that_was_rewritten_with_new_hashes_is_refused_at_the_start(sealing: Front) -> None:
    """As the front itself would have written it, but for the seals."""
    sealing.start()
    day(sealing)
    assert sealing.stop().status == 0
    rewrite(sealing.record, 3, lambda entry: {**entry, "line": "BID x 1 a 110"})
    (sealing.folder / "R.asked").unlink()
    with pytest.raises(StartsNot) as told:
        sealing.start()
    assert "the record was changed: entry 6: seal 1 isn't that of the entries before it" in told.value.ran.errors


def rewrite(path: Path, number: int, change: object) -> None:
    """Changes an entry, and gives all from there on new hashes."""
    from hpb.record import Place

    place, lines = Place(), []
    for line in path.read_bytes().splitlines():
        entry = json.loads(line[65:])
        entry = change(entry) if entry["entry"] == number else entry  # type: ignore[operator]
        fields = {name: value for name, value in entry.items() if name not in ("entry", "before", "at", "kind", "synced")}
        made, place = entry_line(place, entry["kind"], fields, entry["at"], entry.get("synced"))
        lines.append(made)
    path.write_bytes(b"".join(lines))


@pytest.mark.parametrize(("mode", "said"), [(0o640, "others may read or write"), (0o604, "others may read or write")])
def test_a_key_that_others_may_read_isnt_taken(sealing: Front, mode: int, said: str) -> None:
    (sealing.folder / "seal.key").chmod(mode)
    ran = sealing.run()
    assert ran.status == 2 and said in ran.errors


def test_what_is_no_key_isnt_taken(sealing: Front) -> None:
    key = sealing.folder / "seal.key"
    makes: list[tuple[Callable[[], object], str]] = [
        (lambda: key.write_text("no key\n"), "has no key in PEM"),
        (key.unlink, "No such file or directory"),
    ]
    for make, said in makes:
        make()
        ran = sealing.run()
        assert ran.status == 2 and said in ran.errors, ran
    subprocess.run(["openssl", "genpkey", "-algorithm", "RSA", "-out", str(key)], check=True, capture_output=True, timeout=60)
    key.chmod(0o600)
    ran = sealing.run()
    assert ran.status == 2 and "isn't one of Ed25519" in ran.errors


@pytest.mark.parametrize(("table", "said"), [
    ({}, "seals has to have a key or a credential"), ({"key": "k", "credential": "c"}, "one of them alone"),
    ({"key": "k", "keys": "k"}, "seals.keys: there is no such field"), ({"credential": "a/b"}, "without a folder"),
    ({"key": "R"}, "is the record already"), ({"credential": "c"}, "systemd gave no credentials"), ({"key": 7}, "seals.key has to be a text"),
])
def test_a_table_of_seals_that_cant_be_is_refused(front: Front, table: dict[str, object], said: str) -> None:
    front.tables = {**front.tables, "seals": table}
    front.write_config()
    ran = front.run()
    assert ran.status == 2 and said in ran.errors, ran
