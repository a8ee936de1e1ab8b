"""Statements of seals, receipts, keys, and the book of a record's seals."""
from __future__ import annotations

import hashlib
import json
import os
from pathlib import Path

import pytest

from hpb.file import state_of
from hpb.lines import Accepted
from hpb.record import Damaged, New, RecordFile
from hpb.record.segments import Reader
from hpb.rules.auction import answer, begin
from hpb.rules.writing import read_fields
from hpb.seals import openssl
from hpb.seals.book import Book
from hpb.seals.merkle import proves_consistency
from hpb.seals.receipt import NoReceipt, read_receipt
from hpb.seals.sealing import answers_of
from hpb.seals.signing import NoKey, Signer, credential_path, is_signed, make_key, read_key
from hpb.seals.statement import NoSeal, Seal, read_seal, read_signed, results_sum, sum_of

AT = "2026-12-01T12:00:00.000000Z"
DEFINITION = {
    "step": 10, "percent": 10, "stages": [80], "waivers": 1, "nodes": [{"name": "a", "parent": None, "units": 10, "opening": 100}],
    "bidders": [{"name": "x", "units": 10}, {"name": "y", "units": 10}],
}
DAY = ("BID x 1 a 100", "CLOSE 1", "BID x 2 a 110", "BID y 1 a 120", "CLOSE 2")
SEAL = Seal(3, AT, "1" * 64, 41, "2" * 64, "3" * 64, 2, 25, "4" * 64, "5" * 64, "6" * 64, "7" * 64)
TEXT = (
    f"SEAL 3 AT {AT} RECORD {'1' * 64} ENTRIES 41 ROOT {'2' * 64} LAST {'3' * 64} ROUND 2 COUNT 25 DEFINITION {'4' * 64} STATE {'5' * 64} "
    f"RESULTS {'6' * 64} KEY {'7' * 64}"
)


@pytest.fixture(scope="session")
def signer(tmp_path_factory: pytest.TempPathFactory) -> Signer:
    return make_key(str(tmp_path_factory.mktemp("key") / "key"))


def test_a_statement_is_one_line_and_comes_back() -> None:
    assert SEAL.text == TEXT and read_seal(TEXT) == SEAL
    assert read_signed(f"{TEXT} SIGNED {'8' * 128}").signature == "8" * 128


@pytest.mark.parametrize("text", [
    "", TEXT + " ", TEXT.replace("SEAL 3", "SEAL 03"), TEXT.replace("ROUND 2 ", ""), TEXT.replace("7", "A"), TEXT + "\n",
])
def test_what_is_no_statement_is_none(text: str) -> None:
    with pytest.raises(NoSeal):
        read_seal(text)


def test_sums_depend_on_salt_order_and_each_answer() -> None:
    shown = ["ROUND 2 STAGE 1 OPEN REVENUE 100 COUNT 2", "NODE a HIGH 100 x PRICE 100 MIN 110 WIN yes"]
    assert len({results_sum("aa", shown), results_sum("ab", shown), results_sum("aa", shown[::-1]), results_sum("aa", shown[:1]), sum_of("aa", b"")}) == 5
    # printf 'aa\nb\n' | sha256sum
    assert results_sum("aa", ["b"]) == sum_of("aa", b"b\n") == "710eac1bfef021be068ef46654cb88a1202ab195371c46e10fa6e94b0cd0f655"


def test_a_key_is_made_once_and_comes_back(tmp_path: Path) -> None:
    path = tmp_path / "key"
    made = make_key(str(path))
    assert path.stat().st_mode & 0o777 == 0o600
    assert read_key(str(path)).public == made.public and read_key(str(path)).sign("text") == made.sign("text")
    with pytest.raises(FileExistsError):
        make_key(str(path))
    path.chmod(0o640)
    with pytest.raises(NoKey, match="others may read or write"):
        read_key(str(path))
    assert read_key(str(path), is_credential=True).public == made.public


def test_the_library_and_openssl_agree_on_signatures(signer: Signer) -> None:
    right = signer.sign(TEXT)
    for text, signature, is_right in ((TEXT, right, True), (TEXT + " ", right, False), (TEXT, right[:-2] + "00", False), (TEXT, "00" * 64, False)):
        assert is_signed(signer.public, text, signature) == openssl.is_signed(signer.public, text, signature) == is_right


def test_a_pipe_is_no_key(tmp_path: Path) -> None:
    """It isn't waited for."""
    os.mkfifo(tmp_path / "key")
    with pytest.raises(NoKey, match="is no regular file"):
        read_key(str(tmp_path / "key"))


def test_a_credential_lies_where_systemd_says(monkeypatch: pytest.MonkeyPatch) -> None:
    monkeypatch.setenv("CREDENTIALS_DIRECTORY", "/run/credentials/auction.service")
    assert credential_path("seal") == "/run/credentials/auction.service/seal"
    monkeypatch.delenv("CREDENTIALS_DIRECTORY")
    with pytest.raises(NoKey, match="LoadCredential=seal:FILE"):
        credential_path("seal")


def test_without_the_library_a_key_says_so(monkeypatch: pytest.MonkeyPatch, tmp_path: Path) -> None:
    monkeypatch.setattr("importlib.util.find_spec", lambda name: None)
    with pytest.raises(NoKey, match="python3-cryptography"):
        make_key(str(tmp_path / "key"))
    assert not (tmp_path / "key").exists()


# The book.


def written(path: Path, signer: Signer, most_segment: int = 4_000_000) -> tuple[RecordFile, Book]:
    """A record with three bids and two closes, each sealed."""
    record = RecordFile(str(path), most_segment)
    record.open()
    record.begin(DEFINITION)
    book = Book(str(path), signer)
    book.read()
    record.book = book
    auction = begin(read_fields(DEFINITION))
    for line in DAY:
        auction, told = answer(auction, line)
        assert told == Accepted(auction.count)
        accept(record, line, auction.count)
        if line.startswith("CLOSE "):
            seal(record, answers_of(auction), auction.round - 1, auction.count)
            assert [one.signed.seal.number for one in book.synced()] == [len(book.seals)]
    return record, book


def accept(record: RecordFile, line: str, number: int) -> None:
    record.write([New("accepted", {"name": "ann", "line": line, "answer": f"OK {number}"}, AT)])


def seal(record: RecordFile, answers: list[str], round_: int, count: int) -> None:
    record.write([New("seal", {"round": round_, "count": count, "answers": answers}, AT)])


def test_a_seal_has_the_state_to_which_the_commands_lead(tmp_path: Path, signer: Signer) -> None:
    record, book = written(tmp_path / "R", signer)
    auction, states = begin(read_fields(DEFINITION)), list[bytes]()
    for line in DAY:
        auction, _ = answer(auction, line)
        states += [state_of(auction)] * line.startswith("CLOSE ")
    salts = [entry["salt"] for entry, _ in Reader(str(tmp_path / "R")).entries() if entry["kind"] == "seal"]
    assert [one.signed.seal.state for one in book.seals] == [sum_of(salt, state) for salt, state in zip(salts, states, strict=True)]
    # At a front's end there is no state; and none is known if a bidder's last command came by another way.
    seal(record, [], 0, 5)
    seal(record, [line.replace("TICKET 1", "TICKET 2") for line in answers_of(auction)], 2, 6)
    record.close()
    salts = [entry["salt"] for entry, _ in Reader(str(tmp_path / "R")).entries() if entry["kind"] == "seal"]
    assert [one.signed.seal.state for one in book.seals[2:]] == [sum_of(salt, b"") for salt in salts[2:]]


@pytest.mark.parametrize("most_segment", [4_000_000, 600])
def test_a_book_that_reads_the_record_is_the_one_that_saw_it_written(tmp_path: Path, signer: Signer, most_segment: int) -> None:
    record, book = written(tmp_path / "R", signer, most_segment)
    again = Book(str(tmp_path / "R"), signer)
    again.read()
    record.close()
    assert (again.seals, again.closed, again.tree.root()) == (book.seals, 5, book.tree.root())
    for number in range(1, 6):
        assert again.receipt(number) == book.receipt(number)
        found = book.receipt(number)
        assert found and not read_receipt(found.receipt).fault()
        assert found.line == json.loads(read_receipt(found.receipt).entry)["line"]
    assert not book.receipt(6) and not book.receipt(0) and not again.other_keys
    assert len(again.unstamped()) == 2


def test_a_seal_comes_with_the_proof_that_it_goes_on_from_the_one_before(tmp_path: Path, signer: Signer) -> None:
    record, book = written(tmp_path / "R", signer)
    record.close()
    lines = [book.seal_line(number) for number in range(4)]
    assert lines[0] is None and lines[3] is None and lines[1] and lines[1].endswith(" STAMPED - CONSISTENCY -")
    assert lines[2]
    first, second = (one.signed.seal for one in book.seals)
    proof = [bytes.fromhex(one) for one in lines[2].rsplit(" ", 1)[1].split(",")]
    assert proves_consistency(first.entries, second.entries, proof, bytes.fromhex(first.root), bytes.fromhex(second.root))


def test_a_receipt_is_empty_until_a_seal_is_on_the_disk(tmp_path: Path, signer: Signer) -> None:
    record, book = written(tmp_path / "R", signer)
    accept(record, "BID x 3 a 140", 6)
    found = book.receipt(6)
    assert found and found.line == "BID x 3 a 140" and not found.receipt
    seal(record, [], 0, 6)
    found = book.receipt(6)
    assert found and not found.receipt and book.seal_line(3) is None
    book.synced()
    found = book.receipt(6)
    assert found and found.receipt and book.seal_line(3)
    record.close()


def test_a_receipt_leads_to_the_last_seal_on_the_disk(tmp_path: Path, signer: Signer) -> None:
    record, book = written(tmp_path / "R", signer)
    for number in (2, 3):
        found = book.receipt(1)
        assert found and read_receipt(found.receipt).signed.seal.number == number and not read_receipt(found.receipt).fault()
        seal(record, [], 0, 5)
        book.synced()
    record.close()


def test_a_receipt_of_an_entry_that_was_changed_on_the_disk_says_so(tmp_path: Path, signer: Signer) -> None:
    path = tmp_path / "R"
    record, book = written(path, signer)
    record.close()
    before = path.read_bytes()
    path.write_bytes(before.replace(b"BID x 1 a 100", b"BID x 1 a 190"))
    with pytest.raises(Damaged, match="entry 2 isn't the one that was written"):
        book.receipt(1)
    lines = before.splitlines(keepends=True)
    content = lines[1][65:-1].replace(b"BID x 1 a 100", b"BID x 1 a 190")
    path.write_bytes(b"".join([lines[0], hashlib.sha256(content).hexdigest().encode() + b" " + content + b"\n", *lines[2:]]))
    with pytest.raises(Damaged, match="entry 2 isn't the one that was written"):
        book.receipt(1)


def test_seals_of_another_key_are_named_and_those_of_other_entries_refused(tmp_path: Path, signer: Signer) -> None:
    path = tmp_path / "R"
    record, _ = written(path, signer)
    record.close()
    other = Book(str(path), make_key(str(tmp_path / "other")))
    other.read()
    assert other.other_keys == [signer.public]
    lines = path.read_bytes().splitlines(keepends=True)
    signature = b'"signature":"'
    begin = lines[3].index(signature) + len(signature)
    other_signature = lines[3][65:begin] + (b"1" if lines[3][begin : begin + 1] == b"0" else b"0") + lines[3][begin + 1 : -1]
    hashed = hashlib.sha256(other_signature).hexdigest().encode() + b" " + other_signature + b"\n"
    for changed, said in (
        ([lines[0], lines[2], lines[1], *lines[3:]], "entry 4: seal 1 isn't that of the entries before it"),
        ([lines[0], lines[1].replace(b"a 100", b"a 190"), *lines[2:]], "entry 2: its hash isn't that of its text"),
        ([*lines[:3], hashed], "the signature of seal 1 isn't right"),
    ):
        path.write_bytes(b"".join(changed))
        with pytest.raises(Damaged, match=said):
            Book(str(path), signer).read()


@pytest.mark.parametrize("text", ["", "{}", "[]", "RECEIPT 1 {}", '{"receipt":1}', '{"receipt":1,"hash":1,"signature":"","path":[]}'])
def test_what_is_no_receipt_is_none(text: str) -> None:
    with pytest.raises(NoReceipt):
        read_receipt(text)


def test_a_receipt_whose_parts_dont_fit_is_wrong(tmp_path: Path, signer: Signer) -> None:
    record, book = written(tmp_path / "R", signer)
    record.close()
    found = book.receipt(3)
    assert found
    fields = json.loads(found.receipt)
    for changed in (
        {"entry": fields["entry"].replace("a 110", "a 120")}, {"hash": "0" * 64}, {"path": fields["path"][:-1]},
        {"seal": fields["seal"].replace("ENTRIES 7", "ENTRIES 6")}, {"path": [*fields["path"], "0" * 64]},
    ):
        assert json.loads(found.receipt) != {**fields, **changed}
        assert read_receipt(json.dumps({**fields, **changed})).fault() == "receipt"
    assert not read_receipt(f"RECEIPT 3 {found.receipt}\n").fault()
