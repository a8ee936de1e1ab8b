"""Both checkers on the vectors of sealed records: each names the fault of a case, and nothing else."""

from __future__ import annotations

import base64
import functools
import gzip
import json
import os
import shutil
import subprocess
import tempfile
from collections.abc import Iterator
from pathlib import Path
from typing import Any

import pytest
from checkers import SECONDS, VERIFY, by_both, lay_out
from harness.fronts import tool_words, with_package

from hpb.report.archive import vectors

VECTORS: dict[str, Any] = json.loads(vectors())


@functools.cache
def unpacked(text: str) -> bytes:
    return gzip.decompress(base64.b64decode(text))


@pytest.fixture
def room() -> Iterator[Path]:
    with tempfile.TemporaryDirectory(dir="/dev/shm" if os.access("/dev/shm", os.W_OK) else None) as folder:
        yield Path(folder)


def bundle_of(case: dict[str, Any], folder: Path) -> Path:
    """The bundle of a case."""
    segments = case.get("segments") or [case["record"]]
    lines = [[VECTORS["lines"][line - 1] if isinstance(line, int) else line for line in part] for part in segments]
    files: dict[str, str | bytes] = {
        "definition.json": case.get("definition", VECTORS["definition"]), "authority.pem": VECTORS["authority"],
        "key.txt": "".join(f"{key}\n" for key in case.get("keys", VECTORS["keys"])),
        **{f"receipts/{number}": f"{receipt}\n" for number, receipt in enumerate(case.get("receipts", []))},
    }
    if (file := case.get("file", VECTORS["file"])) is not None:
        files["auction.hpb"] = unpacked(file)
    if "seals" in case:
        files["seals.txt"] = "".join(f"{line}\n" for line in case["seals"])
    lay_out(folder, lines, files)
    if "tail" in case:
        with open(folder / "auction.record", "a") as record:
            record.write(case["tail"])
    return folder


@pytest.mark.timeout(600)
@pytest.mark.parametrize("place", range(4))
def test_each_case_is_found_and_named_by_both_checkers(place: int, room: Path) -> None:
    cases = VECTORS["cases"][place::4]
    folders = [bundle_of(case, room / str(number)) for number, case in enumerate(cases)]
    for case, found in zip(cases, by_both(folders), strict=True):
        assert found == sorted(case["found"]), (case["name"], found)


@pytest.mark.timeout(600)
@pytest.mark.parametrize("words", [tool_words("verify"), [shutil.which("node") or "node", str(VERIFY)]], ids=["python", "node"])
def test_the_programs_end_with_a_status_for_what_they_find(words: list[str], room: Path) -> None:
    right, changed = (bundle_of(case, room / case["name"]) for case in VECTORS["cases"][:2])
    unread = bundle_of(VECTORS["cases"][0], room / "unread")
    (unread / "seals.txt").write_text("SEAL 1\n")
    for folder, status, said in ((right, 0, "All of this is right.\n"), (changed, 1, "FOUND changed 1\n"), (unread, 2, "seals.txt: ")):
        ran = subprocess.run([*words, str(folder)], capture_output=True, text=True, timeout=SECONDS, env=with_package(dict(os.environ)))
        assert ran.returncode == status and said in (ran.stderr if status == 2 else ran.stdout), ran


def test_the_cases_take_each_entry_in_each_way() -> None:
    names = [case["name"] for case in VECTORS["cases"]]
    record = VECTORS["cases"][0]["record"]
    assert len(set(names)) == len(names) and record == list(range(1, len(record) + 1))
    for number in record:
        for way in ("is changed", "is left out", "is doubled", "is changed, with new hashes from there on", *(["is moved"] if number < len(record) else [])):
            assert f"entry {number} {way}" in names
    kinds = {json.loads(line[65:])["kind"] for line in VECTORS["lines"]}
    assert kinds == {"begin", "started", "accepted", "seal", "stamp", "stopped", "sealed"}


def test_the_cases_have_each_word_that_both_checkers_find() -> None:
    """A report is checked by the first one alone."""
    from hpb.seals.findings import WORDS

    assert {found.split()[0] for case in VECTORS["cases"] for found in case["found"]} == set(WORDS) - {"command", "report", "record"}
