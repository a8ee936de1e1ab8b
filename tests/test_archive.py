"""A bundle of an auction, checked as a regulator would: from its folder alone, by its README."""

from __future__ import annotations

import hashlib
import json
import os
import re
import shutil
import subprocess
import textwrap
from collections.abc import Sequence
from pathlib import Path

import pytest
from fronts import Front
from harness.fronts import tool_words, with_package
from harness.serving import wait_until
from stamps import Authority

SECONDS = 120
# No package, and no more variables than a shell needs.
PLAIN = {"PATH": "/usr/bin:/bin", "HOME": "/nonexistent", "LC_ALL": "C"}
DAY = [("ann", "BID x 1 a 100"), ("bob", "BID y 1 b 150"), ("desk", "CLOSE 1"), ("ann", "BID x 2 a 110"), ("desk", "CLOSE 2"), ("desk", "CLOSE 3 ENDING")]


def run(words: Sequence[str | Path], folder: Path, status: int = 0) -> str:
    """The output of a command in a folder, with nothing of the package round it."""
    ran = subprocess.run([str(word) for word in words], cwd=folder, env=PLAIN, capture_output=True, text=True, timeout=SECONDS)
    assert ran.returncode == status, (words, ran)
    return ran.stdout


def tool(name: str, *words: str | Path) -> subprocess.CompletedProcess[str]:
    return subprocess.run([*tool_words(name), *map(str, words)], capture_output=True, text=True, timeout=SECONDS, env=with_package(dict(os.environ)))


@pytest.fixture
def over(front: Front, tmp_path: Path) -> Front:
    """A front that has ended in order behind an auction that is over, with seals and stamps. `ann.receipt` has a receipt."""
    (tmp_path / "authority").mkdir()
    with Authority(tmp_path / "authority") as authority:
        (front.folder / "authority.pem").write_bytes(authority.certificates.read_bytes())
        front.tables = {**front.tables, "seals": {"key": "seal.key", "stamps": authority.url, "authority": "authority.pem"}}
        front.write_config()
        (front.folder / "key.txt").write_text(front.run("--make-seal-key").output)
        front.start()
        for name, line in DAY:
            assert front.ask(name, line).startswith("OK "), line
        (front.folder / "ann.receipt").write_text(front.ask("ann", "RECEIPT 1") + "\n")
        (front.folder / "kept.txt").write_text(front.ask("bob", "SEAL 2") + "\n")
        wait_until(lambda: len(front.entries("stamp")) == 3, SECONDS, "the stamps don't come")
        assert front.stop().status == 0
    return front


def words_of(front: Front, folder: Path) -> list[str | Path]:
    files = front.folder
    return [
        "--record", front.record, "--file", front.file, "--key", files / "key.txt", "--authority", files / "authority.pem", "--receipt", files / "ann.receipt",
        "--program", front.program.path, folder,
    ]


@pytest.mark.timeout(600)
def test_a_bundle_is_checked_from_its_folder_alone_as_its_readme_says(over: Front, tmp_path: Path) -> None:
    made = tool("archive", *words_of(over, tmp_path / "made"))
    assert made.returncode == 0, made
    bundle = Path(shutil.move(tmp_path / "made", tmp_path / "given"))
    assert made.stdout.splitlines()[-1] == f"SHA256SUMS {hashlib.sha256((bundle / 'SHA256SUMS').read_bytes()).hexdigest()}"
    readme = (bundle / "README.md").read_text()
    _, _, at_once, line, program, *by_hand = blocks(readme)
    for command in at_once.splitlines():
        told = run(["bash", "-euc", command.replace("node ", f"{shutil.which('node')} ")], bundle)
        assert told == "" if "sha256sum" in command else told.endswith("All of this is right.\n") and "FOUND" not in told
    look_at_commands(bundle, [line, *by_hand])
    assert run(["python3", "-I", "-c", program], bundle) == f"{len((bundle / 'auction.record').read_text().splitlines())} entries and all roots are right\n"
    look_at_pages(bundle, readme)
    # The report names record, file and seals.
    (bundle / "report.html").write_text((bundle / "report.html").read_text().replace(hashlib.sha256((bundle / "auction.hpb").read_bytes()).hexdigest(), "0" * 64))
    assert "FOUND report 0\n" in run(["python3", "hpb-verify.pyz", "."], bundle, 1)


def blocks(page: str) -> list[str]:
    """The commands and programs of a page: its indented blocks."""
    found = re.findall(r"(?<=\n\n)((?: {7}| {4})\S.*\n(?:(?: {4,}.*)?\n)*)", page)
    return [textwrap.dedent(block).strip("\n") for block in found]


def look_at_commands(bundle: Path, by_hand: Sequence[str]) -> None:
    """Runs the README's commands for a check by hand, as they stand there."""
    line, signature, sums, stamp = by_hand
    record = (bundle / "auction.record").read_text().splitlines()
    assert run(["bash", "-euc", line], bundle) == f"{record[0][:64]}  -\n"
    assert run(["bash", "-euc", signature], bundle) == "Signature Verified Successfully\n"
    statement, *told = run(["bash", "-euc", sums], bundle).splitlines()
    said = dict(re.findall(r"([A-Z]+) (\S+)", statement))
    assert [line.split()[0] for line in told] == [said["RESULTS"], said["STATE"], said["DEFINITION"]]
    entry = next(json.loads(line[65:]) for line in record if '"kind":"seal"' in line)
    assert entry["seal"] == (bundle / "seals/1/statement.txt").read_text()
    shown, verified = run(["bash", "-euc", stamp], bundle).split("Extensions:")
    assert "Time stamp: " in shown and verified.endswith("Verification: OK\n")


def look_at_pages(bundle: Path, readme: str) -> None:
    """A page a round, whose sums add up, and a table in which each file stands."""
    assert sorted(path.name for path in (bundle / "rounds").iterdir()) == ["round-1.html", "round-2.html", "round-3.html"]
    page = (bundle / "rounds" / "round-1.html").read_text()
    assert "a 100 + b 150 = 250" in page.replace("<wbr>", "") and "Not right" not in page
    listed = re.findall(r"^\| `([^`]+)` \|", readme, re.MULTILINE)
    for path in bundle.iterdir():
        name = f"{path.name}/" if path.is_dir() else path.name
        assert name in listed or name in ("README.md", "state.mjs"), name


@pytest.mark.timeout(600)
def test_no_bundle_is_made_of_what_isnt_right(over: Front, tmp_path: Path) -> None:
    folder = tmp_path / "made"
    words = words_of(over, folder)
    before = over.record.read_bytes()
    over.record.write_bytes(before.replace(b"BID x 1 a 100", b"BID x 1 a 190"))
    ran = tool("archive", *words)
    assert ran.returncode == 1 and "its hash isn't that of its text" in ran.stderr and not folder.exists()
    over.record.write_bytes(before)
    folder.mkdir()
    ran = tool("archive", *words)
    assert ran.returncode == 1 and "File exists" in ran.stderr and not list(folder.iterdir())


@pytest.mark.timeout(600)
def test_the_tool_takes_what_bidders_kept_and_the_report(over: Front, tmp_path: Path) -> None:
    page = tmp_path / "page.html"
    made = tool("report", over.file, "--record", over.record, "--program", over.program.path)
    assert made.returncode == 0, made
    page.write_text(made.stdout)
    words: list[str | Path] = ["--record", over.record, "--file", over.file, "--key", (over.folder / "key.txt").read_text().strip(), "--report", page]
    kept: list[str | Path] = ["--seals", over.folder / "kept.txt", "--receipt", over.folder / "ann.receipt"]
    ran = tool("verify", *words, *kept)
    assert ran.returncode == 0 and not ran.stderr, ran
    for said in ("Kept seals: 1.", "Receipt: 'BID x 1 a 100', OK 1, of ann", "Report: it names this file", "which aren't checked", "All of this is right."):
        assert said in ran.stdout
    wrong = tool("verify", *words[:4], "--key", "0" * 64)
    assert wrong.returncode == 1 and "FOUND key " in wrong.stdout
    missing = tool("verify", *words, "--receipt", page)
    assert missing.returncode == 2 and "it is no receipt" in missing.stderr
    nothing = tool("verify", "--record", tmp_path / "none")
    assert nothing.returncode == 1 and "FOUND record 0" in nothing.stdout
