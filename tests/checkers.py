"""Both checkers of sealed records, on bundles that a test lays out."""

from __future__ import annotations

import argparse
import os
import shutil
import subprocess
from collections.abc import Collection, Mapping, Sequence
from pathlib import Path

import hpb
from hpb.seals.verifying import Missing, add_words, in_bundle, lines_of, verify

VERIFY = Path(hpb.__file__).parent / "seals" / "verify.mjs"
SECONDS = 300
# The second checker leaves out which commands the rules allow, so it finds fewer of these.
RULES = "command"
# What both find by the auction to which the commands lead.
OF_AUCTION = ("answers", "state", "file")
# Runs the second checker on each folder in turn.
DRIVER = """
const [, script, ...folders] = process.argv;
for (const folder of folders) {
  process.argv = [process.argv[0], script, folder];
  console.log(`CASE ${folder}`);
  await import(`file://${script}?${encodeURIComponent(folder)}`);
}
"""


def lay_out(folder: Path, segments: Sequence[Sequence[str]], files: Mapping[str, str | bytes]) -> None:
    """Makes a bundle of the lines of a record and of other files. A character stands for a byte. A segment without a line isn't there."""
    folder.mkdir(parents=True, exist_ok=True)
    for number, lines in enumerate(segments, 1):
        name = "auction.record" if number == 1 else f"auction.record.{number}"
        if lines:
            (folder / name).write_bytes("".join(f"{line}\n" for line in lines).encode("latin-1"))
    for name, data in files.items():
        (folder / name).parent.mkdir(exist_ok=True)
        (folder / name).write_bytes(data if isinstance(data, bytes) else data.encode("latin-1"))


def findings_of_python(folder: Path) -> list[str]:
    """The findings of the first checker, which is called here: that is quicker than a process for each bundle. `none` says that it can't read
    something."""
    words = argparse.ArgumentParser()
    add_words(words)
    try:
        lines = lines_of(verify(in_bundle(words.parse_args([str(folder)]))))
    except Missing:
        return ["none"]
    found = [line.removeprefix("FOUND ") for line in lines if line.startswith("FOUND ")]
    assert lines[-1] == ("All of this is right." if not found else f"{len(found)} thing{'s are' if len(found) > 1 else ' is'} wrong.")
    return found


def findings_of_node(folders: Sequence[Path]) -> list[list[str]]:
    """The findings of the second checker on each bundle, by one process."""
    words = [shutil.which("node") or "node", "--input-type=module", "-e", DRIVER, "--", str(VERIFY), *map(str, folders)]
    ran = subprocess.run(words, capture_output=True, text=True, timeout=SECONDS, env={**os.environ, "NODE_OPTIONS": ""})
    assert not ran.stderr and ran.returncode in (0, 1), ran
    parts = ran.stdout.split("CASE ")[1:]
    assert len(parts) == len(folders)
    return [[line.removeprefix("FOUND ") for line in part.splitlines() if line.startswith("FOUND ")] for part in parts]


def by_both(folders: Sequence[Path]) -> list[list[str]]:
    """The findings on each bundle, in alphabetical order, without those of rules. Both checkers have to agree. Behind a command that the rules
    refuse the first one has no auction any more, and the second one has: then they may differ in what follows from it."""
    found = [sorted(findings_of_python(folder)) for folder in folders]
    for folder, of_python, of_node in zip(folders, found, findings_of_node(folders), strict=True):
        words = {RULES, *(OF_AUCTION if any(one.startswith(RULES) for one in of_python) else ())}
        assert without(words, of_python) == sorted(without(words, of_node)), (folder.name, of_python, of_node)
    return [without({RULES}, one) for one in found]


def without(words: Collection[str], found: Sequence[str]) -> list[str]:
    """The findings without those of some words."""
    return [one for one in found if one.split()[0] not in words]
