"""Messages of the program, as the documents have them, for tests that compare them whole."""

from __future__ import annotations

from pathlib import Path

from harness.auctions import EXAMPLES

# The definition of examples/coast.txt: packages coast and twin, licences bay, cape and port, bidders ann and bob.
COAST = (EXAMPLES / "coast.txt").read_bytes().split(b"\n")[0] + b"\n"
SHOWN = "ROUND 1 STAGE 1 OPEN REVENUE 0 COUNT 0\n"
NODES = """NODE coast HIGH 0 - PRICE 0 MIN 4500 WIN no
NODE twin HIGH 0 - PRICE 0 MIN 2500 WIN no
NODE bay HIGH 0 - PRICE 0 MIN 1000 WIN no
NODE cape HIGH 0 - PRICE 0 MIN 1500 WIN no
NODE port HIGH 0 - PRICE 0 MIN 2000 WIN no
"""
FULL = "writing: No space left on device (os error 28)"
CLOSED = "writing: Broken pipe (os error 32)"
NO_FILE = "reading: Is a directory (os error 21)"
TOO_MUCH = "reading: more than 1,000,000,000 bytes"
COPY = "leave it as it is, and go back to your newest backup"
UNFORMATTED = (
    f"If it kept one, it was cut or overwritten: {COPY}. If `hpb format` was stopped while it made the file, do the same again. "
    "To make a new auction, name a file that isn't there: `hpb format --file new.hpb --journal 64 < definition.json`"
)

Wanted = tuple[str, str, int]
# The answer to an input without a definition, the message, and the status.
EMPTY: Wanted = ("ERR 60 json\n", "hpb: 60 json: the definition is empty\n", 1)


def refused(number: str, said: str) -> Wanted:
    """A file, or a job on it, is refused by this number and word."""
    return f"ERR {number}\n", f"hpb: {number}: {said}\n", 1


def stream(what: str) -> str:
    """A stream failed."""
    return f"hpb: 92 stream: {what}\n"


def again(file: Path) -> str:
    """How a run goes on."""
    return f"`hpb run --file {file} --batch 1 --every 0`"


def stream_of_run(what: str, file: Path) -> str:
    """A stream of a run failed."""
    kept = "All that was answered by OK is kept"
    return stream(f"{what}. {kept}. Then go on by {again(file)}, and send again, in their order, the lines that have no answer")


def disk_of(file: Path) -> str:
    """The disk of a run failed: the file may not grow."""
    return (
        f"hpb: 91 device: the disk of {file} failed: File too large (os error 27). All that was answered by OK is kept. "
        "See to the disk first. If it is full, make room, and the same file goes on. If it breaks, copy "
        f"{file} to another disk, and use the copy. Then go on by {again(file)}, and send again, in their order, the commands "
        "that were answered by 91 or 93, or not at all: one that was kept gets its old number, or 13 if its sender has a "
        "later one that was kept\n"
    )
