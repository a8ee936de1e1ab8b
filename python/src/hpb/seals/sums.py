"""The sums by which a report names record, file and seals: lines that are compared word for word (docs/VERIFY.md)."""
import hashlib
import html
import re
from collections.abc import Sequence
from typing import Final

from hpb.seals.chain import Chain
from hpb.seals.statement import SEAL, NoSeal, SignedSeal, signed_seal_of

# The name of the element of a report that has the lines.
NAME: Final = "sums-of-record"
_BLOCK: Final = re.compile(rf'<pre id="{NAME}"[^>]*>(.*?)</pre>', re.DOTALL)


def seals_in(chain: Chain) -> list[SignedSeal]:
    """The seals of a record, as they stand there."""
    found = []
    for entry in chain.of_kind(SEAL):
        try:
            found.append(signed_seal_of(entry))
        except NoSeal:
            pass
    return found


def sums_of(image: bytes, chain: Chain) -> list[str]:
    """The lines of a file and a record: the file's SHA-256, the record's first and last hash, and its seals."""
    record = f"RECORD {chain.first} ENTRIES {len(chain.entries)} LAST {chain.hashes[-1]}"
    return [f"FILE {hashlib.sha256(image).hexdigest()}", record, *(signed.line for signed in seals_in(chain))]


def sums_named(page: str) -> list[str]:
    """The lines that a report has. There are none if it names no record."""
    found = _BLOCK.search(page)
    return html.unescape(found[1]).strip("\n").split("\n") if found else []


def difference(named: Sequence[str], found: Sequence[str]) -> str:
    """The first line of a report that isn't so. Empty if all are."""
    if not named:
        return "it names no record"
    for mine, its in zip(found, named):
        if mine != its:
            return f"it names {its!r}, and it is {mine!r}"
    return "" if len(named) == len(found) else f"it has {len(named)} lines, and there are {len(found)}"
