"""`hpb-verify` of a record or a bundle: reads all files that are given, checks them, and says what each step shows (docs/VERIFY.md)."""
import argparse
import base64
import pathlib
import re
from collections.abc import Sequence
from typing import Final

from hpb.file import read_image
from hpb.rules.writing import read_script
from hpb.seals.checked import Checked, Given
from hpb.seals.checking import check
from hpb.seals.openssl import PUBLIC, NoOpenssl
from hpb.seals.receipt import NoReceipt, Receipt, read_receipt
from hpb.seals.statement import NoSeal, SignedSeal, read_signed
from hpb.seals.sums import difference, sums_named, sums_of

# The names in a bundle.
RECORD, FILE, DEFINITION, KEY, AUTHORITY, SEALS, REPORT, RECEIPTS = (
    "auction.record", "auction.hpb", "definition.json", "key.txt", "authority.pem", "seals.txt", "report.html", "receipts",
)
_KEYS: Final = re.compile(r"\s*[0-9a-f]{64}(\s+[0-9a-f]{64})*\s*")
_PEM: Final = re.compile(r"-----BEGIN PUBLIC KEY-----\s*([A-Za-z0-9+/=]+)\s*-----END PUBLIC KEY-----")


class Missing(Exception):
    """Something that was named can't be read."""


def add_words(words: argparse.ArgumentParser) -> None:
    """The words of a check of a record."""
    words.add_argument("bundle", nargs="?", metavar="BUNDLE", help="a folder that hpb-archive made, with all that follows")
    words.add_argument("--record", metavar="FILE", help="the record's first segment")
    words.add_argument("--file", metavar="FILE", help="a copy of the auction's file")
    words.add_argument("--definition", metavar="FILE", help="the definition that was announced")
    words.add_argument("--key", action="append", default=[], metavar="KEY", help="the public key that was announced: its digits, or a file with them or of PEM. "
                       "If the key was changed, all of them, in the order of their use")
    words.add_argument("--authority", metavar="FILE", help="the certificates of the authority that stamps, in PEM")
    words.add_argument("--receipt", action="append", default=[], metavar="FILE", help="a receipt, as the front answers RECEIPT")
    words.add_argument("--seals", metavar="FILE", help="seals that somebody kept, one a line, as the front answers SEAL")
    words.add_argument("--report", metavar="FILE", help="a page of hpb-report that names the record")


def in_bundle(given: argparse.Namespace) -> argparse.Namespace:
    """The words with the files of a bundle in the place of those that weren't given."""
    folder = pathlib.Path(given.bundle)
    for name, file in (("record", RECORD), ("file", FILE), ("definition", DEFINITION), ("authority", AUTHORITY), ("seals", SEALS), ("report", REPORT)):
        if not getattr(given, name) and (name == "record" or (folder / file).exists()):
            setattr(given, name, str(folder / file))
    if not given.key and (folder / KEY).exists():
        given.key = [str(folder / KEY)]
    given.receipt += sorted(str(path) for path in (folder / RECEIPTS).glob("*"))
    return given


def read_keys(text: str) -> list[str]:
    """Public keys: 64 hexadecimal digits, or a file with such digits, a key a line in the order of their use, or with a key in PEM."""
    found = text if _KEYS.fullmatch(text) else _read(text)
    if _KEYS.fullmatch(found):
        return found.split()
    if (pem := _PEM.search(found)) and (data := base64.b64decode(pem[1])).startswith(PUBLIC) and len(data) == len(PUBLIC) + 32:
        return [data[-32:].hex()]
    raise Missing(f"{text} has no public key of Ed25519")


def _read(path: str) -> str:
    try:
        return pathlib.Path(path).read_text("latin-1")
    except OSError as fault:
        raise Missing(f"{path}: {fault.strerror}") from None


def _receipt(path: str) -> Receipt:
    try:
        return read_receipt(_read(path))
    except NoReceipt as fault:
        raise Missing(f"{path}: {fault}") from None


def _kept(path: str) -> list[SignedSeal]:
    """The seals in the lines of a file, also as the front answers them, or among other lines of its output."""
    found = []
    for line in _read(path).splitlines():
        if line.startswith("SEAL "):
            try:
                found.append(read_signed(re.sub(r" STAMPED .*", "", line)))
            except NoSeal as fault:
                raise Missing(f"{path}: {fault}: {line[:80]!r}") from None
    return found


def verify(given: argparse.Namespace) -> Checked:
    """Checks all that the words name. A Missing says what can't be read; whatever `read_script` and `read_image` raise goes through."""
    image = read_image(given.file) if given.file else None
    wanted = Given(
        keys=[key for text in given.key for key in read_keys(text)],
        authority=_read(given.authority).encode("latin-1") if given.authority else b"",
        definition=read_script(_read(given.definition).encode("latin-1")) if given.definition else None,
        image=image,
        receipts=[_receipt(path) for path in given.receipt],
        kept=_kept(given.seals) if given.seals else (),
    )
    page = _read(given.report) if given.report else ""
    try:
        checked = check(given.record, wanted)
    except NoOpenssl as fault:
        raise Missing(str(fault)) from None
    except OSError as fault:
        raise Missing(f"{fault.filename or given.record}: {fault.strerror}") from None
    if given.report and checked.chain.entries:
        look_at_report(checked, page, image or b"")
    return checked


def look_at_report(checked: Checked, page: str, image: bytes) -> None:
    if fault := difference(sums_named(page), sums_of(image, checked.chain)):
        checked.findings.add("report", 0, f"the report isn't that of the record and the file: {fault}")
    else:
        checked.findings.say("Report: it names this file, this record and these seals.")


def lines_of(checked: Checked) -> Sequence[str]:
    """What a check says, then each finding for other programs, and the sum of it."""
    findings = checked.findings
    count = len(findings.found)
    end = "All of this is right." if not count else f"{count} {'thing is' if count == 1 else 'things are'} wrong."
    return [*findings.said, *(found.line for found in findings.found), end]
