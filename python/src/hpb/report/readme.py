"""The page of a bundle that says what it has, and how all of it is checked without any program of ours."""
import pathlib
import string
from collections.abc import Collection, Iterator
from datetime import datetime
from typing import Final

from hpb.file import Layout, read_head
from hpb.seals.checked import Checked
from hpb.seals.statement import Seal

_PAGE: Final = pathlib.Path(__file__).with_name("bundle.md")
_FILES: Final = {
    "auction.record": "each bid with its name and time, in order: the record, or its first segment",
    "auction.hpb": "the file of the auction",
    "definition.json": "its definition",
    "key.txt": "the public key of the seals, or several in the order of their use",
    "key.pem": "the same as PEM",
    "authority.pem": "the certificates of the authority that stamped",
    "seals.txt": "all seals, one a line",
    "seals/": "for each seal its statement, its stamp and the sums",
    "rounds/": "for each round the winners, prices and sums",
    "results.txt": "the answers after each close",
    "report.html": "the auction at its end, with the sums of file, record and seals",
    "receipts/": "receipts of bidders",
    "hpb-verify.pyz": "a checker in Python",
    "verify.mjs": "another one for Node, with `state.mjs`",
    "vectors.json": "trials for more checkers",
    "SHA256SUMS": "the sums of all these files",
}
_STAMPED: Final = """A stamp says that a seal was there at its time. Its key is the authority's, so the auctioneer can't have made it later. `line.txt` has the stamped bytes: the
   statement, SIGNED and the signature, with a line feed. `stamp.tst` is its stamp by RFC 3161. Behind `-attime` is the stamp's time, since certificates end:

       openssl ts -reply -in seals/{0}/stamp.tst -token_in -text
       date -d '{1}' +%s
       openssl ts -verify -data seals/{0}/line.txt -in seals/{0}/stamp.tst -token_in -CAfile authority.pem -attime {2}

   `authority.pem` has to have the authority's certificates as it published them."""
_UNSTAMPED: Final = "No seal has a stamp that was checked: all times are those of the auctioneer's machine."
_LATER_KEYS: Final = "   The key was changed: {}.\n"
_CELLS: Final = ", 29 at most. At 512 and 1,024 more may follow: i (8), 1 or 2 (1), seven zeros, and 31 records at most"


def readme(checked: Checked, image: bytes, keys: Collection[str], names: Collection[str]) -> str:
    """The page. `keys` are the public keys, and `names` those of the other files."""
    head, auction = read_head(image), checked.auction
    assert auction
    segments = sorted((name for name in names if name.startswith("auction.record")), key=lambda name: (len(name), name))
    return string.Template(_PAGE.read_text(encoding="utf-8")).substitute(
        record=checked.chain.first, commands=f"{auction.count:,}", count=len(checked.seals), keys="\n    ".join(keys),
        seals="\n".join(_rows(checked)), files=" and of ".join(f"`{name}`" for name in segments), names=segments, pem="key.pem",
        later_keys=_later(checked), stamps=_stamps(checked, "authority.pem" in names),
        frame=f"{head.layout.frame:,}", frames=f"{head.frames:,}", cells=_CELLS if head.layout is Layout.CELLS else "", table="\n".join(_table(names)),
    )


def _rows(checked: Checked) -> Iterator[str]:
    for signed, _ in checked.seals:
        seal = signed.seal
        stamped = checked.stamped.get(seal.number, "no stamp")
        pays = f"{checked.closes[seal.count].standing.revenue:,}" if seal.round else ""
        yield f"| {seal.number} | {seal.round or 'a front ended'} | {seal.at} | {stamped} | {seal.count:,} | {pays} |"


def _later(checked: Checked) -> str:
    """The seals from which on there is another key, and its file."""
    seals, told = [signed.seal for signed, _ in checked.seals], list[str]()
    known = list(dict.fromkeys(seal.key for seal in seals))
    for before, seal in zip(seals, seals[1:]):
        if seal.key != before.key:
            told.append(f"from seal {seal.number} on it is `{pem_name(known.index(seal.key))}`")
    return _LATER_KEYS.format(", ".join(told)) if told else ""


def _stamps(checked: Checked, is_checked: bool) -> str:
    if not checked.stamped or not is_checked:
        return _UNSTAMPED
    number, time = next(iter(checked.stamped.items()))
    seconds = int(datetime.fromisoformat(time).timestamp())
    return _STAMPED.format(number, time, seconds)


def _table(names: Collection[str]) -> Iterator[str]:
    for name, told in _FILES.items():
        if name == "SHA256SUMS" or name in names or any(one.startswith(name) for one in names if name.endswith("/")):
            yield f"| `{name}` | {told} |"


def pem_name(place: int) -> str:
    """The name of a key's file, by its place from 0 in the order of use."""
    return f"key-{place + 1}.pem" if place else "key.pem"


def round_of(seal: Seal) -> str:
    """The name of the page of a seal's round."""
    return f"rounds/round-{seal.round}.html"
