"""Makes a bundle of an auction: a folder by which anyone can check its result, also in ten years and without the auctioneer.

    tools/archive --record auction.record --file auction.hpb --key KEY FOLDER
        [--authority authority.pem] [--receipt FILE].. [--program hpb]

KEY is the public key of the seals: its 64 digits, or a file with them or of PEM. The folder is made, and has:

- definition, file, record, seals, and their stamps with the certificates of the authority;
- a page for each round with winners, prices and the sums that prove them, a report, and all answers;
- two checkers, test vectors, and a README that says how to check all of it, also by hand.

docs/VERIFY.md says what that shows. The front has to be stopped: the file may not be in use. The status is:

- 0, if the bundle is there: standard output says which checks were made, and has the SHA-256 of its list of files;
- 1, if something isn't right, or can't be read or written: then there is no folder;
- 2, if the words are wrong.
"""
import argparse
import hashlib
import pathlib
import sys

from hpb.commands import parser, write_out
from hpb.commands.shell import end_by_signals, from_shell, say
from hpb.file import read_image
from hpb.refusals import HpbError, says
from hpb.report.archive import LIST, Wanted, archive
from hpb.seals.openssl import NoOpenssl
from hpb.seals.receipt import NoReceipt, Receipt, read_receipt
from hpb.seals.verifying import Missing, read_keys

_FAILED = 1


def read_receipts(paths: list[str]) -> dict[str, Receipt]:
    """The receipts in some files, each under the file's name."""
    found = {}
    for path in paths:
        try:
            found[pathlib.Path(path).name] = read_receipt(pathlib.Path(path).read_text("latin-1"))
        except NoReceipt as fault:
            raise Missing(f"{path}: {fault}") from None
    if len(found) < len(paths):
        raise Missing("two receipts have one name")
    return found


class NotMade(HpbError):
    """There is no bundle. The text says why."""


def add_words(words: argparse.ArgumentParser) -> None:
    """The arguments about checks."""
    words.add_argument("--key", action="append", required=True, metavar="KEY", help="the public key of the seals. If it was changed, all of them, in the order of "
                       "their use")
    words.add_argument("--authority", metavar="FILE", help="the certificates of the authority that stamps, in PEM")
    words.add_argument("--receipt", action="append", default=[], metavar="FILE", help="a receipt of a bidder")


def make(given: argparse.Namespace, folder: pathlib.Path) -> str:
    """Makes the bundle. Returns the words about each check, and the sum of the list of files. A NotMade says why there is none."""
    try:
        keys = [key for text in given.key for key in read_keys(text)]
        authority = pathlib.Path(given.authority).read_bytes() if given.authority else b""
        checked = archive(
            Wanted(given.record, read_image(given.file), keys, authority, read_receipts(given.receipt), given.program), folder,
        )
        digest = hashlib.sha256((folder / LIST).read_bytes()).hexdigest()
    except (Missing, NoOpenssl) as fault:
        raise NotMade(str(fault)) from None
    except HpbError as fault:
        raise NotMade(says(fault)) from None
    except OSError as fault:
        raise NotMade(f"{fault.filename}: {fault.strerror}") from None
    return "".join(f"{line}\n" for line in [*checked.findings.said, f"{LIST} {digest}"])


@from_shell
def main() -> int:
    """Reads the arguments, and returns the status."""
    words = parser(__doc__)
    words.add_argument("folder", metavar="FOLDER", help="the folder to make")
    words.add_argument("--record", required=True, metavar="FILE", help="the record's first segment")
    words.add_argument("--file", required=True, metavar="FILE", help="the auction's file")
    add_words(words)
    words.add_argument("--program", default="hpb", help="the program to ask (default hpb)")
    given = words.parse_args()
    # No copy of the auction's file stays.
    end_by_signals(_FAILED)
    try:
        write_out(make(given, pathlib.Path(given.folder)))
    except NotMade as fault:
        say(fault)
        return _FAILED
    return 0


if __name__ == "__main__":
    sys.exit(main())
