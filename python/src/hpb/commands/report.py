"""Makes a page about an auction from nothing but a copy of its file. The page can be read, printed, and checked by adding up.

    tools/report FILE [--program hpb] > report.html
    tools/report FILE [--program hpb] --picture > tree.svg
    tools/report FILE [--program hpb] --record auction.record > report.html

The file is only read and never changed: `hpb` is run on a copy in a folder of its own. The page has no script, needs no other file,
and is the same for the same bytes. It shows:

- the tree with high bids, prices, minima and winners;
- the sums that show the result, and winners and prices calculated again from the high bids;
- what each bidder needs, and what a close now would leave to it, compared with a close of the copy;
- stages, definition, and SHA-256 of file and definition;
- with `--record`, that record and its seals, which `tools/verify --report` compares.

The status is:

- 0, if all is right;
- 1, if the file is refused, or in use by a program, or the record isn't that of the file: then no page is written;
- 3, if the page is written but something in it isn't right: the top of the page says what.
"""
import sys

from hpb.commands import parser, write_out
from hpb.commands.shell import end_by_signals, from_shell, say
from hpb.drawing.tree import whole_picture
from hpb.file import read_image
from hpb.refusals import HpbError, says
from hpb.report.closing import read_report
from hpb.report.page import page
from hpb.seals.checked import Given
from hpb.seals.checking import check
from hpb.seals.openssl import NoOpenssl
from hpb.seals.sums import sums_of

_FAILED, _NOT_RIGHT = 1, 3


@from_shell
def main() -> int:
    """Reads the arguments, and returns the status."""
    words = parser(__doc__)
    words.add_argument("file", metavar="FILE", help="a copy of an auction's file")
    words.add_argument("--program", default="hpb", help="the program to ask (default hpb)")
    words.add_argument("--picture", action="store_true", help="only the tree, as SVG")
    words.add_argument("--record", metavar="RECORD", help="name the record that belongs to the file, and its seals")
    chosen = words.parse_args()
    # No copy of the auction's file stays.
    end_by_signals(_FAILED)
    try:
        image = read_image(chosen.file)
        sums = named_sums(chosen.record, image) if chosen.record else []
        report = read_report(chosen.program, image)
        write_out(whole_picture(report.tree, report.told) if chosen.picture else page(report, sums))
    except NotRight as fault:
        say(fault)
        return _FAILED
    except HpbError as fault:
        say(says(fault))
        return _FAILED
    for wrong in report.faults:
        say(f"not right: {wrong}")
    return _NOT_RIGHT if report.faults else 0


class NotRight(Exception):
    """The record isn't right, or isn't that of the file."""


def named_sums(record: str, image: bytes) -> list[str]:
    """The lines of a record that belongs to the file. A NotRight names the first finding if it doesn't."""
    try:
        checked = check(record, Given(image=image))
    except (OSError, NoOpenssl) as fault:
        raise NotRight(f"the record can't be checked: {fault}") from None
    if checked.findings.found:
        raise NotRight(f"the record isn't right, or isn't that of the file: {checked.findings.found[0].text}")
    return sums_of(image, checked.chain)


if __name__ == "__main__":
    sys.exit(main())
