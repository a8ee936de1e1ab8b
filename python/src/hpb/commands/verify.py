"""Checks a result by sums alone, or a record with its seals, receipts and file. It needs no other program but `openssl` for seals.

    hpb check --file auction.hpb | tools/verify definition.json      the sums of a result
    tools/verify BUNDLE                                              a folder that tools/archive made
    tools/verify --record auction.record --key KEY                   a record; `--file`, `--receipt`, .. are checked with it

The first shows that no choice of the bids brings more than the winners. The argument is a file with the definition: JSON, or a script whose first line it is. Standard input has the answers to `SHOW`
and to `NODE` for each node, in any order. It may have answers to `WHO`. Other answers are ignored, and of several to one question
the last counts. Nodes, bidders and the stage have to be those of the definition, and each bid one that it allows. docs/RULES.md
explains the sums ("How to check a result").

The others check the record as docs/VERIFY.md has it, and say what each step shows. Of each finding a line `FOUND` has the word and the
number of the entry. `--record --help` shows all that can be given.

The status is:

- 0, if all is right;
- 1, if something isn't: it is named;
- 2, if something is missing.
"""
import os
import pathlib
import sys

from hpb.commands import parser, the_file, write_out
from hpb.commands.shell import from_shell, say
from hpb.refusals import HpbError, says
from hpb.rounds import NOTICE
from hpb.rules.checking import Wrong, check_sums
from hpb.rules.mock import is_mock
from hpb.rules.told import read_told
from hpb.rules.tree import tree_of
from hpb.rules.writing import read_script
from hpb.seals.verifying import Missing, add_words, in_bundle, lines_of, verify


@from_shell
def main() -> int:
    """Reads the arguments, and returns the status."""
    if any(word.startswith("--record") for word in sys.argv[1:]) or any(os.path.isdir(word) for word in sys.argv[1:2]):
        return check_record()
    path = the_file(__doc__)
    if isinstance(path, int):
        return path
    try:
        tree = tree_of(read_script(pathlib.Path(path).read_bytes()))
        told = read_told(tree, sys.stdin.read().splitlines())
        for said in check_sums(tree, told):
            print(said)
    except Wrong as wrong:
        print(f"Wrong: {wrong}.")
        return 1
    except HpbError as missing:
        say(says(missing))
        return 2
    except (OSError, UnicodeError) as missing:
        say(missing)
        return 2
    print(f"So no choice of these bids brings more than {told.shown.revenue}.")
    if is_mock(tree.definition):
        print(NOTICE)
    return 0


def check_record() -> int:
    """Checks a record, or a bundle with one."""
    words = parser(__doc__)
    add_words(words)
    given = words.parse_args()
    try:
        checked = verify(in_bundle(given) if given.bundle else given)
    except (Missing, HpbError) as missing:
        say(missing if isinstance(missing, Missing) else says(missing))
        return 2
    write_out("".join(f"{line}\n" for line in lines_of(checked)))
    return 1 if checked.findings.found else 0


if __name__ == "__main__":
    sys.exit(main())
