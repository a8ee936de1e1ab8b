"""Prints the definition that an auction's file keeps, as the JSON that `hpb` takes, in one line.

    tools/definition FILE > definition.json

The file is only read, and only its head. The head never changes, so the file may be in use. The status is 0, or 1 if `hpb` wouldn't
open a file with this head. Standard error then says why, with the number and word by which `hpb` refuses it.
"""
import sys

from hpb.commands import the_file, write_out
from hpb.commands.shell import from_shell, say
from hpb.file import read_head, read_image
from hpb.refusals import Refused, says
from hpb.rules.writing import definition_line


@from_shell
def main() -> int:
    """Reads the arguments, and returns the status."""
    path = the_file(__doc__)
    if isinstance(path, int):
        return path
    try:
        write_out(definition_line(read_head(read_image(path, is_quiet=False)).definition))
    except Refused as fault:
        say(says(fault))
        return 1
    return 0


if __name__ == "__main__":
    sys.exit(main())
