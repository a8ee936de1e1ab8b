"""The commands of a shell: `tools/NAME` in a checkout, `hpb-NAME` if the package is installed."""
import argparse
import pathlib
import sys

from hpb.refusals import StreamFault

_STANDARD_OUTPUT = 1


def program_name() -> str:
    """The name by which this command was called."""
    return pathlib.PurePath(sys.argv[0]).stem


def parser(text: str) -> argparse.ArgumentParser:
    """A parser for a command's arguments. Its help is the text, laid out as it stands."""
    return argparse.ArgumentParser(prog=program_name(), description=text, formatter_class=argparse.RawDescriptionHelpFormatter)


def the_file(text: str) -> str | int:
    """The one argument of a command that takes a file. Otherwise it prints the text, and returns the status to end with: 0 if help
    was asked for, else 2.
    """
    if len(sys.argv) == 2 and sys.argv[1] not in ("-h", "--help"):
        return sys.argv[1]
    print(text, end="")
    return 0 if sys.argv[1:] in (["-h"], ["--help"]) else 2


def write_out(text: str) -> None:
    """Writes all of a text to standard output, or raises `StreamFault` (92)."""
    try:
        with open(_STANDARD_OUTPUT, "wb", closefd=False) as stream:
            stream.write(text.encode())
    except OSError as fault:
        raise StreamFault(f"writing: {fault.strerror}") from None
