"""The help of a command, as a value: its synopsis, its options and its text.

Two programs write it, clap and argparse. Both have the usage, then a text, and lists of commands and options, with a name and its words in
two columns. A list has a heading of its own; the text may stand before the lists or behind them.
"""
import re
from collections.abc import Iterator
from dataclasses import dataclass, field

USAGE = re.compile(r"usage: *", re.IGNORECASE)
LISTS = {"Commands:": "commands", "Options:": "options", "options:": "options", "positional arguments:": "arguments"}
# A name and its words: two blanks at least are between them.
ROW = re.compile(r" +(\S.*?)(?:  +(\S.*))?")
OPTION = re.compile(r"(?:(-\w), )?(--[\w-]+)(?: <?([\w|:-]+)>?)?")
# A word by which an option's own words say that its value is a file.
OF_FILE = re.compile(r"\b(file|path|picture|certificate|script)\b")
HELP = "--help"


@dataclass(frozen=True)
class Row:
    """A command, an argument or an option, as the help has it, with its words."""

    name: str
    text: str

    @property
    def long(self) -> str:
        """The long name of an option."""
        found = OPTION.match(self.name)
        assert found, self.name
        return found[2]

    @property
    def value(self) -> str:
        """The name of its value, or nothing if it has none."""
        found = OPTION.search(self.name.split(", ")[-1])
        return (found[3] if found else None) or ""

    @property
    def is_file(self) -> bool:
        return self.value != "" and OF_FILE.search(self.text) is not None

    @property
    def choices(self) -> list[str]:
        """The values that its words name one by one, as `1, a page for each frame, or 2, cells`."""
        return re.findall(r"(?:: |, or )(\d), ", self.text) if self.value else []


@dataclass
class Help:
    """The help of one command. `text` has its blocks, each a list of lines."""

    name: str
    usage: list[str] = field(default_factory=list)
    text: list[list[str]] = field(default_factory=list)
    commands: list[Row] = field(default_factory=list)
    arguments: list[Row] = field(default_factory=list)
    options: list[Row] = field(default_factory=list)

    @property
    def about(self) -> str:
        """Words on what it is for: its first sentence up to a colon, without the dot."""
        return re.split(r"[.:] ", " ".join(self.text[0]))[0].rstrip(".").replace("`", "")


def blocks_of(text: str) -> Iterator[list[str]]:
    """The blocks of a text, between empty lines."""
    for block in re.split(r"\n(?: *\n)+", text.strip("\n")):
        yield block.split("\n")


def read_help(name: str, text: str) -> Help:
    """Reads the help that a command wrote. The command was given a wide terminal, so that each option stands on one line."""
    found = Help(name)
    for block in blocks_of(text):
        if USAGE.match(block[0]):
            found.usage = [" ".join(USAGE.sub("", line).split()) for line in block]
        elif block[0] in LISTS:
            getattr(found, LISTS[block[0]]).extend(rows_of(block[1:]))
        else:
            found.text.append(block)
    if not found.usage:
        # It takes arguments without options: its examples show how.
        found.usage = [re.sub(r" [|<>].*", "", line.partition(name)[1] + line.partition(name)[2]) for line in found.text[1] if name in line][:1]
    return found


def rows_of(lines: list[str]) -> Iterator[Row]:
    name = text = ""
    for line in lines:
        found = ROW.fullmatch(line)
        assert found, line
        if name and not found[2] and len(line) - len(line.lstrip()) > 8:
            # The words of a long name stand on the next line.
            text = found[1]
            continue
        if name:
            yield Row(name, text)
        name, text = found[1], found[2] or ""
    if name:
        yield Row(name, text)
