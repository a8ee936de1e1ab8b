"""The auction by its record: which bids and waivers the open round has, and what a close would do.

At a start the server's answers give the state of now, and the record the commands of the open round. From then on each accepted command is
added, in the order of the numbers. Commands are read when somebody asks, and at a close.
"""
from collections.abc import Iterable, Iterator
from dataclasses import dataclass
from typing import TypeAlias

from hpb.front.core.values import changed
from hpb.lines import Bid, Close, Command, Stage, Waive, parse_line
from hpb.record.entries import text_of
from hpb.refusals import HpbError
from hpb.rules.auction import Auction
from hpb.rules.preview import Preview, after_round_so_far, at_begin_of_round, preview, taken
from hpb.rules.told import NotTold, Told
from hpb.rules.tree import Tree

# Commands, with the last one before the others. So one more is added without a copy.
Lines: TypeAlias = "tuple[bytes, Lines] | None"


@dataclass(frozen=True)
class Books:
    """`base` is the auction within its open round, if that is known, and `lines` are the round's bids, waivers and stages behind that.
    `counted` is how many bids and waivers the whole round has. `is_known` says whether they are all."""

    base: Auction | None = None
    lines: Lines = None
    counted: int = 0
    is_known: bool = False

    def took(self, line: bytes) -> "Books":
        """A command was accepted."""
        if line.startswith(b"CLOSE "):
            return self.closed()
        return changed(self, lines=(line, self.lines), counted=self.counted + line.startswith((b"BID ", b"WAIVE ")))

    def took_unknown(self) -> "Books":
        """Commands were accepted that nobody here knows."""
        return Books()

    def closed(self) -> "Books":
        return Books(taken(now, Close()) if (now := self.now()) else None, is_known=True)

    def began(self, tree: Tree, told: Told) -> "Books":
        """The server has shown the auction as it is after these commands."""
        try:
            return changed(self, base=at_begin_of_round(tree, told, commands_of(self.lines)) if self.is_known else None)
        except HpbError:
            return changed(self, base=None)

    def now(self) -> Auction | None:
        """The auction after the round's commands, or None if it isn't known."""
        if self.base is None or not self.is_known or self.base.is_over:
            return None
        try:
            return after_round_so_far(self.base, commands_of(self.lines))
        except NotTold:
            return None

    def read_up(self) -> "Books":
        """The same, with all commands read, so that nobody has to read them again."""
        return changed(self, base=now, lines=None) if (now := self.now()) else self

    def would_end(self) -> bool:
        """Whether a close now would end the auction, as far as it is known."""
        return self.counted == 0

    def preview(self) -> Preview | None:
        """What a close would do now, or None if it isn't known."""
        return preview(now) if (now := self.now()) else None


def books_of(lines: Iterable[bytes] | None) -> Books:
    """The books of a round with these commands. None says that they aren't known."""
    books = Books(is_known=lines is not None)
    for line in lines or ():
        books = books.took(line)
    return books


def commands_of(lines: Lines) -> list[Command]:
    """The commands in their order."""
    read = [parse_line(text_of(line)) for line in walked(lines)]
    return [command for command in reversed(read) if isinstance(command, Bid | Waive | Stage)]


def walked(lines: Lines) -> Iterator[bytes]:
    while lines:
        line, lines = lines
        yield line
