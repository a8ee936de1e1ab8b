"""A file in which a client notes its tickets, so that it knows after a crash of its own which commands it had sent.

A line `SENT BID x 3 b 210` is made durable before the command goes out, and `DONE BID x 3 b 210 = OK 7` is written with its answer.
A last line without LF is an unfinished one, and is ignored. When the file is opened, it is written anew with the lines that still
matter.
"""
import errno
import fcntl
import os
import pathlib
import stat

from hpb.lines import Bid, Close, Command, Stage, Waive, format_line, parse_command_of_front
from hpb.own_files import look_at_owner
from hpb.refusals import HpbError


class TicketsInUse(HpbError):
    """Another program uses the file of tickets, and two programs can't number one bidder's commands."""


class TicketFile:
    """The tickets that a client used, by their senders. One client at a time has the file.

    `unanswered` are the commands that an earlier client sent without getting an answer, in their order. If the file can't be read
    or written, OSError is raised; so it is if another user owns the file or may write it. If it is no file of tickets, or another file
    has its name with `.new` behind it, ValueError is raised.
    """

    def __init__(self, path: str | os.PathLike[str]) -> None:
        # A link stays one: the file that it leads to is locked and written anew.
        self.path = pathlib.Path(path).resolve()
        self._last: dict[str | None, int] = {}
        self._sent: dict[str, Command] = {}
        # The file may end with half a line.
        self._is_torn = False
        self._file = _open(self.path)
        try:
            fcntl.flock(self._file, fcntl.LOCK_EX | fcntl.LOCK_NB)
            if not os.path.samestat(os.fstat(self._file), os.stat(self.path)):
                raise BlockingIOError
            *lines, rest = self.path.read_bytes().decode("latin-1").split("\n")
            for line in lines:
                self._take(line)
            if not _may_be_half(rest):
                raise ValueError(f"{self.path}: this is no line of tickets: {rest[:100]!r}")
            self._write_anew()
        except BlockingIOError:
            os.close(self._file)
            raise TicketsInUse(f"{self.path} is in use") from None
        except BaseException:
            os.close(self._file)
            raise
        self.unanswered = tuple(self._sent.values())

    def known(self) -> list[tuple[str | None, int]]:
        """The last used ticket of each bidder all of whose commands were answered."""
        unsure = {sender_of(command) for command in self.unanswered}
        return [(bidder, last) for bidder, last in self._last.items() if bidder is not None and bidder not in unsure]

    def note(self, text: str, is_urgent: bool) -> None:
        """Adds a line. With `is_urgent` it returns once the line is durable. If a line can't be written, OSError is raised, then
        and by every later call.
        """
        if self._is_torn:
            raise OSError(errno.EIO, "an earlier line couldn't be written")
        self._is_torn = True
        _write(self._file, f"{text}\n")
        if is_urgent:
            os.fdatasync(self._file)
        self._is_torn = False
        self._take(text)

    def close(self) -> None:
        """Ends the use of the file."""
        os.close(self._file)

    def _take(self, text: str) -> None:
        kind, _, rest = text.partition(" ")
        line, _, told = rest.partition(" = ")
        command = parse_command_of_front(line) if kind in ("SENT", "DONE") else None
        if not isinstance(command, Bid | Waive | Close | Stage):
            raise ValueError(f"{self.path}: this is no line of tickets: {text!r}")
        if kind == "SENT":
            self._sent[line] = command
            return
        self._sent.pop(line, None)
        if told.startswith("OK"):
            sender = sender_of(command)
            self._last[sender] = max(self._last.get(sender, 0), command.ticket)

    def _write_anew(self) -> None:
        """Writes the lines that still matter to a new file, which then replaces the old one."""
        known = [f"DONE {format_line(_command_of(sender, last))} = OK" for sender, last in self._last.items()]
        lines = known + [f"SENT {line}" for line in self._sent]
        fresh = self.path.with_name(self.path.name + ".new")
        file = _open(fresh)
        try:
            fcntl.flock(file, fcntl.LOCK_EX | fcntl.LOCK_NB)
            if not _may_be_half(os.read(file, len("SENT ")).decode("latin-1")):
                raise ValueError(f"{fresh}: it is in the way, and no client left it there")
            os.ftruncate(file, 0)
            _write(file, "".join(f"{line}\n" for line in lines))
            os.fsync(file)
            os.rename(fresh, self.path)
            _sync_folder(self.path.parent)
        except BaseException:
            os.close(file)
            raise
        self._file, old = file, self._file
        os.close(old)


def _open(path: pathlib.Path) -> int:
    """A file of tickets, or a new one. A link isn't followed, and nothing but a regular file is taken: a pipe would be waited for. Nor is
    a file taken that another user has made or may write: he could read the bids."""
    file = os.open(path, os.O_RDWR | os.O_CREAT | os.O_APPEND | os.O_NOFOLLOW | os.O_NONBLOCK | os.O_CLOEXEC, 0o600)
    try:
        status = os.fstat(file)
        if not stat.S_ISREG(status.st_mode):
            raise ValueError(f"{path}: it isn't a regular file")
        look_at_owner(str(path), status)
    except BaseException:
        os.close(file)
        raise
    return file


def _may_be_half(text: str) -> bool:
    """Whether a client may have left this text at the end of a file. A power cut may leave zeros in the place of bytes."""
    begun = text.rstrip("\0")
    return begun.startswith(("SENT ", "DONE ")) or "SENT ".startswith(begun) or "DONE ".startswith(begun)


def sender_of(command: Command) -> str | None:
    """The bidder to whom a command's row of tickets belongs, or None for the auctioneer."""
    return command.bidder if isinstance(command, Bid | Waive) else None


def _command_of(sender: str | None, ticket: int) -> Command:
    return Close(ticket) if sender is None else Waive(sender, ticket)


def _write(file: int, text: str) -> None:
    """Writes the whole text, however many calls that takes."""
    data = text.encode("latin-1")
    while data:
        data = data[os.write(file, data) :]


def _sync_folder(folder: pathlib.Path) -> None:
    descriptor = os.open(folder, os.O_RDONLY | os.O_DIRECTORY | os.O_CLOEXEC)
    try:
        os.fsync(descriptor)
    finally:
        os.close(descriptor)
