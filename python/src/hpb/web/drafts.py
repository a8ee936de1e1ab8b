"""Drafts: commands of a page, each with its ticket and its round, until it is clear what became of them.

A draft is `sent` until the front has answered. Then it is `accepted`, with its number, or `refused`, or it was `never` accepted and
never will be. It is `unclear` only if another program used a later ticket before anybody looked. So a draft that is sent twice counts once: it has one ticket. A file, if there is one, has each draft before it is sent, so
that its outcome is found after a kill, too.
"""
import asyncio
import dataclasses
import json
import os
import pathlib
from collections.abc import Iterable, Mapping
from dataclasses import dataclass
from typing import Any, Final

from hpb.lines import Bid, Close, Command, Stage, Waive, format_line, parse_command_of_front
from hpb.refusals import HpbError

SENT, ACCEPTED, REFUSED, NEVER, UNCLEAR = "sent", "accepted", "refused", "never", "unclear"
# So many drafts of a name that were refused, or never accepted, are known: the last ones. All others are known as long as the site.
MOST_REFUSED: Final = 1_000


class NotKept(HpbError):
    """The file of drafts can't be read or written."""


@dataclass(frozen=True)
class Draft:
    """A command of a name. `number` is that of an accepted one, `why` a refusal's word and meaning, and `at` when that was known."""

    name: str
    command: Command
    state: str = SENT
    number: int | None = None
    why: str = ""
    at: str = ""

    @property
    def bidder(self) -> str | None:
        """The bidder; None for the auctioneer."""
        return self.command.bidder if isinstance(self.command, Bid | Waive) else None

    @property
    def round(self) -> int | None:
        """The round in which alone it counts; None for the auctioneer's."""
        return self.command.round if isinstance(self.command, Bid | Waive) else None

    def fields(self) -> dict[str, Any]:
        """The draft as it stands in the file."""
        known = {"name": self.name, "line": format_line(self.command), "state": self.state}
        return {**known, "number": self.number, "why": self.why, "at": self.at}


def read_draft(fields: Mapping[str, Any]) -> Draft:
    """The draft in a line of the file. If it is none, ValueError is raised."""
    try:
        command = parse_command_of_front(fields["line"])
        if not isinstance(command, Bid | Waive | Close | Stage):
            raise ValueError("no command")
        state = fields["state"]
        if state not in (SENT, ACCEPTED, REFUSED, NEVER, UNCLEAR):
            raise ValueError("no state")
        return Draft(str(fields["name"]), command, state, fields["number"], str(fields["why"]), str(fields["at"]))
    except (HpbError, KeyError, TypeError, AttributeError) as fault:
        raise ValueError(f"no draft: {fault}") from None


class Drafts:
    """All drafts, with the last state of each. One is known by its name and its whole command: of several with the same ticket each has an
    outcome of its own.
    """

    def __init__(self, path: pathlib.Path | None = None) -> None:
        """Reads the file, which is made if there is none. If it can't be read, `NotKept` is raised. A last line that isn't whole is left out."""
        self._known: dict[tuple[str, Command], Draft] = {}
        # By name, those that were refused or never accepted, the oldest one first.
        self._refused: dict[str, dict[Command, None]] = {}
        self._file: int | None = None
        self._lock = asyncio.Lock()
        if path is None:
            return
        try:
            self._file = os.open(path, os.O_RDWR | os.O_CREAT | os.O_APPEND | os.O_CLOEXEC, 0o600)
            data = path.read_bytes()
            whole = data[: data.rfind(b"\n") + 1]
            os.truncate(self._file, len(whole))
            for line in whole.splitlines():
                self._take(read_draft(json.loads(line)))
        except OSError as fault:
            raise NotKept(f"{path}: {fault.strerror}") from None
        except ValueError as fault:
            raise NotKept(f"{path} is no file of drafts: {fault}") from None

    def _take(self, draft: Draft) -> None:
        self._known.pop((draft.name, draft.command), None)
        self._known[draft.name, draft.command] = draft
        refused = self._refused.setdefault(draft.name, {})
        refused.pop(draft.command, None)
        if draft.state in (REFUSED, NEVER):
            refused[draft.command] = None
            if len(refused) > MOST_REFUSED:
                oldest = next(iter(refused))
                del refused[oldest], self._known[draft.name, oldest]

    def find(self, name: str, command: Command) -> Draft | None:
        """The draft of a name with this command."""
        return self._known.get((name, command))

    def accepted(self, name: str, bidder: str | None, ticket: int) -> Draft | None:
        """The accepted draft of a name with this ticket."""
        found = (one for one in self.of(name) if (one.bidder, one.command.ticket, one.state) == (bidder, ticket, ACCEPTED))
        return next(found, None)

    def of(self, name: str) -> list[Draft]:
        """All drafts of a name, by sender and ticket. Of one ticket they come in the order of their last change."""
        return sorted((one for one in self._known.values() if one.name == name), key=lambda one: (one.bidder or "", one.command.ticket))

    def bid_on(self, name: str, bidder: str, round_: int) -> frozenset[str]:
        """The nodes on which a bidder has bid in a round, by accepted drafts."""
        drafts = (one for one in self.of(name) if one.state == ACCEPTED and one.bidder == bidder and one.round == round_)
        return frozenset(one.command.node for one in drafts if isinstance(one.command, Bid))

    async def note(self, drafts: Iterable[Draft]) -> None:
        """Takes drafts in. They are on the disk when this returns. If they can't be written, `NotKept` is raised, and nothing has changed."""
        new = list(drafts)
        async with self._lock:
            if self._file is not None:
                data = "".join(json.dumps(one.fields()) + "\n" for one in new).encode()
                await asyncio.to_thread(_append, self._file, data)
            for one in new:
                self._take(one)

    def close(self) -> None:
        """Closes the file."""
        if self._file is not None:
            os.close(self._file)
            self._file = None


def _append(file: int, data: bytes) -> None:
    size = os.fstat(file).st_size
    try:
        while data:
            data = data[os.write(file, data) :]
        os.fsync(file)
    except OSError as fault:
        os.truncate(file, size)
        raise NotKept(f"the file of drafts can't be written: {fault.strerror}") from None



def settled(draft: Draft, state: str, at: str, number: int | None = None, why: str = "") -> Draft:
    """The draft once it is clear what became of it."""
    return dataclasses.replace(draft, state=state, at=at, number=number, why=why)
