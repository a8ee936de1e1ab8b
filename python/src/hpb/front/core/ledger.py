"""Commands in the order of their numbers, each once: which may be written into the record, and when."""
from dataclasses import dataclass, field
from typing import NamedTuple

from hpb.front.core.effects import Write
from hpb.front.core.values import changed
from hpb.front.rights import sender_and_ticket
from hpb.record.entries import OK, Place, text_of

WHERE_THE_AUDIT_ENDS = "the audit ends there"


class Held(NamedTuple):
    """An accepted command that waits until those with smaller numbers are written."""

    # How many commands had been sent to the server when this one's answer came.
    sent: int
    name: str
    line: bytes
    # The session that waits for this entry, if one does. In a record of the first form, `asked` is the number of the entry with the
    # question.
    session: int | None = None
    asked: int = 0

    def entry(self, number: int) -> Write:
        """The effect that writes this command's entry."""
        asked = {"asked": self.asked} if self.asked else {}
        return Write("accepted", {"name": self.name, "line": text_of(self.line), "answer": f"{OK}{number}", **asked})


@dataclass(frozen=True)
class Foreign:
    """Numbers of commands that didn't come through this front."""

    first: int
    last: int


@dataclass
class Ledger:
    """The counts of a record and of the commands on their way to it. A step changes its own copy.

    `count` is how many commands the record has once all entries are written. `written` and `synced` count entries since this front's start:
    those handed out, and those on the disk. `place` is behind the last entry on the disk. `told` has the places of commands that were sent
    to the server and have no answer yet, in the order in which they were sent. `used` has the last ticket of each sender among the first
    `count` commands. If `has_strangers`, others have sent commands since the start, and `used` lacks those.
    """

    count: int = 0
    used: dict[str | None, int] = field(default_factory=dict)
    has_strangers: bool = False
    written: int = 0
    synced: int = 0
    place: Place = Place()
    sent: int = 0
    told: dict[int, int] = field(default_factory=dict)
    held: dict[int, Held] = field(default_factory=dict)
    free: list[int] = field(default_factory=list)
    places: int = 0

    def copy(self) -> "Ledger":
        """A ledger with the same counts, in mappings of its own."""
        return changed(self, used=dict(self.used), told=dict(self.told), held=dict(self.held), free=list(self.free))

    def explained(self) -> tuple[int, int]:
        """The least and the greatest count of commands that the file can have, given those that were sent to the server."""
        return max([self.count, *self.held]), self.count + len(self.held) + len(self.told)

    def take_place(self) -> int:
        """Takes a place beside the record for one more command."""
        if self.free:
            return self.free.pop()
        self.places += 1
        return self.places - 1

    def give_place(self, place: int) -> None:
        """The command in this place needn't be found any more."""
        self.free.append(place)

    def tell(self, place: int) -> None:
        """The command in this place is sent to the server."""
        self.sent += 1
        self.told[place] = self.sent

    def judge(self, place: int) -> None:
        """The command in this place has its answer."""
        self.told.pop(place, None)

    def next(self) -> Held | Foreign | None:
        """The next entry to write: the accepted command with the next number, or numbers that nobody can get any more. None, if nothing is
        held or a smaller number may still come."""
        if not self.held:
            return None
        if self.count + 1 in self.held:
            return self.held[self.count + 1]
        least = min(self.held)
        if min(self.told.values(), default=self.sent + 1) <= self.held[least].sent:
            return None
        return Foreign(self.count + 1, least - 1)

    def accept(self, line: bytes) -> None:
        """The command with the next number goes into the record, and its ticket is used by its sender."""
        self.count += 1
        self.written += 1
        self.held.pop(self.count, None)
        sender, ticket = sender_and_ticket(line)
        self.used[sender] = max(self.used.get(sender, 0), ticket)
