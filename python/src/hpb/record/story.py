"""The contents of a record: the accepted commands, their senders, and whether its entries fit together."""
from collections.abc import Iterable
from dataclasses import dataclass, field

from hpb.front.rights import Role, role_of
from hpb.record.entries import FIRST_FORM, FORM, Damaged, Entry, Place
from hpb.rules.tree import Tree, tree_of
from hpb.rules.writing import read_fields


@dataclass(frozen=True, slots=True)
class Command:
    """An accepted command: its number from 1, its time, its sender's name, and its line."""

    number: int
    at: str
    name: str
    line: str

    @property
    def words(self) -> list[str]:
        """The words of its line."""
        return self.line.split(" ")


@dataclass
class Story:
    """The contents of a record. `faults` says which entries don't fit together. `place` is behind its last entry. `shown` has each answer
    to SHOW in the record, with the number of its entry."""

    tree: Tree
    commands: list[Command] = field(default_factory=list)
    shown: list[tuple[int, str]] = field(default_factory=list)
    faults: list[str] = field(default_factory=list)
    segments: int = 0
    place: Place = Place()
    _form: int = FORM
    _roles: dict[str, Role] = field(default_factory=dict)
    _asked: dict[int, tuple[str, str]] = field(default_factory=dict)

    def take(self, entry: Entry, place: Place) -> None:
        """Takes the next entry. Raises `Damaged` if the entry says that commands are missing from the record. For an entry that no front
        writes, it may raise any exception that follows from it."""
        self.place = place
        match entry["kind"]:
            case "begin":
                self._form, self.segments = entry["form"], self.segments + 1
            case "started":
                self._roles = {name: role_of(given) for name, given in entry["names"].items()}
            case "asked":
                self._asked[entry["entry"]] = (entry["name"], entry["line"])
            case "accepted":
                self._accepted(entry)
            case "foreign":
                lost = f"commands {entry['from']} to {entry['to']}"
                raise Damaged(f"entry {entry['entry']}: {lost} weren't told by the front, and stand nowhere")
            case "answered":
                self._answered(entry)

    def _accepted(self, entry: Entry) -> None:
        command = Command(len(self.commands) + 1, entry["at"], entry["name"], entry["line"])
        if entry["answer"] != f"OK {command.number}":
            self.faults.append(f"entry {entry['entry']}: {entry['answer']} stands in the place of command {command.number}")
        if not self._was_asked(entry, command):
            self.faults.append(f"entry {entry['entry']}: it answers no entry that asked this")
        role = self._roles.get(command.name)
        if role is None or role.refusal(command.line.encode("latin-1")):
            self.faults.append(f"entry {entry['entry']}: {command.name} had no right to send {command.line!r}")
        self.commands.append(command)

    def _was_asked(self, entry: Entry, command: Command) -> bool:
        """Whether an entry says that the command was sent. In the second form no entry has to, except for commands that a record of the
        first form left."""
        if self._form != FIRST_FORM and "asked" not in entry:
            return True
        return self._asked.pop(entry["asked"], None) == (command.name, command.line)

    def _answered(self, entry: Entry) -> None:
        answer: str = entry["answer"]
        self._asked.pop(entry.get("asked", 0), None)
        if entry["line"] == "SHOW" and answer.startswith("ROUND "):
            self.shown.append((entry["entry"], answer))
        elif answer.startswith("OK "):
            number = int(answer[3:])
            if not 1 <= number <= len(self.commands) or self.commands[number - 1].line != entry["line"]:
                self.faults.append(f"entry {entry['entry']}: {answer} repeats no command with that line")


def read_story(entries: Iterable[tuple[Entry, Place]]) -> Story:
    """The story of all entries of a record. Raises what `Story.take` does, `Damaged` if the first entry doesn't begin a record, and a
    refusal if the definition in it isn't valid."""
    story: Story | None = None
    for entry, place in entries:
        story = story or _begun(entry)
        story.take(entry, place)
    return story or _begun({"kind": "nothing"})


def _begun(entry: Entry) -> Story:
    if entry["kind"] != "begin" or entry["form"] not in (FIRST_FORM, FORM):
        raise Damaged(f"it doesn't begin as a record of form {FIRST_FORM} or {FORM}")
    return Story(tree_of(read_fields(entry["definition"])))
