"""What a check finds: each finding has a word, the number of an entry, and a sentence."""
from dataclasses import dataclass, field
from typing import Final

# The words of findings, and what they mean (docs/VERIFY.md has this table).
WORDS: Final = {
    "record": "the files aren't those of a record",
    "changed": "the entry's text isn't that of its hash, or isn't that of an entry",
    "order": "another entry stands in its place",
    "before": "it doesn't name the hash of the entry before it",
    "cut": "the record ends within it",
    "segment": "the segment that it ends or begins isn't the one that it names",
    "command": "the rules, or the rights of its sender, don't allow it under its number",
    "definition": "it has another definition than the one that was given",
    "unsealed": "it is a close without a seal",
    "other": "it has the seal of another record",
    "seal": "its seal isn't that of the entries before it",
    "key": "its seal was signed by another key",
    "signature": "its seal's signature isn't right",
    "answers": "its answers aren't those that its seal names, or that the commands lead to",
    "state": "the state that its seal names isn't the one to which the commands lead, or that the file shows",
    "stamp": "its stamp isn't that of its seal, or isn't in order",
    "receipt": "the receipt for it doesn't fit it",
    "kept": "a seal that somebody kept isn't that of the record",
    "file": "the file isn't that of the record",
    "report": "the report names other sums",
}


@dataclass(frozen=True, slots=True)
class Finding:
    """Something that is wrong. `entry` is 0 if it is about no entry."""

    word: str
    entry: int
    text: str

    @property
    def line(self) -> str:
        """The finding for other programs to read."""
        return f"FOUND {self.word} {self.entry}"


@dataclass
class Findings:
    """What a check says, step by step, and what it finds."""

    said: list[str] = field(default_factory=list)
    found: list[Finding] = field(default_factory=list)

    def say(self, text: str) -> None:
        self.said.append(text)

    def add(self, word: str, entry: int, text: str) -> None:
        """Something is wrong. A ValueError says that there is no such word."""
        if word not in WORDS:
            raise ValueError(word)
        where = f"entry {entry}: " if entry else ""
        self.found.append(Finding(word, entry, f"{where}{text}"))
        self.say(f"Wrong: {where}{text}.")
