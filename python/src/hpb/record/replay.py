"""Replays a record: runs its commands on an auction in memory, and compares the results with those that others saw."""
from collections.abc import Iterable, Iterator
from dataclasses import dataclass, field
from os import PathLike

from hpb.file import read_head, read_image
from hpb.lines import Shown
from hpb.program import Copy, answers_in_memory
from hpb.record.story import Command, Story
from hpb.rules.told import NotTold, Told, read_standing, read_told


@dataclass
class Replay:
    """The states of an auction in memory that was given all commands of a record. `standings` has the state before the first close and
    after each close. `end` has the answers to `questions` after all commands. `faults` says what differs from the record."""

    story: Story
    standings: list[Told] = field(default_factory=list)
    end: list[str] = field(default_factory=list)
    faults: list[str] = field(default_factory=list)
    _shows: dict[int, str] = field(default_factory=dict)

    @property
    def questions(self) -> list[str]:
        """Questions whose answers have the auction's whole state."""
        tree = self.story.tree
        return ["SHOW", *(f"NODE {name}" for name in tree.nodes), *(f"WHO {bidder}" for bidder in tree.bidders)]

    def look_at_shown(self, shown: Iterable[tuple[int, str]], where: str) -> None:
        """Compares answers to SHOW with those of the auction in memory after as many commands. Each is given with its number in its source,
        which `where` names. Raises `NotTold` if one isn't a whole answer."""
        for number, answer in shown:
            count = _read_shown(answer).count
            if self._shows.get(count) != answer:
                self.faults.append(f"{where} {number}: {answer!r} was shown, and after {count} commands it is {self._shows.get(count)!r}")

    def compare(self, path: str | PathLike[str], program: str | PathLike[str]) -> None:
        """Compares the last state with a file's, by questions to the program on a copy of the file. Raises what `read_image`, `read_head`
        and `Copy` raise."""
        image = read_image(path)
        if read_head(image).definition != self.story.tree.definition:
            self.faults.append("the file has another definition")
            return
        questions = self.questions
        with Copy(program, image) as copy:
            kept = copy.check()
            kept += copy.run(questions[len(kept) :])
        for question, mine, its in zip(questions, self.end, kept, strict=True):
            if mine != its:
                self.faults.append(f"{question}: by the record {mine!r}, in the file {its!r}")

    def _tell(self, program: str | PathLike[str]) -> None:
        questions, commands = self.questions, self.story.commands
        lines = list(questions)
        for command in commands:
            lines += [command.line, "SHOW", *(questions if _closes(command) else [])]
        answers = iter(answers_in_memory(program, self.story.tree.definition, lines + questions))
        self._stand(answers)
        for command in commands:
            self._judge(command, next(answers), next(answers))
            if _closes(command):
                self._stand(answers)
        self.end = list(answers)

    def _stand(self, answers: Iterator[str]) -> None:
        told = [next(answers) for _ in self.questions]
        standing = read_told(self.story.tree, told)
        self._shows.setdefault(standing.shown.count, told[0])
        self.standings.append(standing)

    def _judge(self, command: Command, answer: str, shown: str) -> None:
        if answer != f"OK {command.number}":
            self.faults.append(f"command {command.number}, {command.line!r}, is answered {answer} in memory")
        self._shows[command.number] = shown


def replay(story: Story, program: str | PathLike[str]) -> Replay:
    """Runs the commands of a record on the program. Raises `NotAnswered` if it doesn't answer each line, and `NotTold` if an answer isn't
    whole."""
    made = Replay(story)
    made._tell(program)
    return made


def _closes(command: Command) -> bool:
    return command.words[0] == "CLOSE"


def _read_shown(answer: str) -> Shown:
    shown = read_standing(answer)
    if not isinstance(shown, Shown):
        raise NotTold(f"this is no answer to SHOW: {answer!a}")
    return shown
