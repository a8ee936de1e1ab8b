"""What the tests of the page have `hpb` do: scripts, runs of a file and sessions, and commands with their words.

A transcript is lines with their answers: `BID x 1 a 100 = OK 1; SHOW = ..`, parted by semicolons or line ends. A number stands for the
refusal with the word of the page's table, and `NODE a = HIGH 0 - ..` doesn't say `NODE a` again. FIRST stands for the first round of the
page, and <EOF> at the end of a line for its missing LF. Letters up to U+00FF stand for the byte of that number. `waivers 2` and
`OLD -> NEW` at the front change the definition.
"""

from __future__ import annotations

import re
import shlex
import subprocess
from collections.abc import Callable
from dataclasses import dataclass
from pathlib import Path

from harness.auctions import Layout
from harness.conditions import NORMAL, Conditions
from harness.full_disks import filled, no_signal
from harness.programs import Program, Ran, format_words, shown
from harness.serving import Server
from harness.streams import read_bytes
from protocol.page import PAGE

SECONDS = 60
FIRST = "; ".join(f"{line} = {answer}" for line, answer in PAGE.table("Line", "Answer").pairs() if answer.startswith("OK"))
SHOWN = "ROUND 1 STAGE 1 OPEN REVENUE 0 COUNT {}\n"
EMPTY = SHOWN.format(0)
WORDS = {row[0]: row[1].strip("`") for row in PAGE.table("Number", "Word", "When", "What to do next").rows}
AT_A_TERMINAL = [said for row in PAGE.table("Of", "Its line").rows for said in re.findall("`(hpb: .*?)`", row[1])]
FULL_DISK = "hpb: 91 device: the disk of F failed: File too large (os error 27). All that was answered by OK is kept."


def transcript(text: str) -> tuple[str, str]:
    """Its lines, and its answers. A line without ` = ` has none."""
    pairs = [pair.rsplit(" = ", 1) for pair in re.split(r"; |;?\n *", text.replace("FIRST", FIRST).strip("\n ;")) if pair]
    lines = "".join(f"{pair[0]}\n" for pair in pairs).replace("<EOF>\n", "")
    return lines, "".join(f"{whole(*pair)}\n" for pair in pairs if len(pair) > 1)


def whole(line: str, answer: str) -> str:
    """The answer to a line. A number stands for its refusal, and the words of a line aren't said again."""
    if answer.isdigit():
        return f"ERR {answer} {WORDS[answer]}"
    return f"{line} {answer}" if answer.startswith(("HIGH ", "ELIGIBILITY ")) else answer


def same(answer: str, *lines: str) -> str:
    """A transcript of lines that have one answer."""
    return "; ".join(f"{line} = {answer}" for line in lines)


def changed(*changes: str) -> str:
    """The definition of the page, with `OLD -> NEW` for each change, of which OLD stands there. An OLD `step` puts NEW before the step."""
    definition = PAGE.definition
    for change in changes:
        old, new = change.split(" -> ")
        assert old in definition, old
        definition = definition.replace(old, new, 1)
    return definition


def data(text: str | bytes) -> bytes:
    """The bytes of a text."""
    return text if isinstance(text, bytes) else text.encode("latin-1")


def check_said(ran: Ran) -> None:
    """Each line of standard error begins with `hpb: `, a number and its word; but of wrong words, of help, and at a terminal."""
    if ran.errors.startswith("error: ") or ran.errors == "hpb: an argument is not UTF-8\n":
        assert ran.status == 2, ran
    elif "Usage: " in ran.errors or re.match(r"hpb \d", ran.errors):
        assert ran.status == 0, ran
    else:
        for line in ran.errors.splitlines():
            said = re.match(r"hpb: (\d\d) ([a-z]+): .", line)
            assert line in AT_A_TERMINAL or (said and WORDS.get(said[1]) == said[2]), line


class Talk:
    """A program that is sent lines and answers them while it waits for more."""

    def __init__(self, process: subprocess.Popen[bytes]) -> None:
        self.process = process

    def send(self, text: str) -> None:
        """These bytes come at once."""
        assert self.process.stdin is not None
        self.process.stdin.write(data(text))
        self.process.stdin.flush()

    def answers(self, wanted: str) -> None:
        """It answers so before more comes."""
        assert self.process.stdout is not None
        assert shown(read_bytes(self.process.stdout, len(wanted))) == wanted

    def asks(self, text: str) -> None:
        """The lines of a transcript come at once, and its answers before more comes."""
        lines, answers = transcript(text)
        self.send(lines)
        self.answers(answers)

    def ends(self, status: int = 0, said: str = "") -> None:
        """It answers no more, and ends so, with this front of what it says."""
        output, errors = self.process.communicate(timeout=SECONDS)
        assert (output, shown(errors)[: len(said) or None], self.process.returncode) == (b"", said, status)


@dataclass(frozen=True)
class Hpb:
    """The program in a folder. Each run is compared with its whole output, all that is said, and its status."""

    program: Program
    folder: Path

    def ran(self, words: str, text: str | bytes = b"", output: int = subprocess.PIPE, conditions: Conditions = NORMAL) -> Ran:
        """What it does with this text; only the form of what it says is compared."""
        where = Conditions(folder=self.folder, limits=conditions.limits, last=conditions.last)
        ran = self.program.run(*shlex.split(words), text=data(text), output=output, conditions=where, seconds=SECONDS)
        check_said(ran)
        return ran

    def gives(self, words: str, output: str, text: str | bytes = b"") -> None:
        """It writes this, says nothing and ends with 0."""
        ran = self.ran(words, text)
        assert (ran.output, ran.errors, ran.status) == (output, "", 0), words

    def refuses(self, words: str, refusal: str, text: str | bytes = b"", said: str = "") -> None:
        """It writes the line of this refusal, says its number, its word and this front of a reason, and ends with 1."""
        ran = self.ran(words, text)
        assert (ran.output, ran.status) == (f"ERR {refusal}\n", 1), words
        assert re.fullmatch(f"hpb: {refusal}: (?=.){re.escape(said)}.*\n", ran.errors), ran

    def misreads(self, *commands: str) -> None:
        """It knows none of these words."""
        for words in commands:
            ran = self.ran(words)
            assert (ran.output, ran.errors[:7], ran.status) == ("", "error: ", 2), words

    def formats(self, file: str = "F", journal: int = 4, layout: Layout = Layout.PAGES, definition: str = "") -> Path:
        """A new file."""
        words = shlex.join(map(str, format_words(Path(file), layout, journal)))
        self.gives(words, f"FORMATTED {layout.pages(journal)}\n", definition or PAGE.definition)
        return self.folder / file

    def runs(self, text: str, *words: str) -> None:
        """A run of F answers as this transcript says."""
        lines, answers = transcript(text)
        self.gives(shlex.join(["run", "--file", "F", *words]), answers, lines)

    def starts(self, words: str) -> Talk:
        """It waits for lines, and no signal ends it."""
        conditions = Conditions(folder=self.folder, last=no_signal)
        return Talk(self.program.start(*shlex.split(words), input=subprocess.PIPE, conditions=conditions))

    def fills(self, words: str, text: str, said: str = FULL_DISK, output: int = subprocess.PIPE) -> None:
        """A run whose disk is full from its first line on answers as this transcript says, and ends with 1 after this front of a reason."""
        lines, answers = transcript(text)
        conditions = Conditions(folder=self.folder, last=no_signal)
        process = self.program.start(*shlex.split(words), input=subprocess.PIPE, output=output, conditions=conditions)
        written, errors, status = filled(process, data(lines))
        check_said(Ran("", errors, status, 0))
        assert (written, errors[: len(said)], status) == (answers if output == subprocess.PIPE else "", said, 1), words


# Compares the answers of a transcript with those of a program, on a definition: that of the page, or another.
Asks = Callable[..., None]


def prepared(text: str, definition: str) -> tuple[str, str, str]:
    """The definition with the changes at the front of a transcript, its lines and its answers."""
    changes = []
    while found := re.match(r"\s*(?:waivers (\d+)|(\S+ -> \S+)); ", text):
        changes.append(found[2] or f'"nodes" -> "waivers":{found[1]},"nodes"')
        text = text[found.end() :]
    return (changed(*changes) if changes else definition or PAGE.definition, *transcript(text))


def asks_script(program: Program, text: str, definition: str = "") -> None:
    """By a script."""
    definition, lines, answers = prepared(text, definition)
    ran = program.run(text=data(definition + lines), seconds=SECONDS)
    assert (ran.output, ran.errors, ran.status) == (answers, "", 0)


def asks_server(program: Program, file: Path, layout: Layout, text: str, definition: str = "") -> None:
    """By one session of a server on a new file, which then says how many commands it keeps."""
    definition, lines, answers = prepared(text, definition)
    program.format(file, layout, text=data(definition))
    with Server(program, file) as server:
        client = server.connect()
        client.send(data(lines))
        found = client.finish()
        ran = server.ended()
    count = max(map(int, re.findall(r"^OK (\d+)$", answers, re.MULTILINE)), default=0)
    assert found == answers.splitlines()
    assert (ran.output, ran.status) == (f"CLOSED {count}\n", 0), ran
    assert not without_places(ran.errors), ran.errors
    file.unlink()


def without_places(errors: str) -> str:
    """The lines of standard error without those about places: which are taken, who has them and how that ends."""
    return re.sub(r"hpb: (\d+ of \d+ places taken|place \d+ of \d+ (is held by [0-9.:]+|\([0-9.:]+\) has ended: [^\n]+))\n", "", errors)
