"""Pages of the manual in mdoc(7)."""
import re
import textwrap
from collections.abc import Iterable, Iterator

from manual.help import Help, Row

# mandoc wants a sentence to begin its line, and lines that a terminal shows whole.
SENTENCE = re.compile(r"(?<=[A-Za-z0-9)`\"][.!?]) (?=\S)")
WIDTH = 70
CODE = re.compile(r"`([^`]*)`")
# Stands for a blank in a piece of code, which isn't broken.
BLANK = "\0"
ITEM = re.compile(r"- +")
STATUS = re.compile(r"(?:The status is|Status)\b")


def escaped(text: str) -> str:
    """A text as mdoc has it: nothing in it is taken for a macro."""
    text = CODE.sub(r"\\fB\1\\fR", text.replace("\\", "\\e"))
    return f"\\&{text}" if text.startswith((".", "'")) else text


def filled(text: str) -> Iterator[str]:
    """The lines of a paragraph, with each sentence on lines of its own."""
    whole = CODE.sub(lambda code: code[0].replace(" ", BLANK), " ".join(text.split()))
    for sentence in SENTENCE.split(whole):
        for line in textwrap.wrap(sentence, WIDTH, break_long_words=False, break_on_hyphens=False):
            yield escaped(line.replace(BLANK, " "))


def literal(lines: Iterable[str]) -> Iterator[str]:
    """Lines as they stand, without their common indentation."""
    lines = list(lines)
    margin = min(len(line) - len(line.lstrip()) for line in lines if line.strip())
    yield ".Bd -literal -offset indent"
    for line in lines:
        text = line[margin:].replace("\\", "\\e")
        yield f"\\&{text}" if text.startswith((".", "'")) else text
    yield ".Ed"


def items(lines: Iterable[str]) -> Iterator[str]:
    yield ".Bl -bullet -compact"
    for one in joined(lines):
        yield ".It"
        yield from filled(one)
    yield ".El"


def joined(lines: Iterable[str]) -> list[str]:
    """The items of a list, each of which may stand on several lines."""
    found: list[str] = []
    for line in lines:
        if ITEM.match(line):
            found.append(ITEM.sub("", line, count=1))
        else:
            found[-1] += f" {line.strip()}"
    return found


def tagged(rows: Iterable[tuple[str, str]]) -> Iterator[str]:
    yield ".Bl -tag -width Ds"
    for name, text in rows:
        yield f".It {escaped(name)}"
        yield from filled(text) if text else ["\\&"]
    yield ".El"


def option(row: Row) -> tuple[str, str]:
    """An option or an argument with the macros of its name."""
    words = []
    for part in row.name.split(", "):
        name, _, value = part.partition(" ")
        value = value.strip("<>")
        flag = f"Fl {name[1:]}" if name.startswith("-") else f"Cm {name}" if name.islower() else f"Ar {name}"
        words.append(f"{flag} Ar {value}" if value else flag)
    return " , ".join(words), row.text


def options(rows: Iterable[Row]) -> Iterator[str]:
    yield ".Bl -tag -width Ds"
    for row in rows:
        name, text = option(row)
        yield f".It {name}"
        yield from filled(text)
    yield ".El"


def block(lines: list[str]) -> Iterator[str]:
    """One block of a help: an example, a list, or a paragraph."""
    if all(line.startswith("  ") for line in lines):
        yield from literal(lines)
    elif ITEM.match(lines[0]):
        yield from items(lines)
    else:
        yield ".Pp"
        yield from filled(" ".join(lines))


def blocks(text: Iterable[list[str]]) -> Iterator[str]:
    for lines in text:
        yield from block(lines)


def heading(title: str, lines: Iterable[str]) -> Iterator[str]:
    """A section, if it has lines. A paragraph begins with it anyway."""
    body = list(lines)
    if body:
        yield f".Sh {title}"
        yield from body[1:] if body[0] == ".Pp" else body


def page(name: str, section: int, about: str, date: str, version: str, sections: Iterable[tuple[str, Iterable[str]]]) -> str:
    """A whole page. `date` is that of the version, as `December 1, 2026`."""
    head = [f".Dd {date}", f".Dt {name.upper()} {section}", f".Os hpb {version}", ".Sh NAME", f".Nm {name}", f".Nd {about[0].lower()}{about[1:]}"]
    lines = [*head, *(line for title, body in sections for line in heading(title, body))]
    return "\n".join(tidy(lines)) + "\n"


def tidy(lines: list[str]) -> Iterator[str]:
    """Leaves out the beginning of a paragraph if one begins anyway, or if the paragraph has no text."""
    for line, after in zip(lines, [*lines[1:], ".Sh"]):
        if line == ".Pp" and after.startswith((".Sh", ".Ss", ".Bd", ".Bl", ".Pp")):
            continue
        yield line


def split_status(text: list[list[str]]) -> tuple[list[list[str]], list[list[str]]]:
    """The blocks of a help without those on its status, and these."""
    rest: list[list[str]] = []
    status: list[list[str]] = []
    for lines in text:
        at = next((place for place, line in enumerate(lines) if STATUS.search(line)), None)
        if at is None:
            (status if status and not is_over(status) else rest).append(lines)
            continue
        if at:
            rest.append(lines[:at])
        head, found, tail = lines[at].partition("The status is")
        if found and head.strip():
            rest.append([head.strip()])
            lines = [*lines[:at], found + tail, *lines[at + 1 :]]
        status.append(lines[at:])
    return rest, status


def is_over(status: list[list[str]]) -> bool:
    """Whether the blocks on the status are all there: a line that ends with a colon has its list behind it."""
    return not status[-1][-1].rstrip().endswith(":")


def command_page(help: Help, others: list[Help], see: list[str], date: str, version: str) -> str:
    """The page of a command. `others` are its own commands, such as `hpb format`."""
    text, status = split_status(help.text)
    sections: list[tuple[str, Iterable[str]]] = [
        ("SYNOPSIS", literal(help.usage)),
        ("DESCRIPTION", blocks(text)),
        ("OPTIONS", options(help.arguments + help.options) if help.arguments + help.options else []),
        ("COMMANDS", commands(others)),
        ("EXIT STATUS", blocks(status)),
        ("SEE ALSO", see_also(see)),
    ]
    return page(help.name, 1, help.about, date, version, sections)


def commands(others: list[Help]) -> Iterator[str]:
    for one in others:
        yield f".Ss {one.name}"
        yield from literal(one.usage)
        yield from options(one.options)
        yield from blocks(one.text)


def see_also(pages: list[str]) -> Iterator[str]:
    """References to other pages, as `hpb-front 1`."""
    for place, one in enumerate(pages):
        yield f".Xr {one}" + (" ," if place + 1 < len(pages) else "")
