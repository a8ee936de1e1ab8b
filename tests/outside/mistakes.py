"""Mistakes in a definition: the answer to each, the message about it, and the warnings of tools/explain."""

from __future__ import annotations

import json
import re
from collections.abc import Iterator
from dataclasses import dataclass

from harness.auctions import EXAMPLES

DEFINITION = (EXAMPLES / "coast.txt").read_bytes().split(b"\n")[0]
# The end of a message about a script whose first line ends too early; `format` says no such thing.
ONE_LINE = ": a script has the whole definition in its first line, as `jq -c . definition.json` writes it"
Fields = dict[str, object]


@dataclass(frozen=True)
class Mistake:
    """A script, or a definition for `format`, with its answer and messages. One that is accepted has no message."""

    title: str
    script: bytes
    output: str
    said: str = ""
    warned: str = ""

    @property
    def number(self) -> int:
        """That of the refusal."""
        return int(self.said.split(" ")[1])


def read_mistakes(name: str) -> list[Mistake]:
    """Those of a file of examples/, which says itself how it is written."""
    text = (EXAMPLES / name).read_text(encoding="utf-8")
    paragraphs = [[line for line in part.splitlines() if not line.startswith("#")] for part in text.split("\n\n")]
    return [_read(title, lines) for title, *lines in filter(None, paragraphs)]


def _read(title: str, lines: list[str]) -> Mistake:
    found = {sign: [line[2:] for line in lines if line[0] == sign] for sign in "-+=!?"}
    ((old,), (new,)) = found["-"], found["+"]
    script = DEFINITION + b"\nSHOW\n"
    if spelled(old) not in script or len(lines) != sum(map(len, found.values())):
        raise ValueError(f"not written as the others: {title}")
    output, said, warned = ("".join(f"{line}\n" for line in found[sign]) for sign in "=!?")
    return Mistake(title, script.replace(spelled(old), spelled(new), 1), output, said, warned)


def spelled(text: str) -> bytes:
    r"""The bytes of such a text: \n is a line feed, \xEF a byte, DEFINITION the definition."""
    found = text.encode().replace(b"\\n", b"\n")
    found = re.sub(rb"\\x([0-9a-f]{2})", lambda at: bytes.fromhex(at.group(1).decode()), found)
    return found.replace(b"DEFINITION", DEFINITION)


def refused(title: str, text: bytes, said: str) -> Mistake:
    """One that is refused with this number, word and reason."""
    return Mistake(title, text, f"ERR {said.split(':')[0]}\n", f"hpb: {said}\n")


def licence(name: str, parent: str | None = None) -> Fields:
    """A node that is a licence."""
    return {"name": name, "parent": parent, "units": 1, "opening": 50}


def with_fields(**fields: object) -> bytes:
    """The definition with other fields."""
    return json.dumps({**json.loads(DEFINITION), **fields}, separators=(",", ":")).encode()


def _long() -> Iterator[tuple[str, bytes, str]]:
    licences = [licence(f"l{place}") for place in range(128)]
    packages: list[Fields] = [{"name": f"p{level}", "parent": f"p{level - 1}" if level > 1 else None} for level in range(1, 9)]
    deep = [*packages, licence("low", "p8"), licence("lower", "p8"), *(licence(f"l{level}", f"p{level}") for level in range(1, 8))]
    bidders = [{"name": f"b{place}", "units": 1} for place in range(65)]
    many_licences, many_bidders = "56 limits: nodes: 65 licences are more than 64", "56 limits: bidders: 65 are more than 64"
    yield "one byte too many", DEFINITION.ljust(65_537), "60 json: more than 65,536 bytes"
    yield "blanks alone, as many as may be read", b" " * 65_536, f"60 json: the definition is empty{ONE_LINE}"
    yield "far too many bytes", b"[" * 100_000, "60 json: more than 65,536 bytes"
    yield "128 nested lists", b"[" * 128 + b"]" * 128, "60 json: line 1 column 129: nested more than 127 deep"
    yield "127 nested lists", b"[" * 127 + b"]" * 127, "61 field: the definition is a list, and has to be an object"
    yield "128 lists without an end", b"[" * 128, "60 json: line 1 column 128: nested more than 127 deep"
    yield "127 lists without an end", b"[" * 127, f"60 json: line 1 column 127: the text ends before the JSON does{ONE_LINE}"
    yield "127 objects without an end", b'{"[\\"[":' * 127, f"60 json: line 1 column 1016: the text ends before the JSON does{ONE_LINE}"
    yield "128 nodes", with_fields(nodes=licences), "56 limits: nodes: 128 are more than 127"
    yield "65 licences", with_fields(nodes=licences[:65]), many_licences
    yield "65 bidders", with_fields(bidders=bidders), many_bidders
    yield "nine levels", with_fields(nodes=deep), "56 limits: nodes[8]: on level 9; there are 8 at most"
    yield "65 licences, 65 bidders", with_fields(nodes=licences[:65], bidders=bidders), many_licences
    yield "65 bidders, five stages", with_fields(bidders=bidders, stages=[50] * 5), many_bidders
    yield "five stages, nine levels", with_fields(nodes=deep, stages=[50] * 5), "56 limits: stages: 5 are more than 4"


def long_mistakes() -> list[Mistake]:
    """Scripts that are too long to be written out."""
    return [refused(title, text + b"\nSHOW\n", said) for title, text, said in _long()]


OVER_LINES = json.dumps(json.loads(DEFINITION), indent=1)
UNKNOWN = "61 field: nodes[4].Opening: unknown; a node has the fields name, parent, units and opening"
# A part of the definition over many lines, the text in its place, and the message about it.
CHANGES = [
    ("a word for a number", '"percent": 5,', '"percent": five,', '60 json: line 3 column 13: reading stopped at "f"'),
    ("no comma", "80,\n", "80\n", '60 json: line 6 column 3: reading stopped at "9"'),
    ("a front", OVER_LINES[OVER_LINES.index(' "nodes"') - 1 :], "", "60 json: line 7 column 3: the text ends before the JSON does"),
    ("a byte that is no UTF-8", "port", "p\udce9rt", "60 json: line 30 column 14: not UTF-8"),
    ("a field", '"opening": 2000', '"Opening": 2000', UNKNOWN),
    ("a brace behind the definition", OVER_LINES, "{}\n }", '60 json: line 2 column 2: reading stopped at "}"'),
    ("nothing but lines", OVER_LINES, "\n\n", "60 json: the definition is empty"),
]


def mistakes_over_lines() -> list[Mistake]:
    """Definitions over many lines, as `format` takes them."""
    for title, old, _, _ in CHANGES:
        if old not in OVER_LINES:
            raise ValueError(f"not in the definition: {title}")
    texts = [OVER_LINES.replace(old, new, 1).encode(errors="surrogateescape") for _, old, new, _ in CHANGES]
    return [refused(title, text, said) for text, (title, _, _, said) in zip(texts, CHANGES)]


MISTAKES = read_mistakes("mistakes")
REASONS = [*read_mistakes("each-reason"), *long_mistakes()]
OVER_MANY_LINES = mistakes_over_lines()
