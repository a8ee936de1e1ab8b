"""Requests as lines: the JSON of a body becomes the line that a front takes, or is refused. No input or output.

Amounts are whole dollars. A command bears its ticket, so that it counts once however often it is sent.
"""
import json
import re
from collections.abc import Mapping
from typing import Any, Final

from hpb.limits import MOST_AMOUNT, MOST_COMMANDS, MOST_LINE_BYTES, MOST_TICKET, NAME
from hpb.lines import Bid, Close, Command, Stage, Waive, format_line
from hpb.web.problems import problem

# The fields of each kind of command, besides `kind`: those that it must have, and those that it may have.
COMMANDS: Final[Mapping[str, tuple[tuple[str, ...], tuple[str, ...]]]] = {
    "bid": (("bidder", "node", "amount", "ticket"), ("round",)),
    "waive": (("bidder", "ticket"), ("round",)),
    "close": (("ticket",), ("ending",)),
    "stage": (("ticket",), ()),
}
CLOCK: Final[Mapping[str, tuple[tuple[str, ...], tuple[str, ...]]]] = {
    "open": (("round", "until"), ("ending",)),
    "extend": (("round", "until"), ()),
    "pause": ((), ()),
    "resume": ((), ()),
}
_TIME: Final = re.compile(r"[0-9T:Z-]{4,20}")
# Characters that a line may not have.
_CONTROL: Final = re.compile(r"[\x00-\x1f\x7f]")


def document_in(body: bytes) -> dict[str, Any]:
    """The JSON object in a body. A member that stands twice is refused."""
    try:
        found = json.loads(body.decode("utf-8"), object_pairs_hook=_members)
    except (ValueError, RecursionError) as fault:
        raise problem("request", f"the body is no JSON: {fault}") from None
    if not isinstance(found, dict):
        raise problem("request", "the body is no object")
    return found


def _members(pairs: list[tuple[str, Any]]) -> dict[str, Any]:
    found = dict(pairs)
    if len(found) != len(pairs):
        raise ValueError("a member stands twice")
    return found


def command_in(document: Mapping[str, Any]) -> Command:
    """The command in a document. One that isn't of the interface is refused as `request`."""
    kind, fields = _kind_in(document, COMMANDS)
    ticket = _number(fields, "ticket", 0, MOST_TICKET)
    of_round = _number(fields, "round", 1, MOST_COMMANDS) if "round" in fields else None
    match kind:
        case "bid":
            return Bid(_name(fields, "bidder"), _name(fields, "node"), _number(fields, "amount", 0, MOST_AMOUNT), ticket, of_round)
        case "waive":
            return Waive(_name(fields, "bidder"), ticket, of_round)
        case "close":
            return Close(ticket, _flag(fields, "ending"))
        case _:
            return Stage(ticket)


def clock_line_in(document: Mapping[str, Any]) -> str:
    """The line by which an auctioneer changes the round clock."""
    kind, fields = _kind_in(document, CLOCK)
    if kind in ("pause", "resume"):
        return kind.upper()
    number, until = _number(fields, "round", 1, MOST_COMMANDS), fields["until"]
    if not isinstance(until, str) or not _TIME.fullmatch(until):
        raise problem("request", "until: no time")
    if kind == "extend":
        return f"EXTEND {number} {until}"
    return f"OPEN {number} UNTIL {until}{' ENDING' if _flag(fields, 'ending') else ''}"


def announcement_line_in(document: Mapping[str, Any]) -> str:
    """The line by which an auctioneer announces a text to a name, or to `all`."""
    fields = _fields_in(document, ("to", "text"), ())
    return announcement_line(_name(fields, "to"), fields["text"])


def announcement_line(to: str, text: object) -> str:
    """The same, of a name and a text."""
    if not isinstance(text, str) or not text.strip() or _CONTROL.search(text) or "  " in text or text != text.strip():
        raise problem("request", "text: a text without control characters, with one space between two words")
    # A line has bytes: each character beyond ASCII is as many of them as UTF-8 has. Half a pair of UTF-16 is no character.
    try:
        line = f"SAY {to} {text}".encode().decode("latin-1")
    except UnicodeEncodeError:
        raise problem("request", "text: half a character") from None
    if len(line) > MOST_LINE_BYTES:
        raise problem("request", f"text: the line would have {len(line)} bytes, and may have {MOST_LINE_BYTES}")
    return line


def number_in(document: Mapping[str, Any], field: str, most: int) -> int:
    """The one number of a document that has nothing else."""
    return _number(_fields_in(document, (field,), ()), field, 0, most)


def line_of(command: Command) -> str:
    """The line of a command. If it would be too long, the problem is one of the request."""
    try:
        return format_line(command)
    except ValueError as fault:
        raise problem("request", str(fault)) from None


def _kind_in(document: Mapping[str, Any], kinds: Mapping[str, tuple[tuple[str, ...], tuple[str, ...]]]) -> tuple[str, Mapping[str, Any]]:
    kind = document.get("kind")
    if not isinstance(kind, str) or kind not in kinds:
        raise problem("request", f"kind: one of {', '.join(kinds)}")
    needed, allowed = kinds[kind]
    return kind, _fields_in(document, ("kind", *needed), allowed)


def _fields_in(document: Mapping[str, Any], needed: tuple[str, ...], allowed: tuple[str, ...]) -> Mapping[str, Any]:
    for field in needed:
        if field not in document:
            raise problem("request", f"{field}: missing")
    for field in document:
        if field not in needed and field not in allowed:
            raise problem("request", f"{field[:32]!a}: unknown")
    return document


def _name(fields: Mapping[str, Any], field: str) -> str:
    value = fields[field]
    if not isinstance(value, str) or not NAME.fullmatch(value):
        raise problem("request", f"{field}: no name of 1 to 16 of a to z, 0 to 9 and _")
    return value


def _number(fields: Mapping[str, Any], field: str, least: int, most: int) -> int:
    value = fields[field]
    if isinstance(value, bool) or not isinstance(value, int) or not least <= value <= most:
        raise problem("request", f"{field}: no whole number from {least:,} to {most:,}")
    return value


def _flag(fields: Mapping[str, Any], field: str) -> bool:
    value = fields.get(field, False)
    if not isinstance(value, bool):
        raise problem("request", f"{field}: neither true nor false")
    return value
