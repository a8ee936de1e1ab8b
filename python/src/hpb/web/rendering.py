"""Which form of a document a request accepts, and the document in it: JSON, or CSV if it is a list. No input or output."""
import csv
import io
import json
import re
from collections.abc import Mapping, Sequence
from typing import Any, Final

JSON, CSV, PROBLEM = "application/json", "text/csv", "application/problem+json"
_RANGE: Final = re.compile(r"\s*([\w*+.-]+)/([\w*+.-]+)\s*((?:;[^,]*)?)")
_WEIGHT: Final = re.compile(r";\s*q\s*=\s*([01](?:\.[0-9]{0,3})?)\s*(?:;|$)", re.IGNORECASE)


def chosen(accept: str, offered: Sequence[str]) -> str | None:
    """The type of `offered` that a field `Accept` prefers; of those that it likes as much the first. None if it accepts none."""
    if not accept.strip():
        return offered[0]
    ranges = [found for part in accept.split(",") if (found := _RANGE.fullmatch(part))]
    weights = [_weight_of(kind, ranges) for kind in offered]
    best = max(weights, default=0.0)
    return offered[weights.index(best)] if best > 0 else None


def _weight_of(kind: str, ranges: Sequence[re.Match[str]]) -> float:
    """That of the most exact range that a type is in."""
    main, sub = kind.split("/")
    best, weight = 0, 0.0
    for found in ranges:
        exactness = 3 if (found[1], found[2]) == (main, sub) else 2 if (found[1], found[2]) == (main, "*") else 1
        if exactness == 1 and (found[1], found[2]) != ("*", "*"):
            continue
        if exactness > best:
            asked = _WEIGHT.search(found[3])
            best, weight = exactness, float(asked[1]) if asked else 1.0
    return weight


def json_of(document: Mapping[str, Any]) -> bytes:
    """A document as JSON, with an LF."""
    return (json.dumps(document, ensure_ascii=False) + "\n").encode()


def csv_of(rows: Sequence[Mapping[str, Any]], columns: Sequence[str]) -> bytes:
    """Rows as CSV of RFC 4180, with a first line of names. Null is empty, and a flag is `true` or `false`."""
    written = io.StringIO()
    writer = csv.writer(written)
    writer.writerow(columns)
    for row in rows:
        writer.writerow([_cell(row[column]) for column in columns])
    return written.getvalue().encode()


def _cell(value: Any) -> Any:
    if isinstance(value, bool):
        return "true" if value else "false"
    # A text that a spreadsheet would take for a formula gets an apostrophe before it.
    return f"'{value}" if isinstance(value, str) and value[:1] in ("=", "+", "-", "@", "\t", "\r") else value
