"""Lines of a record: the same bytes as those of Python's own encoder, whatever the fields are."""
from __future__ import annotations

import hashlib
import json

from hypothesis import given
from hypothesis import strategies as some

from hpb.record import Place, entry_line
from hpb.record.asked import Asked, runs_of
from hpb.record.entries import NO_HASH, json_of, read_entry, text_of

AT = "2026-12-01T15:00:00.123456Z"
LINES = some.binary(max_size=128).map(text_of)
VALUES = some.recursive(
    some.none() | some.booleans() | some.integers() | some.text() | LINES,
    lambda inner: some.lists(inner, max_size=3) | some.dictionaries(some.text(), inner, max_size=3),
    max_leaves=5,
)
FIELDS = some.dictionaries(some.text(min_size=1), VALUES, max_size=4)


@given(FIELDS | some.dictionaries(some.text(), LINES | some.integers()))
def test_fields_are_written_as_the_encoder_writes_them(fields: dict[str, object]) -> None:
    assert json_of(fields) == json.dumps(fields, separators=(",", ":")).encode()


@given(some.dictionaries(some.sampled_from(["name", "line", "answer", "count", "order"]), VALUES), some.none() | some.integers(0, 10**9))
def test_an_entry_is_its_head_and_its_fields_behind_their_hash(fields: dict[str, object], synced: int | None) -> None:
    line, place = entry_line(Place(6, NO_HASH), "accepted", fields, AT, synced)
    on_disk = {} if synced is None else {"synced": synced}
    whole = {"entry": 7, "before": NO_HASH, **on_disk, "at": AT, "kind": "accepted", **fields}
    content = json.dumps(whole, separators=(",", ":")).encode()
    assert line == hashlib.sha256(content).hexdigest().encode() + b" " + content + b"\n"
    assert place == Place(7, line[:64].decode()) and read_entry(line, Place(6, NO_HASH)) == whole


def test_places_side_by_side_are_written_by_one_call() -> None:
    ann, bob = Asked("ann", b"BID x 1 a 100"), Asked("bob", b"BID y 1 b 150")
    assert runs_of({5: ann, 1: bob, 0: None, 2: ann, 7: bob}) == [(0, [None, bob, ann]), (5, [ann]), (7, [bob])]
    assert runs_of({}) == []
