"""The head of an auction's file: the definition, and how many frames the journal has (docs/FORMATS.md)."""
import struct
from collections.abc import Iterator
from dataclasses import dataclass
from typing import Any, Final

from hpb.file.layout import HEAD_PAGES, LEAST_PAGES, PAGE, Layout, gate_is_open
from hpb.refusals import BadHead, Refused, Unformatted
from hpb.rules.definition import Bidder, Definition, Node, Terms, check

_MAGIC_AT: Final = 16
_MAGIC: Final = b"HPBAUCT1"
_HEAD: Final = struct.Struct(">8s6B4s2BII")
_NODE: Final = struct.Struct(">16s2BHIQ")
_BIDDER: Final = struct.Struct(">16sII")
_NO_PARENT: Final = 255


@dataclass(frozen=True, slots=True)
class Head:
    """The contents of the first three pages. `state_format` is the format of states at formatting, 1 or 2; nothing depends on it."""

    definition: Definition
    layout: Layout
    frames: int
    state_format: int


def read_head(image: bytes) -> Head:
    """The head of a whole file. Refused by `Unformatted` (40) or `BadHead` (42), as `hpb` refuses it."""
    if len(image) % PAGE or len(image) < LEAST_PAGES * PAGE:
        raise Unformatted(f"{len(image):,} bytes are not {LEAST_PAGES} pages of {PAGE:,} bytes or more")
    if not gate_is_open(image, 0) or image[_MAGIC_AT : _MAGIC_AT + len(_MAGIC)] != _MAGIC:
        raise Unformatted("the head isn't that of an auction's file")
    try:
        return _head(image)
    except BadHead:
        raise
    except Refused as fault:
        raise BadHead(fault.detail) from None


def _head(image: bytes) -> Head:
    _, layout, form, nodes, bidders, percent, count, stages, waivers, spare, step, frames = _HEAD.unpack_from(image, _MAGIC_AT)
    if any(stages[count:]) or count > len(stages) or spare or any(image[_MAGIC_AT + _HEAD.size : PAGE]):
        raise BadHead("the first page has a byte that isn't of its format")
    if form not in (1, 2) or (form == 1 and waivers):
        raise BadHead(f"the state format is {form}, with {waivers} waivers")
    if layout not in tuple(Layout) or not Layout(layout).has(frames) or len(image) != Layout(layout).length(frames):
        raise BadHead(f"{len(image):,} bytes are not those of layout {layout} with {frames} frames")
    definition = Definition(
        step=step,
        percent=percent,
        stages=tuple(stages[:count]),
        nodes=_nodes(image[PAGE : 2 * PAGE], nodes),
        bidders=_bidders(image[2 * PAGE : HEAD_PAGES * PAGE], bidders),
        waivers=waivers,
    )
    check(definition)
    return Head(definition, Layout(layout), frames, form)


def _nodes(page: bytes, count: int) -> tuple[Node, ...]:
    nodes: list[Node] = []
    for place, (name, parent, kind, zero, units, opening) in enumerate(_entries(page, _NODE, count, "nodes")):
        if zero or kind > 1 or (not kind and (units or opening)):
            raise BadHead(f"nodes[{place}] has a byte that isn't of its format")
        if parent != _NO_PARENT and parent >= place:
            raise BadHead(f"nodes[{place}].parent is no node before it")
        above = None if parent == _NO_PARENT else nodes[parent].name
        nodes.append(Node(_name(name), above, Terms(units, opening) if kind else None))
    return tuple(nodes)


def _bidders(page: bytes, count: int) -> tuple[Bidder, ...]:
    bidders: list[Bidder] = []
    for place, (name, units, zero) in enumerate(_entries(page, _BIDDER, count, "bidders")):
        if zero:
            raise BadHead(f"bidders[{place}] has a byte that isn't of its format")
        bidders.append(Bidder(_name(name), units))
    return tuple(bidders)


def _entries(page: bytes, form: struct.Struct, count: int, what: str) -> Iterator[tuple[Any, ...]]:
    """The first `count` entries of a page. The rest of the page has to be zero."""
    end = count * form.size
    if end > PAGE or any(page[end:]):
        raise BadHead(f"behind its {count} {what} their page isn't zero")
    return form.iter_unpack(page[:end])


def _name(field: bytes) -> str:
    return field.rstrip(b"\0").decode("latin-1")
