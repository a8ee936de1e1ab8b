"""An auction's definition, by docs/RULES.md: its contents, and which definitions are accepted.

`read_definition` reads JSON as `hpb` does, and raises the refusal that `hpb` gives: 50 to 57 or 60 to 62. `check` is the part that
examines values. Money is in whole dollars, units are bidding units.
"""
import itertools
import json
import re
from collections.abc import Callable, Iterator
from dataclasses import dataclass
from typing import Any

from hpb.limits import (
    LEAST_STAGE,
    MOST_BIDDER_UNITS,
    MOST_BIDDERS,
    MOST_DEFINITION_BYTES,
    MOST_LEVELS,
    MOST_LICENCES,
    MOST_NESTING,
    MOST_NODES,
    MOST_OPENING,
    MOST_PERCENT,
    MOST_STAGE,
    MOST_STAGES,
    MOST_STEP,
    MOST_UNITS,
    MOST_WAIVERS,
    NAME,
)
from hpb.refusals import (
    BadField,
    BadName,
    BadNumber,
    BadParent,
    BadTerms,
    BeyondLimits,
    DuplicateName,
    Empty,
    LicenceWithChild,
    NotJson,
    Refused,
    TooFewChildren,
)


@dataclass(frozen=True, slots=True)
class Terms:
    """A licence's bidding units, 1 to 1,000,000, and its opening: the least first bid in dollars, a multiple of the step."""

    units: int
    opening: int


@dataclass(frozen=True, slots=True)
class Node:
    """A licence, which has terms, or a package, which has none. A top node has no parent; any other node's parent stands before it."""

    name: str
    parent: str | None = None
    terms: Terms | None = None

    @property
    def is_licence(self) -> bool:
        """Whether it is sold by itself and isn't a package."""
        return self.terms is not None


@dataclass(frozen=True, slots=True)
class Bidder:
    """A bidder, and the bidding units that it may be active with at first, 1 to 64,000,000."""

    name: str
    units: int


@dataclass(frozen=True, slots=True)
class Definition:
    """What an auction sells, to which bidders, and its numbers. `check` says whether `hpb` accepts it."""

    step: int
    percent: int
    stages: tuple[int, ...]
    nodes: tuple[Node, ...]
    bidders: tuple[Bidder, ...]
    waivers: int = 0


def check(definition: Definition) -> None:
    """Returns if the definition is accepted. Otherwise raises 62, or else the smallest of 50 to 57 that holds."""
    _check_ranges(definition)
    for look in _LOOKS:
        for fault in look(definition):
            raise fault


def _check_ranges(definition: Definition) -> None:
    ranges = [("step", definition.step, 1, MOST_STEP), ("percent", definition.percent, 1, MOST_PERCENT)]
    ranges.append(("waivers", definition.waivers, 0, MOST_WAIVERS))
    ranges += [(f"stages[{place}]", stage, LEAST_STAGE, MOST_STAGE) for place, stage in enumerate(definition.stages)]
    ranges += [(f"bidders[{place}].units", bidder.units, 1, MOST_BIDDER_UNITS) for place, bidder in enumerate(definition.bidders)]
    for where, value, least, most in ranges:
        if not least <= value <= most:
            raise BadNumber(f"{where}: {value} is not from {least:,} to {most:,}")


def _look_for_empty(definition: Definition) -> Iterator[Refused]:
    for field in ("stages", "nodes", "bidders"):
        if not getattr(definition, field):
            yield Empty(f"{field}: empty; a definition has at least one")


def _look_at_names(definition: Definition) -> Iterator[Refused]:
    for kind in ("nodes", "bidders"):
        for place, named in enumerate(getattr(definition, kind)):
            if not NAME.fullmatch(named.name):
                yield BadName(f"{kind}[{place}].name: {named.name!a} is not 1 to 16 of a to z, 0 to 9 and _")


def _look_for_duplicates(definition: Definition) -> Iterator[Refused]:
    for kind in ("nodes", "bidders"):
        names = [named.name for named in getattr(definition, kind)]
        for place, name in enumerate(names):
            if name in names[:place]:
                yield DuplicateName(f"{kind}[{place}].name: {name!a} is the name of {kind}[{names.index(name)}] too")


def _look_at_parents(definition: Definition) -> Iterator[Refused]:
    before: set[str] = set()
    for place, node in enumerate(definition.nodes):
        if node.parent is not None and node.parent not in before:
            yield BadParent(f"nodes[{place}].parent: {node.parent!a} is no node before it")
        before.add(node.name)


def _look_at_children(definition: Definition) -> Iterator[Refused]:
    children = [sum(other.parent == node.name for other in definition.nodes) for node in definition.nodes]
    for place, (node, count) in enumerate(zip(definition.nodes, children)):
        if not node.is_licence and count < 2:
            yield TooFewChildren(f"nodes[{place}]: the package {node.name!a} has fewer than two children")
    for place, (node, count) in enumerate(zip(definition.nodes, children)):
        if node.is_licence and count:
            yield LicenceWithChild(f"nodes[{place}]: the licence {node.name!a} has a child")


def _look_at_limits(definition: Definition) -> Iterator[Refused]:
    licences = sum(node.is_licence for node in definition.nodes)
    counts = [("nodes", len(definition.nodes), MOST_NODES), ("licences", licences, MOST_LICENCES)]
    counts += [("bidders", len(definition.bidders), MOST_BIDDERS), ("stages", len(definition.stages), MOST_STAGES)]
    for what, count, most in counts:
        if count > most:
            yield BeyondLimits(f"{count} {what} are more than {most}")
    levels: dict[str, int] = {}
    for place, node in enumerate(definition.nodes):
        levels[node.name] = 1 if node.parent is None else levels.get(node.parent, 0) + 1
        if levels[node.name] > MOST_LEVELS:
            yield BeyondLimits(f"nodes[{place}]: on level {levels[node.name]}; there are {MOST_LEVELS} at most")


def _look_at_terms(definition: Definition) -> Iterator[Refused]:
    for place, node in enumerate(definition.nodes):
        if node.terms is None:
            continue
        if not 1 <= node.terms.units <= MOST_UNITS:
            yield BadTerms(f"nodes[{place}].units: {node.terms.units} is not from 1 to {MOST_UNITS:,}")
        opening = node.terms.opening
        if not definition.step <= opening <= MOST_OPENING or opening % definition.step:
            yield BadTerms(f"nodes[{place}].opening: {opening} is no multiple of {definition.step} up to {MOST_OPENING:,}")


# In the order of their numbers, 50 to 57.
_LOOKS = (_look_for_empty, _look_at_names, _look_for_duplicates, _look_at_parents, _look_at_children, _look_at_limits, _look_at_terms)

# JSON. Numbers are kept as text until all types are known, because 61 comes before 62.


class _Digits(str):
    """A number of JSON, as it is written."""


def read_definition(text: bytes) -> Definition:
    """The definition in a JSON text that contains nothing else. Refused by 60, 61, 62 or 50 to 57, as `hpb format` refuses it."""
    found = _fields(_load(text), "the definition", {"step", "percent", "stages", "nodes", "bidders"}, {"waivers"})
    numbers = {field: _typed(found[field], _Digits, field) for field in ("step", "percent")}
    numbers["waivers"] = _typed(found.get("waivers", _Digits("0")), _Digits, "waivers")
    stages = [_typed(stage, _Digits, f"stages[{place}]") for place, stage in enumerate(_typed(found["stages"], list, "stages"))]
    nodes = [_node(value, f"nodes[{place}]") for place, value in enumerate(_typed(found["nodes"], list, "nodes"))]
    bidders = [_bidder(value, f"bidders[{place}]") for place, value in enumerate(_typed(found["bidders"], list, "bidders"))]
    definition = Definition(
        step=_whole(numbers["step"], "step"),
        percent=_whole(numbers["percent"], "percent"),
        stages=tuple(_whole(stage, f"stages[{place}]") for place, stage in enumerate(stages)),
        nodes=tuple(make() for make in nodes),
        bidders=tuple(make() for make in bidders),
        waivers=_whole(numbers["waivers"], "waivers"),
    )
    check(definition)
    return definition


def _load(text: bytes) -> Any:
    if len(text) > MOST_DEFINITION_BYTES:
        raise NotJson(f"more than {MOST_DEFINITION_BYTES:,} bytes")
    if _depth(text) > MOST_NESTING:
        raise NotJson(f"nested more than {MOST_NESTING} deep")
    try:
        return json.loads(text.decode("utf-8"), parse_int=_Digits, parse_float=_float, parse_constant=_refuse_constant)
    except (ValueError, RecursionError) as fault:
        raise NotJson(str(fault)) from None


def _depth(text: bytes) -> int:
    """How deep brackets are nested, not counting those in strings."""
    brackets = re.findall(rb"[][{}]", re.sub(rb'"(?:[^"\\\\]|\\\\.)*"', b"", text, flags=re.DOTALL))
    return max(itertools.accumulate((1 if bracket in b"[{" else -1 for bracket in brackets), initial=0))


def _float(text: str) -> _Digits:
    if abs(float(text)) == float("inf"):
        raise ValueError("a number is too large to be read")
    return _Digits(text)


def _refuse_constant(text: str) -> None:
    raise ValueError(f"{text} is no JSON")


def _fields(value: Any, where: str, needed: set[str], allowed: set[str]) -> dict[str, Any]:
    found: dict[str, Any] = _typed(value, dict, where)
    for field in sorted(needed - found.keys()):
        raise BadField(f"{where}.{field}: missing")
    for field in sorted(found.keys() - needed - allowed):
        raise BadField(f"{where}.{field}: unknown")
    return found


def _typed(value: Any, kind: type[Any], where: str) -> Any:
    # Numbers are kept as a text type of their own, so a number isn't accepted as a string.
    if type(value) is not kind:
        raise BadField(f"{where}: of another type")
    return value


def _whole(digits: str, where: str) -> int:
    if not (digits.isascii() and digits.isdigit()):
        raise BadNumber(f"{where}: {digits[:32]} is no whole number in plain digits")
    if len(digits) > 20 or int(digits) >= 2**64:
        raise BadNumber(f"{where}: {digits[:32]} is too large: it doesn't fit 64 bits")
    return int(digits)


def _node(value: Any, where: str) -> Callable[[], Node]:
    """A function that makes the node, to be called when all types are known."""
    found = _fields(value, where, {"name", "parent"}, {"units", "opening"})
    name, parent = _typed(found["name"], str, f"{where}.name"), found["parent"]
    if parent is not None:
        _typed(parent, str, f"{where}.parent")
    if ("units" in found) != ("opening" in found):
        raise BadField(f"{where}: a licence has units and opening, a package neither")
    if "units" not in found:
        return lambda: Node(name, parent)
    units, opening = (_typed(found[field], _Digits, f"{where}.{field}") for field in ("units", "opening"))
    return lambda: Node(name, parent, Terms(_whole(units, f"{where}.units"), _whole(opening, f"{where}.opening")))


def _bidder(value: Any, where: str) -> Callable[[], Bidder]:
    found = _fields(value, where, {"name", "units"}, set())
    name, units = _typed(found["name"], str, f"{where}.name"), _typed(found["units"], _Digits, f"{where}.units")
    return lambda: Bidder(name, _whole(units, f"{where}.units"))
