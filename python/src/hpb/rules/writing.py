"""A definition as JSON, and in a script."""
import json
from typing import Any

from hpb.refusals import NotJson
from hpb.rules.definition import Bidder, Definition, Node, read_definition


def fields_of(definition: Definition) -> dict[str, Any]:
    """The fields of its JSON, in the order of docs/PROTOCOL.md. If the definition has no waivers, that field is left out."""
    fields: dict[str, Any] = {"step": definition.step, "percent": definition.percent, "stages": list(definition.stages)}
    if definition.waivers:
        fields["waivers"] = definition.waivers
    fields["nodes"] = [_node(node) for node in definition.nodes]
    fields["bidders"] = [_bidder(bidder) for bidder in definition.bidders]
    return fields


def _node(node: Node) -> dict[str, Any]:
    named: dict[str, Any] = {"name": node.name, "parent": node.parent}
    return {**named, "units": node.terms.units, "opening": node.terms.opening} if node.terms else named


def _bidder(bidder: Bidder) -> dict[str, Any]:
    return {"name": bidder.name, "units": bidder.units}


def definition_line(definition: Definition) -> str:
    """The line, with its LF, that `hpb` takes as this definition. The definition's checksum is that of this line."""
    return json.dumps(fields_of(definition), separators=(",", ":")) + "\n"


def read_fields(fields: Any) -> Definition:
    """The definition in fields, as JSON has them; refused as `read_definition` refuses it."""
    return read_definition(json.dumps(fields).encode())


def read_script(text: bytes) -> Definition:
    """The definition in a file: either JSON, or a script whose first line is the definition. Refused as `read_definition` refuses it."""
    try:
        return read_definition(text)
    except NotJson:
        first = text.split(b"\n", 1)[0]
    try:
        return read_definition(first)
    except NotJson:
        raise NotJson("the definition is no JSON, nor is its first line") from None
