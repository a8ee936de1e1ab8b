"""Values against schemas of JSON Schema 2020-12, by the keywords that `openapi.json` uses. Any other keyword is a fault of the test."""
from __future__ import annotations

import re
from collections.abc import Iterator, Mapping
from typing import Any

TYPES: Mapping[str, tuple[type, ...]] = {
    "object": (dict,), "array": (list,), "string": (str,), "integer": (int,), "boolean": (bool,), "null": (type(None),),
}
KNOWN = {
    "description", "type", "properties", "required", "additionalProperties", "items", "$ref", "oneOf", "enum", "const", "pattern", "minimum", "maximum",
}


class Schemas:
    """The schemas of a document of OpenAPI. `seen` has each property that a value had, and whether it was null."""

    def __init__(self, document: Mapping[str, Any]) -> None:
        self.document = document
        self.seen: set[tuple[str, str, bool]] = set()

    def named(self, ref: str) -> Any:
        """What a reference leads to."""
        found: Any = self.document
        for part in ref.removeprefix("#/").split("/"):
            found = found[part]
        return found

    def faults(self, value: Any, schema: Mapping[str, Any], place: str = "") -> list[str]:
        """What of a value the schema doesn't allow."""
        return list(self._faults(value, schema, place))

    def _faults(self, value: Any, schema: Mapping[str, Any], place: str) -> Iterator[str]:
        assert not set(schema) - KNOWN, set(schema) - KNOWN
        if "$ref" in schema:
            yield from self._faults(value, self.named(schema["$ref"]), schema["$ref"].rsplit("/", 1)[1])
            return
        if "oneOf" in schema:
            fits = [one for one in schema["oneOf"] if not self.faults(value, one, place)]
            if len(fits) != 1:
                yield f"{place}: fits {len(fits)} of {len(schema['oneOf'])}"
            return
        kinds = schema.get("type", [])
        allowed = [kind for name in ([kinds] if isinstance(kinds, str) else kinds) for kind in TYPES[name]]
        if allowed and not (type(value) in allowed):
            yield f"{place}: {value!r} is none of {kinds}"
            return
        yield from self._faults_of_value(value, schema, place)
        if isinstance(value, dict):
            yield from self._faults_of_object(value, schema, place)
        for one in value if isinstance(value, list) else ():
            yield from self._faults(one, schema["items"], f"{place}[]")

    def _faults_of_value(self, value: Any, schema: Mapping[str, Any], place: str) -> Iterator[str]:
        if value is None:
            return
        is_out = isinstance(value, int) and not schema.get("minimum", value) <= value <= schema.get("maximum", value)
        is_other = "pattern" in schema and not re.search(schema["pattern"], value)
        if is_out or is_other or value not in schema.get("enum", [value]) or value != schema.get("const", value):
            yield f"{place}: {value!r}"

    def _faults_of_object(self, value: Mapping[str, Any], schema: Mapping[str, Any], place: str) -> Iterator[str]:
        properties = schema.get("properties", {})
        yield from (f"{place}.{name}: missing" for name in schema.get("required", []) if name not in value)
        for name, one in value.items():
            if name in properties:
                self.seen.add((place, name, one is None))
                yield from self._faults(one, properties[name], f"{place}.{name}")
            elif schema.get("additionalProperties", True) is False:
                yield f"{place}.{name}: unknown"

    def properties(self, schema: Mapping[str, Any], place: str = "") -> Iterator[tuple[str, str, bool]]:
        """Each property under a schema, and, if it may be null, that it is so."""
        if "$ref" in schema:
            yield from self.properties(self.named(schema["$ref"]), schema["$ref"].rsplit("/", 1)[1])
        for one in schema.get("oneOf", ()):
            yield from self.properties(one, place)
        for name, one in schema.get("properties", {}).items():
            yield place, name, False
            if "null" in one.get("type", ()):
                yield place, name, True
            yield from self.properties(one, f"{place}.{name}")
        if "items" in schema:
            yield from self.properties(schema["items"], f"{place}[]")
