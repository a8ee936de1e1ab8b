"""A client of `/v1` that knows nothing but its document: it calls operations by their ids, and holds what it sends and gets against the schemas.

    openapi_client.py http://127.0.0.1:8444

Each line of its input is a call in JSON: `operation`, `token`, `parameters`, `body`, and for a stream how many `events` it reads. The answer is a
line with `status`, `document` and `faults`: what isn't as the document says.
"""

from __future__ import annotations

import json
import re
import sys
import urllib.error
import urllib.parse
import urllib.request
from collections.abc import Iterator
from typing import Any

KINDS: dict[str, tuple[type, ...]] = {
    "object": (dict,), "array": (list,), "string": (str,), "integer": (int,), "boolean": (bool,), "null": (type(None),),
}


class Api:
    """The operations of a document, by their ids."""

    def __init__(self, address: str) -> None:
        self.address = address
        with urllib.request.urlopen(f"{address}/v1/openapi.json", timeout=60) as answer:
            self.document: dict[str, Any] = json.load(answer)
        self.operations = {one["operationId"]: (method, path, one) for path, item in self.document["paths"].items() for method, one in item.items()}

    def real(self, one: Any) -> Any:
        """What a reference leads to."""
        while "$ref" in one:
            found: Any = self.document
            for part in one["$ref"].removeprefix("#/").split("/"):
                found = found[part]
            one = found
        return one

    def faults(self, value: Any, schema: Any, place: str = "") -> Iterator[str]:
        """What of a value isn't as its schema says."""
        schema = self.real(schema)
        if "oneOf" in schema:
            if sum(not list(self.faults(value, one)) for one in schema["oneOf"]) != 1:
                yield f"{place}: of no kind"
            return
        names = schema.get("type", [])
        kinds = [kind for name in ([names] if isinstance(names, str) else names) for kind in KINDS[name]]
        if kinds and type(value) not in kinds:
            yield f"{place}: {value!r} is no {names}"
        elif isinstance(value, dict):
            known = schema.get("properties", {})
            yield from (f"{place}.{name}: missing" for name in schema.get("required", ()) if name not in value)
            for name, one in value.items():
                if name in known:
                    yield from self.faults(one, known[name], f"{place}.{name}")
                elif schema.get("additionalProperties") is False:
                    yield f"{place}.{name}: unknown"
        elif isinstance(value, list):
            for one in value:
                yield from self.faults(one, schema["items"], f"{place}[]")
        elif isinstance(value, str) and not re.search(schema.get("pattern", ""), value):
            yield f"{place}: {value!r}"
        elif type(value) is int and not schema.get("minimum", value) <= value <= schema.get("maximum", value):
            yield f"{place}: {value!r}"
        elif value is not None and (value not in schema.get("enum", [value]) or value != schema.get("const", value)):
            yield f"{place}: {value!r}"

    def call(self, step: dict[str, Any]) -> dict[str, Any]:
        """One call, and its answer."""
        method, path, operation = self.operations[step["operation"]]
        given, headers = step.get("parameters", {}), {"Accept": step.get("accept", "*/*")}
        if self.document["security"] and operation.get("security") != [] and step.get("token"):
            headers["Authorization"] = f"Bearer {step['token']}"
        for one in operation.get("parameters", ()):
            if one["name"] in given and one["in"] == "path":
                path = path.replace(f"{{{one['name']}}}", urllib.parse.quote(str(given[one["name"]])))
            elif one["name"] in given:
                headers[one["name"]] = given[one["name"]]
        body, faults = None, list[str]()
        if "body" in step:
            body = json.dumps(step["body"]).encode()
            headers["Content-Type"] = "application/json"
            is_sound = not list(self.faults(step["body"], operation["requestBody"]["content"]["application/json"]["schema"]))
            faults += [] if is_sound or step.get("is_bad") else ["the body isn't as the document says"]
        request = urllib.request.Request(self.address + path, body, headers, method=method.upper())
        try:
            answer = urllib.request.urlopen(request, timeout=60)
        except urllib.error.HTTPError as fault:
            answer = fault
        with answer:
            return self.answered(answer, operation, step, faults)

    def answered(self, answer: Any, operation: Any, step: dict[str, Any], faults: list[str]) -> dict[str, Any]:
        """An answer, held against what the operation says of it."""
        described = operation["responses"].get(str(answer.status))
        kind = answer.headers.get_content_type()
        if described is None or kind not in self.real(described)["content"]:
            return {"status": answer.status, "document": None, "faults": [*faults, f"{answer.status} {kind} isn't described"]}
        schema = self.real(described)["content"][kind]["schema"]
        if kind == "text/event-stream":
            document: Any = [json.loads(text) for text in self.events(answer, step["events"])]
            faults += [fault for one in document for fault in self.faults(one, schema)]
        elif kind == "text/csv":
            document = answer.read().decode()
        else:
            document = json.load(answer)
            faults += self.faults(document, schema)
        return {"status": answer.status, "document": document, "faults": faults}

    def events(self, answer: Any, count: int) -> Iterator[str]:
        """The data of so many events."""
        for line in answer:
            if line.startswith(b"data: "):
                yield line[6:].decode()
                count -= 1
                if not count:
                    return


if __name__ == "__main__":
    api = Api(sys.argv[1])
    for text in sys.stdin:
        print(json.dumps(api.call(json.loads(text))), flush=True)
