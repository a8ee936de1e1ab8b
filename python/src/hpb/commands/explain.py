"""Warns about things in a definition that are allowed but hardly meant.

    tools/explain definition.json

The file holds the definition as JSON, or is a script whose first line is the definition. The status is:

- 0, if there is nothing to warn about;
- 1, if there is;
- 2, if the file has no definition that could be examined.

It doesn't say whether the definition is accepted: the program does.
"""
import json
import sys
from collections.abc import Callable, Mapping
from typing import Any

from hpb.commands import the_file
from hpb.commands.shell import from_shell, say
from hpb.plain import plain
from hpb.rules.activity import activity_needed

# An object of JSON, whose fields aren't checked yet.
Object = dict[str, Any]


class NoDefinition(Exception):
    """The file holds no definition."""


def pairs_once(warnings: list[str]) -> Callable[[list[tuple[str, Any]]], Object]:
    """A hook that makes an object, and warns about each key that occurs twice in it."""

    def made(pairs: list[tuple[str, Any]]) -> Object:
        fields = dict(pairs)
        for key in fields:
            if sum(1 for other, _ in pairs if other == key) > 1:
                of = f" of {fields['name']!r}" if key != "name" and "name" in fields else ""
                warnings.append(f"the field {key!r}{of} stands there twice; which of them counts isn't settled")
        return fields

    return made


def read(text: str, warnings: list[str]) -> Any:
    """The definition: the whole text, or else its first line."""
    lines = text.split("\n")
    for part in (text, lines[0]):
        found: list[str] = []
        try:
            definition = json.loads(part, object_pairs_hook=pairs_once(found))
        except ValueError:
            continue
        warnings.extend(found)
        if part is not text and len(lines) > 1 and lines[1].lstrip().startswith("{"):
            warnings.append("the second line looks like a definition too; the first one counts, and the second is answered as a line")
        return definition
    raise NoDefinition("it is no JSON, nor is its first line")


def units(definition: Object) -> dict[str, int]:
    """The bidding units of each node. A package has those of the licences under it."""
    own: dict[str, int] = {node["name"]: node.get("units", 0) for node in definition["nodes"]}
    for node in reversed(definition["nodes"]):
        if node["parent"] is not None:
            own[node["parent"]] += own[node["name"]]
    return own


def warn(definition: Object, warnings: list[str]) -> None:
    """Adds the warnings. If the object is no definition at all, whatever exception comes of that is raised."""
    warn_of_stages(definition["stages"], warnings)
    nodes = units(definition)
    warn_of_units(definition["bidders"], nodes, warnings)
    licences = sum(node.get("units", 0) for node in definition["nodes"])
    warn_of_activity(definition, licences, warnings)


def warn_of_stages(stages: list[int], warnings: list[str]) -> None:
    for place in range(1, len(stages)):
        if stages[place] < stages[place - 1]:
            warnings.append(f"stage {place + 1} asks for less activity than the one before it: {stages[place - 1]}, then {stages[place]} percent")


def warn_of_units(bidders: list[Object], nodes: Mapping[str, int], warnings: list[str]) -> None:
    least = min(nodes, key=lambda name: nodes[name])
    for bidder in bidders:
        if bidder["units"] < nodes[least]:
            warnings.append(f"{bidder['name']} has {bidder['units']} units and can bid on nothing: the smallest node, {least}, has {nodes[least]}")
    most = max(bidder["units"] for bidder in bidders)
    for name, wanted in nodes.items():
        if wanted > most:
            warnings.append(f"nobody can bid on {name}: it has {wanted} units, and no bidder more than {most}")


def warn_of_activity(definition: Object, licences: int, warnings: list[str]) -> None:
    """The most activity is that of all licences together, each counted once."""
    for bidder in definition["bidders"]:
        for place, percentage in enumerate(definition["stages"], 1):
            wanted = activity_needed(percentage, bidder["units"])
            if wanted > licences:
                then = "takes a waiver of it, and without one lowers" if definition.get("waivers") else "lowers"
                warnings.append(
                    f"stage {place} asks {bidder['name']} for an activity of {wanted} units, and all licences have {licences}: each close "
                    f"{then} its eligibility"
                )
                break


def warnings_of(text: str) -> list[str]:
    """The warnings about a definition that `hpb` has accepted."""
    warnings: list[str] = []
    warn(read(text, warnings), warnings)
    return warnings


@from_shell
def main() -> int:
    """Reads the arguments, and returns the status."""
    path = the_file(__doc__)
    if isinstance(path, int):
        return path
    warnings: list[str] = []
    try:
        with open(path, encoding="utf-8") as file:
            warn(read(file.read(), warnings), warnings)
    except NoDefinition as fault:
        say(fault)
        return 2
    except OSError as fault:
        say(fault)
        return 2
    except (AttributeError, KeyError, TypeError, ValueError, RecursionError):
        say("this definition is refused; hpb says why")
        return 2
    for warning in warnings:
        print(plain(warning))
    return 1 if warnings else 0


if __name__ == "__main__":
    sys.exit(main())
