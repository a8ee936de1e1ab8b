"""The rest of an auction's nodes once some licences are sold, by hand."""
from __future__ import annotations

import pytest

from hpb.auctions.deriving import nodes_left
from hpb.rules import read_definition
from hpb.rules.tree import tree_of
from serving import DEFINITION

# The definition of the example: all has east and c, east has a and b, and d stands by itself.
WHOLE = [("all", None), ("east", "all"), ("a", "east"), ("b", "east"), ("c", "all"), ("d", None)]


@pytest.mark.parametrize(("sold", "left"), [
    ("", WHOLE),
    ("d", WHOLE[:-1]),
    # A package with one node left gives way to that node, and so does the one above it.
    ("a", [("all", None), ("b", "all"), ("c", "all"), ("d", None)]),
    ("ab", [("c", None), ("d", None)]),
    ("c", [("east", None), ("a", "east"), ("b", "east"), ("d", None)]),
    ("abc", [("d", None)]),
    ("abcd", []),
])
def test_packages_stay_as_long_as_they_have_two_nodes(sold: str, left: list[tuple[str, str | None]]) -> None:
    tree = tree_of(read_definition(DEFINITION))
    assert [(node.name, node.parent) for node in tree.definition.nodes] == WHOLE
    found = nodes_left(tree, frozenset(sold))
    assert [(node.name, node.parent) for node in found] == left
    assert all(node.terms == tree.nodes[node.name].terms for node in found)
