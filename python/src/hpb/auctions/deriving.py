"""Auctions that are made of another one: its mock, and one of what nobody won (packaging/README.md)."""
import os
from dataclasses import replace
from typing import Any

from hpb.auctions.folder import CONFIGURATION, Auction, Auctions, CantDo
from hpb.auctions.making import become_owner, new_room, ports_for
from hpb.auctions.parts import copy, parts_of
from hpb.file import read_auction, read_image
from hpb.front.config import CREDENTIALS_VARIABLE, Config
from hpb.front.faults import Stops, Wrong
from hpb.front.mock import make_mock
from hpb.refusals import Refused, says
from hpb.rules.auction import show_node
from hpb.rules.definition import Node
from hpb.rules.tree import Tree
from hpb.rules.writing import fields_of


def mock(auctions: Auctions, name: str, other: str, first: str | None) -> Auction:
    """Makes the mock `other` of an auction: the same names, tokens, certificate and clock, and a file and addresses of its own. It is made whole
    or not at all. `first` is when its first round opens."""
    become_owner(auctions)
    auction, made = auctions.named(name), auctions.place(other)
    with new_room(auctions, made) as room:
        parts = parts_of(auction.folder)
        for one in parts.others:
            if one != CONFIGURATION:
                copy(auction.folder / one, room / one)
        fields = auction.fields()
        # What a service manager hands in is named here, and not opened.
        os.environ.setdefault(CREDENTIALS_VARIABLE, os.devnull)
        try:
            make_mock(Config(auction.configuration), str(room / CONFIGURATION), first, own_fields(fields, ports_for(auctions)))
        except (Wrong, Stops) as fault:
            raise CantDo(str(fault).replace(str(room), str(made.folder))) from None
    return made


def own_fields(fields: dict[str, Any], ports: dict[str, int]) -> dict[str, Any]:
    """The fields that a mock doesn't have from `make_mock`: the files that were copied beside it, and addresses that no other auction has."""
    own = {field: fields[field] for field in ("tokens", "certificate", "key", "seals") if field in fields}
    own["listen"] = at_port(fields["listen"], ports["listen"])
    for table in ("board", "metrics"):
        if table in fields:
            own[table] = {**fields[table], "listen": at_port(fields[table]["listen"], ports[table])}
    return own


def at_port(listen: str, port: int) -> str:
    return f"{listen.rpartition(':')[0]}:{port}"


def reauction(auction: Auction) -> dict[str, Any]:
    """The definition of an auction of what nobody won, as fields of JSON: the same numbers and bidders, and the licences that weren't sold. A
    package that has one node left gives way to that node. A CantDo says that the auction isn't over, or that nothing is left."""
    file = auction.path("file")
    try:
        standing = read_auction(read_image(file, is_quiet=not auction.is_served())).auction
    except Refused as fault:
        raise CantDo(f"{file}: {says(fault)}") from None
    if not standing.is_over:
        raise CantDo(f"{auction.name} isn't over")
    tree = standing.tree
    sold = frozenset[str]().union(*(tree.licences[name] for name in tree.nodes if show_node(standing, name).wins))
    if not (nodes := nodes_left(tree, sold)):
        raise CantDo(f"{auction.name} has nothing left: each licence was won")
    return fields_of(replace(tree.definition, nodes=nodes))


def nodes_left(tree: Tree, sold: frozenset[str]) -> tuple[Node, ...]:
    """The nodes with licences that weren't sold, without packages of a single node."""
    left = {name for name in tree.nodes if tree.licences[name] - sold}
    stay = {name for name in left if tree.nodes[name].is_licence or sum(child in left for child in tree.children[name]) > 1}
    parents = {name: next((above for above in tree.above(name) if above in stay), None) for name in stay}
    return tuple(replace(node, parent=parents[name]) for name, node in tree.nodes.items() if name in stay)
