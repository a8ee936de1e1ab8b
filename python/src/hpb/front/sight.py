"""What the page of a front shows to each name: views go through the same function as lines (docs/FRONT.md)."""
import re
from collections.abc import Mapping
from dataclasses import replace

from hpb.front.core.information import Information, NotYet, Veil, Viewer, closes_in, prefix_for, seen_by, viewer_of
from hpb.front.rights import Role
from hpb.lines import NodeShown, WhoShown
from hpb.pages.view import Seen, View
from hpb.pages.walls import Limit
from hpb.rules.told import Told
from hpb.rules.tree import Tree

FACTS = re.compile(r"INFORMATION (running|unveiled) CLOSES ([0-9]+) COUNTS ([0-9,]+) ORDER (.+)")


def limit_of(information: Information, tree: Tree, name: str, role: Role) -> Limit:
    """Limits views of all that there is to what a name may know."""
    prefix = prefix_for(tree.bidders)

    def limit(view: View) -> View | None:
        veil = veil_in(view.information)
        if view.seen is None or veil is None:
            return view._replace(seen=None)
        try:
            return view._replace(seen=limited(viewer_of(information, veil, name, role, prefix), view.seen))
        except NotYet:
            return None

    return limit


def veil_in(line: str) -> Veil | None:
    """What the front told the page, or None if it didn't yet."""
    found = FACTS.fullmatch(line)
    if not found:
        return None
    order = () if found[4] == "-" else tuple(found[4].split(","))
    return Veil(found[1] == "unveiled", int(found[2]), tuple(map(int, found[3].split(","))), order)


def limited(viewer: Viewer, seen: Seen) -> Seen:
    """The same as a viewer may know it. Whether the round began without a bid shows a count within it. A NotYet says that the front doesn't
    know the last close yet."""
    rule, begin = viewer.rule, seen.begin
    viewer.veil.count_after(closes_in(seen.standing.shown))
    shown = seen_by(viewer, begin.shown)
    assert shown
    known = begin._replace(shown=shown, whos=whos_for(viewer, begin.whos), is_exact=begin.is_exact and rule.is_count_exact)
    before = seen.before and told_for(viewer, seen.before)
    return Seen(told_for(viewer, seen.standing), before, known, not rule.is_count_exact, not rule.has_revenue)


def told_for(viewer: Viewer, told: Told) -> Told:
    shown = seen_by(viewer, told.shown)
    assert shown
    nodes = {name: node_for(viewer, node) for name, node in told.nodes.items()}
    return replace(told, shown=shown, nodes=nodes, whos=whos_for(viewer, told.whos))


def node_for(viewer: Viewer, node: NodeShown) -> NodeShown:
    """If the first high bid of a bidder came by another way than the front, the bidder has no pseudonym."""
    try:
        seen = seen_by(viewer, node)
    except NotYet:
        seen = None
    return seen or replace(node, bidder=None)


def whos_for(viewer: Viewer, whos: Mapping[str, WhoShown]) -> dict[str, WhoShown]:
    return {name: found for name, who in whos.items() if (found := seen_by(viewer, who))}
