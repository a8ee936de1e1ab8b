"""Everything that may change on an auction's page: texts, marks and lists, by the names of elements."""
import hashlib
from collections.abc import Mapping, Sequence
from typing import Final, NamedTuple

from hpb.amounts import money
from hpb.pages.rounds import clock_says, news_says, seal_says
from hpb.pages.telling import NOBODY, bidder_texts, close_says, closes_say, contact_says, node_texts, outlook, revenue_says, round_says, stage_says
from hpb.pages.view import Seen, View
from hpb.rules.tree import Tree

NODE_FIELDS: Final = ("bid", "minimum", "price", "win")
BIDDER_FIELDS: Final = {
    "eligibility": "Eligibility",
    "activity": "Activity",
    "needed": "Needed",
    "waivers": "Waivers left",
    "ticket": "Next ticket",
}
SUMMARY: Final = {"round": "Round", "stage": "Stage", "status": "State", "revenue": "Revenue", "count": "Commands"}
# How many characters of a digest are enough to tell texts apart.
DIGEST: Final = 16
_WINS, _CHANGED = "wins", "changed"


class Model(NamedTuple):
    """The contents of the page's elements, by their names. `picture` changes whenever the picture does."""

    texts: Mapping[str, str]
    marks: Mapping[str, str]
    lists: Mapping[str, Sequence[str]]
    picture: str


def model_of(tree: Tree, bidders: Sequence[str], view: View) -> Model:
    """The model of a view, with the standing of these bidders; the view has to show them."""
    texts, marks = {"contact": contact_says(view.contact), "rounds": clock_says(view.schedule), "seal": seal_says(view.seal)}, {"contact": str(view.contact.state)}
    marks["rounds"] = view.schedule.state if view.schedule else ""
    if view.seen is None:
        return Model({**_blank(tree, bidders), **texts}, marks, {"close-list": [], "round-list": [], "news-list": []}, "0")
    seen = view.seen
    texts |= _summary(tree, seen)
    marks["outlook"] = "ends" if seen.would_end() else ""
    for name in tree.nodes:
        node = node_texts(seen, name)
        for field in NODE_FIELDS:
            texts[f"node-{name}-{field}"], texts[f"node-{name}-{field}-was"] = getattr(node, field), getattr(node, f"{field}_was")
        marks[f"node-{name}"] = " ".join([_WINS] * seen.standing.nodes[name].wins + [_CHANGED] * node.is_changed)
    for name in bidders:
        bidder = bidder_texts(tree, seen, name)
        texts |= {f"bidder-{name}-{field}": getattr(bidder, field) for field in [*BIDDER_FIELDS, "outlook"]}
        marks[f"bidder-{name}"] = bidder.mark
    lists = {"close-list": close_says(seen), "round-list": round_says(seen), "news-list": news_says(view.own)}
    return Model(texts, marks, lists, digest(repr(seen.standing.nodes).encode()))


def digest(data: bytes) -> str:
    """A short text that differs for different bytes."""
    return hashlib.sha256(data).hexdigest()[:DIGEST]


def _summary(tree: Tree, seen: Seen) -> dict[str, str]:
    shown = seen.standing.shown
    return {
        "round": str(shown.round),
        "stage": stage_says(tree, shown),
        "status": "over" if shown.is_over else "open",
        "revenue": revenue_says(seen),
        "count": money(shown.count),
        "outlook": outlook(seen),
        "closes": closes_say(seen),
    }


def _blank(tree: Tree, bidders: Sequence[str]) -> dict[str, str]:
    """The same elements while nothing is known yet."""
    nodes = [f"node-{name}-{field}{part}" for name in tree.nodes for field in NODE_FIELDS for part in ("", "-was")]
    own = [f"bidder-{name}-{field}" for name in bidders for field in [*BIDDER_FIELDS, "outlook"]]
    return dict.fromkeys(["outlook", "closes", *nodes, *own], "") | dict.fromkeys(SUMMARY, NOBODY)
