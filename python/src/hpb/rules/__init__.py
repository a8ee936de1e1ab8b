"""The rules of docs/RULES.md as pure functions over values. Money is in whole dollars, units are bidding units."""
from hpb.rules.activity import activity_needed, eligibility_left, settle
from hpb.rules.auction import Auction, answer, apply, begin, refusal_of, show, show_bidder, show_node
from hpb.rules.definition import Bidder, Definition, Node, Terms, check, read_definition
from hpb.rules.prices import minimum, prices_of
from hpb.rules.standing import Standing, standing_of
from hpb.rules.tree import Tree, tree_of
from hpb.rules.what_if import Keeping, Rise, keep_eligibility, rise_to_win
from hpb.rules.winners import Values, revenue_of, values_of, winners_of

__all__ = [
    "Auction", "Bidder", "Definition", "Keeping", "Node", "Rise", "Standing", "Terms", "Tree", "Values", "activity_needed", "answer",
    "apply", "begin", "check", "eligibility_left", "keep_eligibility", "minimum", "prices_of", "read_definition", "refusal_of",
    "revenue_of", "rise_to_win", "settle", "show", "show_bidder", "show_node", "standing_of", "tree_of", "values_of", "winners_of",
]
