"""Mock auctions: rehearsals with the same people, on a file that can't be taken for the real one (docs/ROUNDS.md).

The mark stands in the definition, so in the head of the auction's file, in each segment of its record, and in every copy of them. It is a
bidder of one unit, for whom nobody bids. It changes no winner, no price and no minimum.
"""
import dataclasses
from typing import Any, Final

from hpb.limits import MOST_BIDDERS
from hpb.refusals import BeyondLimits
from hpb.rules.definition import Bidder, Definition, check

MARK: Final = "mock_auction"


def is_mock(definition: Definition) -> bool:
    """Whether this is the definition of a mock."""
    return any(bidder.name == MARK for bidder in definition.bidders)


def has_mark(fields: Any) -> bool:
    """The same of a definition's fields, as a record has them."""
    try:
        return any(bidder["name"] == MARK for bidder in fields["bidders"])
    except (LookupError, TypeError):
        return False


def as_mock(definition: Definition) -> Definition:
    """The same definition with the mark, behind all bidders. Refused by 56, `BeyondLimits`, if there is no room for one more bidder."""
    if is_mock(definition):
        return definition
    if len(definition.bidders) >= MOST_BIDDERS:
        raise BeyondLimits(f"{MOST_BIDDERS} bidders leave no room for the bidder {MARK}, by which a mock is known: leave one of them out")
    marked = dataclasses.replace(definition, bidders=(*definition.bidders, Bidder(MARK, 1)))
    check(marked)
    return marked
