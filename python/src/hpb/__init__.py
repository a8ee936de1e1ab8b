"""hpb for a bidder's program: a client, the lines, the rules and the file of the auction server `hpb`.

    from hpb import Client

    with Client("127.0.0.1", 5000) as client:
        print(client.bid("x", "a", 100).number)

docs/CLIENTS.md has all of it by example.
"""
from importlib import import_module
from typing import TYPE_CHECKING, Any

if TYPE_CHECKING:
    from hpb.client import AsyncClient, Client, Ended, NotWelcome, Outcome, TicketsInUse, TicketsNotKept, Unanswered, View, read_token
    from hpb.lines import Accepted, AskNode, AskWho, Bid, Close, Command, NodeShown, Show, Shown, Stage, Waive, WhoShown
    from hpb.refusals import FrontRefused, HpbError, Refused
    from hpb.rounds import Agreed, AskFront, News, NoNews, Previewed, Prospect, ReadUpTo, Schedule

__version__ = "0.1.0"
__all__ = [
    "Accepted", "Agreed", "AskFront", "AskNode", "AskWho", "AsyncClient", "Bid", "Client", "Close", "Command", "Ended", "FrontRefused",
    "HpbError", "News", "NoNews", "NodeShown", "NotWelcome", "Outcome", "Previewed", "Prospect", "ReadUpTo", "Refused", "Schedule", "Show",
    "Shown", "Stage", "TicketsInUse", "TicketsNotKept", "Unanswered", "View", "Waive", "WhoShown", "read_token",
]


def __getattr__(name: str) -> Any:
    """A name of this package, imported when it is first used. Importing `hpb` imports nothing else: a front has to hold signals first."""
    if name in __all__:
        for home in ("hpb.lines", "hpb.refusals", "hpb.rounds", "hpb.client"):
            if hasattr(found := import_module(home), name):
                return getattr(found, name)
    raise AttributeError(f"module 'hpb' has no attribute {name!r}")
