"""What each path of `/v1` asks the front, and the document that it makes of the answers. docs: `openapi.json`."""
import time
from collections.abc import Awaitable, Callable, Mapping, Sequence
from dataclasses import dataclass, field
from typing import Any, Final

from hpb.limits import MOST_TICKET
from hpb.lines import Accepted, Bid, Close, Command, NodeShown, Stage
from hpb.rounds import MOCK, Agreed, News, Previewed, Prospect, ReadUpTo, Schedule
from hpb.rules.mock import is_mock
from hpb.rules.tree import Tree
from hpb.web import documents
from hpb.web.documents import bidders_of
from hpb.web.intents import announcement_line_in, clock_line_in, command_in, line_of, number_in
from hpb.web.links import Link
from hpb.web.problems import problem
from hpb.web.results import NODE_COLUMNS, ROUND_COLUMNS, ROW_COLUMNS, Results, rows_of

BIDDER_COLUMNS: Final = ("bidder", "units", "eligibility", "activity", "needed", "short", "waivers", "next_ticket")
WINNER_COLUMNS: Final = ("node", "bidder", "amount")
NEWS_COLUMNS: Final = ("number", "time", "text", "said")
PROSPECT_COLUMNS: Final = ("bidder", "eligibility", "activity", "short", "waiver", "after")


@dataclass(frozen=True)
class Asked:
    """A request: the link of its name, the parts of its path, and the object in its body."""

    link: Link
    parts: Mapping[str, str] = field(default_factory=dict)
    body: Mapping[str, Any] = field(default_factory=dict)


@dataclass(frozen=True)
class Reply:
    """A document. If it is a list, `rows` and `columns` make it a table."""

    document: documents.Document
    rows: Sequence[Mapping[str, Any]] = ()
    columns: Sequence[str] = ()


@dataclass(frozen=True)
class Site:
    """What all requests share: the auction's tree, its title, and the results of closed rounds, if there are any here."""

    tree: Tree
    title: str
    results: Results | None

    @property
    def is_mock(self) -> bool:
        """Whether the definition is that of a mock."""
        return is_mock(self.tree.definition)

    @property
    def heading(self) -> str:
        """The title as each page has it."""
        return f"{MOCK}: {self.title}" if self.is_mock else self.title


Resource = Callable[[Site, Asked], Awaitable[Reply]]


async def auction(site: Site, asked: Asked) -> Reply:
    """The auction as it stands."""
    shown, information = await asked.link.shown()
    return Reply(documents.auction_of(site.tree, shown, information, site.title, site.is_mock or bool(asked.link.client.is_mock())))


async def definition(site: Site, asked: Asked) -> Reply:
    """The auction's definition."""
    return Reply(documents.definition_of(site.tree))


async def nodes(site: Site, asked: Asked) -> Reply:
    """All nodes after the last close."""
    standing = await asked.link.standing()
    document = documents.nodes_of(site.tree, standing.shown, standing.nodes)
    return Reply(document, document["nodes"], NODE_COLUMNS)


async def node(site: Site, asked: Asked) -> Reply:
    """A node after the last close."""
    if asked.parts["node"] not in site.tree.nodes:
        raise problem("nothing", "no such node")
    return Reply(documents.node_of(site.tree, await asked.link.one(f"NODE {asked.parts['node']}", NodeShown)))


async def me(site: Site, asked: Asked) -> Reply:
    """The name, with its bidders as of now."""
    identity = await asked.link.identity()
    shown, _ = await asked.link.shown()
    document = documents.me_of(site.tree, identity.name, identity.kind, shown, await asked.link.whos(identity.bidders))
    return Reply(document, document["bidders"], BIDDER_COLUMNS)


async def command(site: Site, asked: Asked) -> Reply:
    """Sends a command with its ticket. Sent again, it gets its number again."""
    given = command_in(asked.body)
    answer = await asked.link.one(line_of(given), Accepted)
    return Reply(accepted_of(given, answer))


def accepted_of(given: Command, answer: Accepted) -> documents.Document:
    """An accepted command with its number. `at` is when the site got the answer."""
    kind = {Bid: "bid", Close: "close", Stage: "stage"}.get(type(given), "waive")
    return {"kind": kind, "ticket": given.ticket, "number": answer.number, "at": now_says()}


def now_says() -> str:
    """The site's time, in UTC."""
    return time.strftime("%Y-%m-%dT%H:%M:%SZ", time.gmtime())


async def rounds(site: Site, asked: Asked) -> Reply:
    """The closed rounds whose results the site has."""
    known = site.results.rounds() if site.results else []
    rows = [{column: one[column] for column in ROUND_COLUMNS} for one in known]
    return Reply({"rounds": rows}, rows, ROUND_COLUMNS)


async def round_(site: Site, asked: Asked) -> Reply:
    """A closed round: its results, as the public may know them."""
    part = asked.parts["round"]
    found = site.results.round(int(part)) if site.results and part.isdecimal() and len(part) < 8 else None
    if found is None:
        raise problem("absent")
    return Reply(found, rows_of(found), ROW_COLUMNS)


async def results(site: Site, asked: Asked) -> Reply:
    """The winners of the last close."""
    standing = await asked.link.standing()
    document = documents.results_of(site.tree, standing.shown, standing.nodes, standing.information)
    return Reply(document, document["winners"], WINNER_COLUMNS)


async def announcements(site: Site, asked: Asked) -> Reply:
    """The news that the front keeps for the name, and up to which number it has read them."""
    news = [documents.news_of(one) for one in await asked.link.all_news()]
    read = await asked.link.one("READ 0", ReadUpTo)
    return Reply({"read": read.number, "news": news}, news, NEWS_COLUMNS)


async def announce(site: Site, asked: Asked) -> Reply:
    """Announces a text. Sent again after a loss, it may be said twice."""
    return Reply(documents.news_of(await asked.link.one(announcement_line_in(asked.body), News)))


async def read(site: Site, asked: Asked) -> Reply:
    """The name has read its news up to a number."""
    found = await asked.link.one(f"READ {number_in(asked.body, 'number', 999_999)}", ReadUpTo)
    return Reply({"read": found.number})


async def schedule(site: Site, asked: Asked) -> Reply:
    """The round clock."""
    return Reply(documents.schedule_of(await asked.link.one("SCHEDULE", Schedule)))


async def clock(site: Site, asked: Asked) -> Reply:
    """Changes the round clock, as the auctioneer."""
    return Reply(documents.news_of(await asked.link.one(clock_line_in(asked.body), News)))


async def preview(site: Site, asked: Asked) -> Reply:
    """What a close would do now, for the auctioneer."""
    found = await asked.link.one("PREVIEW", Previewed)
    bidders = await asked.link.all([f"PREVIEW {bidder}" for bidder in bidders_of(site.tree)], Prospect)
    document = documents.preview_of(found, bidders)
    return Reply(document, document["bidders"], PROSPECT_COLUMNS)


async def agree(site: Site, asked: Asked) -> Reply:
    """A second name agrees that the close with this ticket ends the auction."""
    found = await asked.link.one(f"AGREE {number_in(asked.body, 'ticket', MOST_TICKET)}", Agreed)
    return Reply({"ticket": found.ticket})


# By method and path.
RESOURCES: Final[Mapping[tuple[str, str], Resource]] = {
    ("GET", "/v1/auction"): auction,
    ("GET", "/v1/definition"): definition,
    ("GET", "/v1/nodes"): nodes,
    ("GET", "/v1/nodes/{node}"): node,
    ("GET", "/v1/bidders/me"): me,
    ("POST", "/v1/commands"): command,
    ("GET", "/v1/rounds"): rounds,
    ("GET", "/v1/rounds/{round}"): round_,
    ("GET", "/v1/results"): results,
    ("GET", "/v1/announcements"): announcements,
    ("POST", "/v1/announcements"): announce,
    ("POST", "/v1/announcements/read"): read,
    ("GET", "/v1/schedule"): schedule,
    ("POST", "/v1/clock"): clock,
    ("GET", "/v1/preview"): preview,
    ("POST", "/v1/agreements"): agree,
}
