"""A front in memory, for tests of the site: an auction by the rules, names with their rights, news, and answers that a test puts in."""
from __future__ import annotations

import dataclasses
from collections.abc import Sequence

from hpb.client.outcomes import NotWelcome, Unanswered
from hpb.front.core.information import Information, Rule, Veil, prefix_for, seen_by, viewer_of
from hpb.front.rights import AUCTIONEER, BIDDER, OBSERVER, Role, for_server
from hpb.lines import Answer, Bid, NodeShown, Shown, Waive, WhoShown, parse_command_of_front
from hpb.refusals import FrontRefused, HpbError, refusal
from hpb.rounds import Agreed, InformationShown, News, NoNews, Previewed, Prospect, ReadUpTo, Schedule
from hpb.rules.auction import answer, begin
from hpb.rules.definition import read_definition
from hpb.rules.mock import as_mock
from hpb.rules.preview import preview
from hpb.rules.tree import tree_of
from serving import DEFINITION

ROLES = {
    "desk": Role(AUCTIONEER), "ann": Role(BIDDER, ("x",)), "bob": Role(BIDDER, ("y", "z")), "carl": Role(BIDDER, ("w",)),
    "public": Role(OBSERVER), "judge": Role(OBSERVER, agrees=True, sees_all=True),
}
NOW = "2026-12-02T09:20:00Z"


def token_of(name: str) -> str:
    """A name's token."""
    return f"token-of-{name}-in-a-trial"


class Front:
    """The auction, with what each name asked. `answers` takes the place of the answers to these lines; an exception is raised."""

    def __init__(self, waivers: int = 1, information: Information | None = None) -> None:
        text = DEFINITION.replace(b'"nodes"', b'"waivers":%d,"nodes"' % waivers, 1) if waivers else DEFINITION
        self.definition = read_definition(text)
        self.tree = tree_of(self.definition)
        self.auction = begin(self.definition)
        self.information, self.veil = information, Veil()
        self.began = self.auction, self.veil
        self.schedule = Schedule(1, "none", None, None, 0, NOW)
        self.news: list[News] = []
        self.read: dict[str, int] = {}
        self.answers: dict[str, Answer | HpbError | Exception] = {}
        self.asked: list[tuple[str, str]] = []
        self.revoked: set[str] = set()
        self.is_mock = False

    def as_mock(self) -> Front:
        """The same of a mock, whose definition has the mark. No name has the bidder that is it."""
        self.definition = as_mock(self.definition)
        self.tree = tree_of(self.definition)
        self.auction, self.is_mock = begin(self.definition), True
        return self

    def connect(self, token: str) -> Client:
        """A client with a token, which may be unknown. A text that can't be one raises ValueError."""
        if not 16 <= len(token) <= 128 or " " in token:
            raise ValueError(token)
        names = {token_of(name): name for name in ROLES}
        return Client(self, names.get(token, ""))

    def tell(self, line: str) -> Answer:
        """The answer to a command that is accepted."""
        self.auction, answered = answer(self.auction, line)
        assert not isinstance(answered, HpbError), (line, answered)
        if line.startswith("CLOSE"):
            self.veil = self.veil.closed(self.veil.closes + 1, self.auction.count).met(bid.bidder for bid in self.auction.high.values())
        return answered

    def say(self, text: str) -> News:
        """News for all."""
        self.news.append(News(len(self.news) + 1, NOW, text))
        return self.news[-1]

    def answer(self, name: str, line: str) -> Answer | HpbError:
        """The answer to a line of a name."""
        self.asked.append((name, line))
        found = self.answers.get(line) or self.answers.get(line.split(" ")[0]) or self.answers.get("*")
        if isinstance(found, HpbError) or (found is not None and not isinstance(found, Exception)):
            return found
        if isinstance(found, Exception):
            raise found
        role = ROLES[name]._replace(has_rules=self.information is not None)
        if word := role.refusal(line.encode("latin-1")):
            return FrontRefused(word)
        return self.limited(name, role, self.taken(name, line))

    def limited(self, name: str, role: Role, answered: Answer | HpbError) -> Answer | HpbError:
        """The answer as the name may know it."""
        if isinstance(answered, Shown | NodeShown | WhoShown):
            viewer = viewer_of(self.information, self.veil, name, role, prefix_for(self.tree.bidders))
            return seen_by(viewer, answered) or FrontRefused("rights")
        return answered

    def taken(self, name: str, line: str) -> Answer | HpbError:
        words = line.split(" ")
        match words:
            case ["SCHEDULE"]:
                return dataclasses.replace(self.schedule, round=self.auction.round)
            case ["EVENT", *after]:
                behind = int(after[0]) if after else self.read.get(name, 0)
                return next((one for one in self.news[-200:] if one.number > behind), NoNews())
            case ["READ", number]:
                self.read[name] = max(self.read.get(name, 0), min(int(number), len(self.news)))
                return ReadUpTo(self.read[name])
            case ["INFORMATION"]:
                rule = self.information.running if self.information else Rule()
                return InformationShown("running", str(rule.identities), rule.is_count_exact, rule.has_revenue)
            case ["PREVIEW", *_] if self.auction.is_over:
                return FrontRefused("unknown")
            case ["PREVIEW"]:
                found = preview(self.auction)
                return Previewed(found.round, found.revenue, len(found.short), len(found.waivers), len(found.losing), found.ends)
            case ["PREVIEW", bidder] if bidder not in preview(self.auction).bidders:
                return refusal(11)
            case ["PREVIEW", bidder]:
                one = preview(self.auction).bidders[bidder]
                return Prospect(one.bidder, one.eligibility, one.activity, one.short, one.waiver, one.after)
            case ["AGREE", ticket]:
                return Agreed(int(ticket))
            case ["SAY" | "OPEN" | "EXTEND" | "PAUSE" | "RESUME", *_]:
                return self.say(line)
            case ["SHOW"] | ["NODE", _] | ["WHO", _]:
                return answer(self.auction, line)[1]
        try:
            command = parse_command_of_front(line)
        except HpbError as fault:
            return fault
        if isinstance(command, Bid | Waive) and command.round not in (None, self.auction.round):
            last = self.auction.bidders[command.bidder].last
            if not 0 < command.ticket <= (last.command.ticket if last else 0):
                return FrontRefused("round")
        _, answered = answer(self.auction, for_server(line.encode()).decode())
        return answered if isinstance(answered, HpbError) else self.tell(for_server(line.encode()).decode())


class Client:
    """A client of that front."""

    def __init__(self, front: Front, name: str) -> None:
        self.front, self.known, self.is_welcome, self.is_ended = front, name, False, False

    async def ask(self, lines: Sequence[str]) -> list[Answer | HpbError]:
        """As `AsyncClient.ask`."""
        if not self.known or self.known in self.front.revoked:
            return [NotWelcome("the token isn't known") for _ in lines]
        outcomes = [self.front.answer(self.known, line) for line in lines]
        self.is_welcome |= not any(isinstance(one, Unanswered) for one in outcomes)
        return outcomes

    def name(self) -> str:
        """As `AsyncClient.name`."""
        return self.known if self.is_welcome else ""

    def is_mock(self) -> bool:
        """As `AsyncClient.is_mock`."""
        return self.front.is_mock

    async def end(self) -> None:
        """As `AsyncClient.end`."""
        self.is_ended = True

