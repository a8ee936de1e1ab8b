"""What names do on their pages: bids and waivers of a bidder, and the round of an auctioneer. All of it works without a script."""
import csv
from collections.abc import Sequence
from typing import Final

from aiohttp import web

from hpb.amounts import counted, money
from hpb.limits import MOST_COMMANDS, MOST_TICKET, NAME
from hpb.lines import Answer, Bid, Close, Command, NodeShown, Stage, Waive
from hpb.markup import Markup, element
from hpb.pages.rounds import change_says
from hpb.rounds import Agreed, News, Previewed, Prospect, ReceiptGiven, Schedule
from hpb.rules.tree import Tree
from hpb.web import bidding, desk, documents, standpoint
from hpb.web.drafts import ACCEPTED, SENT, Draft, NotKept
from hpb.web.html import clock_line, facts, in_halves, section, table
from hpb.web.intents import announcement_line, clock_line_in
from hpb.web.links import AUCTIONEER, BIDDER, OBSERVER, Standing, read_as
from hpb.web.pages import Pages, Visit, to_page
from hpb.web.problems import Problem, problem
from hpb.web.rendering import JSON, csv_of
from hpb.web.standpoint import Judged, Standpoint, Unread, Wish

# A page waits so many seconds for the answers to what it sent. Then it shows the drafts as they are, and is loaded again after some.
WAIT_SECONDS, REFRESH_SECONDS = 3.0, 2
DRAFT_COLUMNS: Final = ("bidder", "kind", "node", "amount", "round", "ticket", "state", "number", "at", "why")
_KINDS: Final = {Bid: "bid", Waive: "waive", Close: "close", Stage: "stage"}


class Acting:
    """The pages of bidders, auctioneers and observers."""

    def __init__(self, pages: Pages) -> None:
        self._pages, self._site, self._sender = pages, pages.site, pages.sender

    def add_to(self, application: web.Application) -> None:
        """Adds the routes."""
        router, seeing, changing = application.router, self._pages.seeing, self._pages.changing
        router.add_get("/bid", seeing(self._bid, BIDDER), allow_head=False)
        router.add_post("/bids/check", changing(self._check, BIDDER))
        router.add_post("/bids/send", changing(self._send_bids, BIDDER))
        router.add_post("/waivers/check", changing(self._check_waiver, BIDDER))
        router.add_post("/waivers/send", changing(self._send_waiver, BIDDER))
        router.add_get("/drafts", seeing(self._drafts, BIDDER), allow_head=False)
        router.add_get("/drafts.csv", seeing(self._drafts_csv, BIDDER), allow_head=False)
        router.add_get("/drafts/{bidder}/{first}-{last}", seeing(self._outcomes, BIDDER), allow_head=False)
        router.add_get("/receipts/{bidder}/{ticket}.json", seeing(self._receipt_file, BIDDER), allow_head=False)
        router.add_get("/receipts/{bidder}/{ticket}", seeing(self._receipt, BIDDER), allow_head=False)
        router.add_get("/desk", seeing(self._desk, AUCTIONEER), allow_head=False)
        router.add_get("/desk/close", seeing(self._close_form, AUCTIONEER), allow_head=False)
        router.add_post("/desk/close", changing(self._close, AUCTIONEER))
        router.add_post("/desk/stage", changing(self._stage, AUCTIONEER))
        router.add_post("/desk/clock", changing(self._clock, AUCTIONEER))
        router.add_post("/desk/say", changing(self._say, AUCTIONEER))
        router.add_get("/results", seeing(self._results), allow_head=False)
        router.add_post("/agree", changing(self._agree, OBSERVER))

    # A bidder.

    async def _points(self, visit: Visit, bidders: Sequence[str]) -> list[Standpoint]:
        """The standpoints of these bidders. Before that it is found what became of drafts whose answers were lost."""
        whos = await visit.link.whos(bidders)
        try:
            for who in whos:
                await self._sender.look(visit.session.name, visit.link, who.bidder, who.ticket)
        except NotKept:
            raise problem("kept") from None
        standing = await visit.link.standing()
        round_ = standing.shown.round
        drafts = self._sender.drafts
        return [Standpoint(self._site.tree, standing, who, drafts.bid_on(visit.session.name, who.bidder, round_)) for who in whos]

    async def _point(self, visit: Visit) -> Standpoint:
        """The standpoint of the bidder that a form names, which has to be the name's own."""
        bidder = visit.field("bidder")
        if bidder not in visit.identity.own:
            raise problem("fields", "bidder: not one of yours")
        return (await self._points(visit, [bidder]))[0]

    async def _bid(self, visit: Visit) -> web.StreamResponse:
        points = await self._points(visit, visit.identity.own)
        (schedule,) = await visit.link.all(["SCHEDULE"], Schedule)
        known = _auction_facts(points[0].standing)
        waiting = [one for one in self._sender.drafts.of(visit.session.name) if one.state == SENT]
        told = [bidding.drafts_table(waiting, "Sent, and not answered yet")] if waiting else []
        parts = [known, clock_line(schedule), *told, *bidding.joined_sections(points, visit.session.form)]
        return self._pages.answer(visit, "Bid", parts)

    async def _check(self, visit: Visit) -> web.StreamResponse:
        point, place = await self._point(visit), _place(visit)
        wishes = _wishes_in(visit)
        if not wishes:
            raise problem("fields", "no amount was given")
        self._look_at_place(point, place)
        rows = standpoint.judged(point, wishes)
        return self._pages.answer(visit, "Check", list(bidding.check_page(point, rows, visit.session.form, place)))

    async def _send_bids(self, visit: Visit) -> web.StreamResponse:
        """The basket that was checked. Sent twice, it counts once. If the auction has gone on meanwhile, it is checked again."""
        place = _place(visit)
        bidder, round_, first = visit.field("bidder"), int(str(place["round"])), int(str(place["ticket"]))
        wishes = [wish for number in range(1, standpoint.MOST_ROWS + 1) if (text := visit.fields.get(f"bid.{number}")) for wish in _read(text)]
        if not wishes:
            raise problem("fields", "no bid was given")
        commands = [Bid(bidder, wish.node, wish.amount, first + more, round_) for more, wish in enumerate(wishes)]
        if not self._are_known(visit, commands):
            point = await self._point(visit)
            self._look_at_place(point, place)
            rows: list[Judged] = standpoint.judged(point, wishes)
            if any(row.refusal for row in rows):
                return self._pages.answer(visit, "Check", list(bidding.check_page(point, rows, visit.session.form, place)))
        return await self._sent(visit, bidder, commands)

    def _are_known(self, visit: Visit, commands: Sequence[Command]) -> bool:
        """Whether these drafts were sent before, as they are."""
        return all(self._sender.drafts.find(visit.session.name, one) for one in commands)

    def _look_at_place(self, point: Standpoint, place: dict[str, object]) -> None:
        """A basket is bound to its round and its ticket: if either has gone on, it isn't sent."""
        if place["round"] != point.standing.shown.round:
            raise problem("fields", f"the form is of round {place['round']}, and round {point.standing.shown.round} is the auction's: nothing was sent")
        if place["ticket"] != point.who.ticket + 1:
            raise problem("fields", f"ticket {place['ticket']} was used meanwhile, on another page or by another program: nothing was sent")

    async def _check_waiver(self, visit: Visit) -> web.StreamResponse:
        point, place = await self._point(visit), _place(visit)
        self._look_at_place(point, place)
        return self._pages.answer(visit, "Check", list(bidding.waiver_page(point, visit.session.form, place)))

    async def _send_waiver(self, visit: Visit) -> web.StreamResponse:
        place = _place(visit)
        command = Waive(visit.field("bidder"), int(str(place["ticket"])), int(str(place["round"])))
        if not self._are_known(visit, [command]):
            self._look_at_place(await self._point(visit), place)
        return await self._sent(visit, command.bidder, [command])

    async def _sent(self, visit: Visit, bidder: str, commands: Sequence[Command]) -> web.StreamResponse:
        """Sends drafts, and leads to the page of their outcomes."""
        await self._sender.send(visit.session.name, visit.link, commands, WAIT_SECONDS)
        return to_page(f"/drafts/{bidder}/{commands[0].ticket}-{commands[-1].ticket}")

    async def _outcomes(self, visit: Visit) -> web.StreamResponse:
        parts = visit.request.match_info
        bidder, first, last = parts["bidder"], _whole(parts["first"]), _whole(parts["last"])
        if bidder not in visit.identity.own:
            raise problem("nothing")
        await self._points(visit, [bidder])
        found = [one for one in self._sender.drafts.of(visit.session.name) if one.bidder == bidder and first <= one.command.ticket <= last]
        if not found:
            raise problem("nothing", "the site has no such draft, so it wasn't sent")
        waits = any(one.state == SENT for one in found)
        told = bidding.drafts_table(found, f"Drafts of {bidder}")
        done = all(one.state == ACCEPTED for one in found)
        heading = "Sent" if waits else "Accepted" if done else "Not all accepted"
        return self._pages.answer(visit, heading, [section(heading, told, name="drafts")], REFRESH_SECONDS if waits else 0)

    async def _drafts(self, visit: Visit) -> web.StreamResponse:
        await self._points(visit, visit.identity.own)
        found = self._sender.drafts.of(visit.session.name)
        told = bidding.drafts_table(list(reversed(found)), "Drafts that were sent on this site, the last ones first")
        return self._pages.answer(visit, "My bids", [section("My bids", told, element("p", element("a", "As CSV", href="/drafts.csv")), name="drafts")])

    async def _drafts_csv(self, visit: Visit) -> web.StreamResponse:
        await self._points(visit, visit.identity.own)
        rows = [draft_of(one) for one in self._sender.drafts.of(visit.session.name)]
        fields = {"Content-Disposition": 'attachment; filename="bids.csv"'}
        return web.Response(body=csv_of(rows, DRAFT_COLUMNS), content_type="text/csv", charset="utf-8", headers=fields)

    def _accepted(self, visit: Visit) -> Draft:
        """The accepted draft of a receipt."""
        parts = visit.request.match_info
        found = self._sender.drafts.accepted(visit.session.name, parts["bidder"], _whole(parts["ticket"]))
        if found is None:
            raise problem("nothing", "there is no accepted draft with this ticket")
        return found

    async def _receipt(self, visit: Visit) -> web.StreamResponse:
        found = self._accepted(visit)
        (schedule,) = await visit.link.all(["SCHEDULE"], Schedule)
        (sealed,) = await visit.link.answers(f"RECEIPT {found.number}")
        return self._pages.answer(visit, f"Receipt {found.command.ticket}", bidding.receipt(found, self._site.heading, schedule, sealed))

    async def _receipt_file(self, visit: Visit) -> web.StreamResponse:
        found = self._accepted(visit)
        (sealed,) = await visit.link.answers(f"RECEIPT {found.number}")
        if not isinstance(sealed, ReceiptGiven):
            raise problem("nothing", "no seal is behind this command yet, or the front has none")
        fields = {"Content-Disposition": f'attachment; filename="receipt-{found.number}.json"'}
        return web.Response(body=sealed.text.encode() + b"\n", content_type=JSON, headers=fields)

    # The desk.

    async def _preview(self, visit: Visit) -> tuple[Previewed | None, list[Prospect]]:
        """What a close would do now. It may not be known."""
        answers: list[Answer] = await visit.link.answers("PREVIEW", *(f"PREVIEW {bidder}" for bidder in documents.bidders_of(self._site.tree)))
        try:
            return read_as(answers[0], Previewed), [read_as(answer, Prospect) for answer in answers[1:]]
        except Problem as fault:
            if fault.word != "unknown":
                raise
            return None, []

    async def _desk(self, visit: Visit) -> web.StreamResponse:
        shown, _ = await visit.link.shown()
        await self._look(visit, shown.next_ticket - 1)
        (schedule,) = await visit.link.all(["SCHEDULE"], Schedule)
        found, bidders = (None, []) if shown.is_over else await self._preview(visit)
        news = await visit.link.all_news()
        return self._pages.answer(visit, "Desk", list(desk.desk_page(self._site.tree, shown, schedule, found, bidders, news, visit.session.form)))

    async def _look(self, visit: Visit, used: int) -> None:
        try:
            await self._sender.look(visit.session.name, visit.link, None, used)
        except NotKept:
            raise problem("kept") from None

    async def _close_form(self, visit: Visit) -> web.StreamResponse:
        shown, _ = await visit.link.shown()
        found, bidders = (None, []) if shown.is_over else await self._preview(visit)
        if shown.is_over:
            return to_page("/desk")
        return self._pages.answer(visit, "Close", list(desk.close_page(shown, found, bidders, visit.session.form)))

    async def _close(self, visit: Visit) -> web.StreamResponse:
        """The front refuses a close that would end the auction, unless the word was typed."""
        word = visit.fields.get("word", "")
        if word and word != desk.ENDING_WORD:
            visit.say(f"The word wasn't {desk.ENDING_WORD}: nothing was sent.", "bad")
            return to_page("/desk/close")
        return await self._sent_from_desk(visit, Close(_ticket(visit), bool(word)), "The close")

    async def _stage(self, visit: Visit) -> web.StreamResponse:
        return await self._sent_from_desk(visit, Stage(_ticket(visit)), "The stage")

    async def _sent_from_desk(self, visit: Visit, command: Command, what: str) -> web.StreamResponse:
        await self._sender.send(visit.session.name, visit.link, [command], WAIT_SECONDS)
        found = self._sender.drafts.find(visit.session.name, command)
        if found is None:
            raise problem("kept")
        mark = "good" if found.state == ACCEPTED else "warn" if found.state == SENT else "bad"
        visit.say(f"{what}: {bidding.outcome_says(found)}.", mark)
        return to_page("/desk")

    async def _clock(self, visit: Visit) -> web.StreamResponse:
        fields: dict[str, object] = {name: visit.fields[name] for name in ("kind", "until") if name in visit.fields}
        if "round" in visit.fields:
            fields["round"] = visit.number("round")
        return await self._told(visit, clock_line_in(fields))

    async def _say(self, visit: Visit) -> web.StreamResponse:
        to = visit.field("to").strip()
        if not NAME.fullmatch(to):
            raise problem("fields", "to: no name")
        return await self._told(visit, announcement_line(to, visit.field("text").strip()))

    async def _told(self, visit: Visit, line: str) -> web.StreamResponse:
        """A line that the front answers by its news."""
        try:
            news = await visit.link.one(line, News)
        except Problem as fault:
            if fault.status in (401, 503, 504):
                raise
            visit.say(f"{fault.word}: {fault.meaning}. What to do: {fault.advice}.", "bad")
        else:
            visit.say(f"Done: {news.said if news.said is not None else change_says(news.text)}.", "good")
        return to_page("/desk")

    # Everybody.

    async def _results(self, visit: Visit) -> web.StreamResponse:
        standing = await visit.link.standing()
        (schedule,) = await visit.link.all(["SCHEDULE"], Schedule)
        parts = [_auction_facts(standing), clock_line(schedule), *results_parts(self._site.tree, standing, visit.identity.own)]
        if visit.identity.kind == OBSERVER:
            parts.append(desk.agreement_form(standing.shown, visit.session.form))
        return self._pages.answer(visit, "Results", parts)

    async def _agree(self, visit: Visit) -> web.StreamResponse:
        try:
            found = await visit.link.one(f"AGREE {_ticket(visit)}", Agreed)
        except Problem as fault:
            if fault.status in (401, 503, 504):
                raise
            visit.say(f"{fault.word}: {fault.meaning}.", "bad")
        else:
            visit.say(f"You agree that the close with ticket {found.ticket} ends the auction.", "good")
        return to_page("/results")


def results_parts(tree: Tree, standing: Standing, own: Sequence[str]) -> list[Markup]:
    """The results of the last close: what each bidder wins, and all nodes. One's own rows are marked."""
    found = documents.results_of(tree, standing.shown, standing.nodes, standing.information)
    sums = [f"{one['bidder']}: {counted(one['licences'], 'licence')}, {money(one['amount'])}" for one in found["bidders"]]
    listed = element("ul", *(element("li", text) for text in sums))
    nodes = in_halves(list(standing.nodes.values()), "All nodes after the last close", lambda part, caption: _nodes_table(part, caption, own))
    return [*([section("Winners", listed, name="winners")] if sums else []), section("Nodes", nodes, name="nodes")]


def _nodes_table(nodes: Sequence[NodeShown], caption: str, own: Sequence[str]) -> Markup:
    rows = [
        [node.name, money(node.high) if node.high else "no bid", _bidder_cell(node, own), money(node.price), money(node.minimum), "wins" if node.wins else ""]
        for node in nodes
    ]
    marks = ["mine" if node.bidder in own else "" for node in nodes]
    return table(caption, ["Node", "High bid", "Bidder", "Price", "Least bid", "Wins"], rows, marks)


def _bidder_cell(node: NodeShown, own: Sequence[str]) -> object:
    return element("span", node.bidder, element("small", "yours")) if node.bidder in own else node.bidder or ""


def draft_of(draft: Draft) -> dict[str, object]:
    """A draft as a row of CSV."""
    command = draft.command
    node, amount = (command.node, command.amount) if isinstance(command, Bid) else ("", "")
    known = {"bidder": draft.bidder or "", "kind": _KINDS[type(command)], "node": node, "amount": amount, "round": draft.round or ""}
    return {**known, "ticket": command.ticket, "state": draft.state, "number": draft.number or "", "at": draft.at, "why": draft.why}


def _auction_facts(standing: Standing) -> Markup:
    shown, information = standing.shown, standing.information
    revenue = money(shown.revenue) if information.has_revenue else "not shown"
    return facts({"Round": shown.round, "Stage": shown.stage, "State": "over" if shown.is_over else "open", "Revenue": revenue})


def _place(visit: Visit) -> dict[str, object]:
    """The bidder, the round and the ticket of a form."""
    round_, ticket = visit.number("round"), visit.number("ticket")
    if not 1 <= round_ <= MOST_COMMANDS or not 1 <= ticket <= MOST_TICKET:
        raise problem("fields", "round or ticket: out of range")
    return {"bidder": visit.field("bidder"), "round": round_, "ticket": ticket}


def _ticket(visit: Visit) -> int:
    ticket = visit.number("ticket")
    if not 1 <= ticket <= MOST_TICKET:
        raise problem("fields", "ticket: out of range")
    return ticket


def _wishes_in(visit: Visit) -> list[Wish]:
    """The bids of a form: those of its fields, then its list, then its file."""
    found = list[Wish]()
    try:
        for name, text in visit.fields.items():
            if name.startswith(bidding.AMOUNT) and text.strip():
                node = name.removeprefix(bidding.AMOUNT)
                found.append(standpoint.read_wish(node, text, node[:16]))
    except Unread as fault:
        raise problem("fields", str(fault)) from None
    found += [wish for field in ("list", "file") for wish in _read(visit.fields.get(field, ""))]
    if len(found) > standpoint.MOST_ROWS:
        raise problem("fields", f"{len(found)} bids are more than {standpoint.MOST_ROWS}")
    return found


def _read(text: str) -> list[Wish]:
    try:
        return standpoint.read_wishes(text)
    except (Unread, csv.Error) as fault:
        raise problem("fields", str(fault)) from None


def _whole(text: str) -> int:
    if not (text.isascii() and text.isdigit()) or len(text) > 10:
        raise problem("nothing")
    return int(text)
