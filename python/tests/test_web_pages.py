"""The pages: signing in, bids that are sent once, the desk; and forms that come from elsewhere."""
from __future__ import annotations

import asyncio
import json
import pathlib
import re
from typing import Any

import pytest

from hpb.client.outcomes import Unanswered
from hpb.lines import Bid, Close
from hpb.refusals import FrontRefused, HpbError
from hpb.rounds import ReceiptGiven
from hpb.web import acting, sending
from hpb.web.drafts import ACCEPTED, SENT, Draft, Drafts, NotKept
from hpb.web.sessions import COOKIE, IDLE_SECONDS, MOST_OF_NAME, MOST_SECONDS, Sessions
from web_browser import Browser, Form
from web_front import Front, token_of
from web_site import run, visited

FIRST_ROUND = ("BID x 1 a 100", "BID y 1 b 150", "BID z 1 all 500", "BID w 1 c 100", "CLOSE 1")


@pytest.fixture(autouse=True)
def quick(monkeypatch: pytest.MonkeyPatch) -> None:
    """Pages don't wait for long, and drafts are tried again at once."""
    monkeypatch.setattr(acting, "WAIT_SECONDS", 0.3)
    monkeypatch.setattr(sending, "PAUSE", 0.05)


def began() -> Front:
    """A front after the first round."""
    front = Front()
    for line in FIRST_ROUND:
        front.tell(line)
    return front


def commands(front: Front) -> list[str]:
    """The commands that names have sent to a front, each time that they were sent."""
    return [line for _, line in front.asked if line.split(" ")[0] in ("IN", "BID", "WAIVE", "CLOSE", "STAGE") and not line.startswith("IN 1000000 ")]


# Signing in.


def test_a_name_signs_in_and_out_and_each_session_is_new() -> None:
    async def look() -> None:
        async with visited(began()) as visitor:
            ann = Browser(visitor)
            await ann.go("/")
            assert ann.path == "/signin" and "Sign in" in ann.words()
            await ann.sign_in("ann")
            assert (ann.status, ann.path) == (200, "/bid") and "ann, bidder" in ann.words()
            first = dict(ann.cookies)
            assert list(first) == [COOKIE]
            await ann.sign_in("ann")
            assert ann.cookies[COOKIE] != first[COOKIE]
            old = Browser(visitor)
            old.cookies = first
            await old.go("/bid")
            assert old.path == "/signin", "the cookie of the session before is none any more"
            kept = dict(ann.cookies)
            await ann.send(ann.form("/signout"))
            assert ann.path == "/signin" and COOKIE not in ann.cookies
            replayed = Browser(visitor)
            replayed.cookies = kept
            await replayed.go("/bid")
            assert replayed.path == "/signin"
            for name, page in (("desk", "/desk"), ("public", "/results")):
                one = await Browser(visitor).sign_in(name)
                assert one.path == page
            kinds = [json.loads(line)["kind"] for line in visitor.noted.lines]
            assert kinds.count("signin") == 4 and kinds.count("signout") == 1 and not any("trial" in line for line in visitor.noted.lines)

    run(look)


def test_a_cookie_that_was_there_before_is_never_taken_for_a_session() -> None:
    async def look() -> None:
        async with visited(began()) as visitor:
            fixed = Browser(visitor)
            fixed.cookies[COOKIE] = "a-cookie-that-an-attacker-chose"
            await fixed.sign_in("ann")
            assert fixed.path == "/bid" and fixed.cookies[COOKIE] != "a-cookie-that-an-attacker-chose"
            attacker = Browser(visitor)
            attacker.cookies[COOKIE] = "a-cookie-that-an-attacker-chose"
            await attacker.go("/bid")
            assert attacker.path == "/signin"

    run(look)


def test_a_wrong_name_or_token_is_slowed_by_name_and_address() -> None:
    async def look() -> None:
        async with visited(began()) as visitor:
            visitor.stop_clock()
            statuses = []
            for token in ("a-token-of-nobody-at-all", token_of("bob"), "short", "x" * 200, "a-token-of-nobody-at-all", token_of("ann")):
                eve = await Browser(visitor).sign_in("ann", token)
                statuses.append(eve.status)
            assert statuses == [401] * 5 + [429] and int(eve.headers["Retry-After"]) >= 1 and COOKIE not in eve.cookies

    run(look)


def test_sessions_end_by_idleness_by_age_and_by_number() -> None:
    sessions, link = Sessions(), Any
    cookie = sessions.begin("ann", link, 0.0)  # type: ignore[arg-type]
    assert sessions.find(cookie, IDLE_SECONDS) and not sessions.find(cookie, 2 * IDLE_SECONDS + 1)
    cookie = sessions.begin("ann", link, 0.0)  # type: ignore[arg-type]
    for time in range(0, int(MOST_SECONDS) + 1, 1_800):
        assert sessions.find(cookie, float(time))
    assert not sessions.find(cookie, MOST_SECONDS + 1)
    cookies = [sessions.begin("ann", link, 0.0) for _ in range(MOST_OF_NAME + 2)]  # type: ignore[arg-type]
    assert [bool(sessions.find(one, 0.0)) for one in cookies] == [False] * 2 + [True] * MOST_OF_NAME
    assert not sessions.find("", 0.0)


def test_a_session_ends_when_its_token_goes() -> None:
    async def look() -> None:
        front = began()
        async with visited(front) as visitor:
            ann = await Browser(visitor).sign_in("ann")
            front.revoked.add("ann")
            await ann.go("/bid")
            assert ann.status == 403 and "token" in ann.words()
            await ann.go("/bid")
            assert ann.path == "/signin"

    run(look)


# Forms that come from elsewhere.


def test_each_form_needs_its_origin_its_token_and_its_session() -> None:
    """Whatever it is that would change: nothing does."""

    async def look() -> None:
        front = began()
        async with visited(front) as visitor:
            ann, desk, public = [await Browser(visitor).sign_in(name) for name in ("ann", "desk", "public")]
            rows: list[tuple[Browser, Form]] = []
            await ann.go("/bid")
            rows += [(ann, form) for form in ann.forms()]
            place = ann.form("/bids/check").fields
            rows += [(ann, Form(path, {**place, "bid.1": "a,160"})) for path in ("/bids/send", "/waivers/send")]
            await desk.go("/desk")
            rows += [(desk, form) for form in desk.forms()]
            await desk.go("/desk/close")
            rows += [(desk, form) for form in desk.forms()]
            await public.go("/results")
            rows += [(public, form) for form in public.forms()]
            application = visitor.client.app
            assert application
            routes = {route.resource.canonical for route in application.router.routes() if route.method == "POST" and route.resource}
            sent = {form.action for _, form in rows} | {"/signin"}
            assert {path for path in routes if not path.startswith("/v1/")} == sent
            before, asked = front.auction, len(commands(front))
            for browser, form in rows:
                kept = dict(browser.cookies)
                forms = [(form, origin) for origin in ("http://evil.example", "null", None, browser.origin.replace("http", "https"))]
                forms += [(Form(form.action, {**form.fields, "form": text}), "") for text in ("", "x", desk.form("/signout").fields["form"] if browser is ann else "y")]
                forms.append((Form(form.action, {name: value for name, value in form.fields.items() if name != "form"}), ""))
                for one, origin in forms:
                    await browser.send(one, origin)
                    assert browser.status == 403, (form.action, origin, browser.text)
                browser.cookies = {}
                await browser.send(form)
                assert browser.status == 403, form.action
                browser.cookies = kept
            assert front.auction == before and len(commands(front)) == asked
            stranger = Browser(visitor)
            await stranger.go("/signin")
            form = stranger.form("/signin")
            strange: list[tuple[str | None, dict[str, str]]] = [("http://evil.example", {}), (None, {}), ("", {"form": "x"})]
            for origin, fields in strange:
                await stranger.send(form, origin, **{"name": "ann", "token": token_of("ann"), **fields})
                assert stranger.status == 403 and COOKIE not in stranger.cookies
            stranger.cookies = {}
            await stranger.send(form, name="ann", token=token_of("ann"))
            assert stranger.status == 403

    run(look)


def test_nothing_is_changed_by_basic_by_bearer_or_by_looking() -> None:
    async def look() -> None:
        front = began()
        async with visited(front) as visitor:
            for field in ("Basic YW5uOnRva2VuLW9mLWFubi1pbi1hLXRyaWFs", f"Bearer {token_of('ann')}"):
                headers = {"Authorization": field, "Origin": Browser(visitor).origin}
                answer = await visitor.ask("POST", "/bids/send", None, headers=headers, data={"bidder": "x", "round": "2", "ticket": "2", "bid.1": "a,160"})
                assert answer.status == 403
            ann = await Browser(visitor).sign_in("ann")
            answer = await visitor.ask("POST", "/v1/commands", None, headers={"Cookie": f"{COOKIE}={ann.cookies[COOKIE]}"}, json={"kind": "waive", "bidder": "x", "ticket": 2})
            assert answer.status == 401, "a cookie is nothing to the interface for programs"
            for path in ("/bids/send", "/desk/close", "/signout", "/agree"):
                await ann.go(path)
                assert ann.status in (404, 405), path
            assert commands(front) == []

    run(look)


def test_no_page_may_be_framed_and_each_answer_has_its_fields() -> None:
    async def look() -> None:
        front = began()
        async with visited(front) as visitor:
            ann = await Browser(visitor).sign_in("ann")
            for path in ("/bid", "/signin", "/site.css", "/nowhere", "/results", "/drafts", "/drafts.csv", "/v1/auction", "/v1/openapi.json"):
                await ann.go(path)
                policy = ann.headers["Content-Security-Policy"]
                assert "frame-ancestors 'none'" in policy and "default-src 'none'" in policy and "unsafe" not in policy
                assert ann.headers["X-Frame-Options"] == "DENY" and ann.headers["X-Content-Type-Options"] == "nosniff" and ann.headers["Cache-Control"] == "no-store"

    run(look)


def test_html_in_what_people_send_is_text() -> None:
    evil = '<script>alert(1)</script>"\'><img src=x>'

    async def look() -> None:
        front = began()
        async with visited(front, title=evil) as visitor:
            ann, desk = await Browser(visitor).sign_in("ann"), await Browser(visitor).sign_in("desk")
            await desk.send(desk.form("/desk/say"), text=evil)
            texts = [desk.text]
            await Browser(visitor).sign_in(evil, evil)
            await ann.go("/bid")
            texts.append(ann.text)
            form = ann.form("/bids/check")
            for fields in ({"list": f"{evil},100"}, {"amount.a": evil}, {f"amount.{evil}": "1"}, {"bidder": evil, "amount.a": "100"}, {"round": evil}):
                texts.append(await ann.send(form, **fields))
            for path in (f"/{evil}", f"/receipts/{evil}/1", f"/drafts/{evil}/1-2"):
                texts.append(await ann.go(path))
            for text in texts:
                assert "<script>" not in text and "<img" not in text, text

    run(look)


# Bids.


def test_a_bid_is_checked_then_sent_once_and_has_a_receipt() -> None:
    async def look() -> None:
        front = began()
        async with visited(front) as visitor:
            ann = await Browser(visitor).sign_in("ann")
            words = ann.words()
            assert "8 units short. The least spending that keeps the eligibility is 160: a for 160." in words
            form = ann.form("/bids/check")
            assert (form.fields["round"], form.fields["ticket"]) == ("2", "2")
            await ann.send(form, **{"amount.a": "160"})
            assert ann.status == 200 and "would be accepted" in ann.words() and commands(front) == []
            ready = ann.form("/bids/send")
            await ann.send(ready)
            assert re.search(r"160 on a for x 2 accepted, number 6, ticket 2, at \d\d:\d\d:\d\d UTC Receipt 2", ann.words()), ann.words()
            assert commands(front) == ["IN 2 BID x 2 a 160"]
            await ann.send(ready)
            assert "accepted, number 6" in ann.words() and commands(front) == ["IN 2 BID x 2 a 160"], "sent again, it isn't sent again"
            await ann.go("/receipts/x/2")
            assert "160 on a for x" in ann.words() and "Number 6" in ann.words()
            assert "hash that the operator gives out" in ann.words(), "this front has no seals"
            await ann.go("/receipts/x/2.json")
            assert ann.status == 404
            front.answers["RECEIPT"] = FrontRefused("unsealed")
            await ann.go("/receipts/x/2")
            assert "stands here once its round is closed" in ann.words()
            front.answers["RECEIPT"] = ReceiptGiven(6, '{"receipt": 1, "hash": "00ff"}')
            await ann.go("/receipts/x/2")
            assert "Hash in the record 00ff" in ann.words() and 'href="/receipts/x/2.json"' in ann.text
            await ann.go("/receipts/x/2.json")
            assert ann.text == '{"receipt": 1, "hash": "00ff"}\n' and "attachment" in ann.headers["Content-Disposition"]
            await ann.go("/bid")
            assert "Enough" in ann.words() and "sent in this round" in ann.words()
            await ann.go("/drafts.csv")
            assert ann.text.splitlines()[1].startswith("x,bid,a,160,2,2,accepted,6,")

    run(look)


def test_a_basket_is_checked_whole_before_the_first_bid_is_sent() -> None:
    async def look() -> None:
        front = began()
        async with visited(front) as visitor:
            bob = await Browser(visitor).sign_in("bob")
            form = next(form for form in bob.forms() if form.action == "/bids/check" and form.fields["bidder"] == "z")
            rows = {"a,155": "21 step", "a,100": "22 low", "nowhere,100": "12 node", "a,1000000000010": "23 high", "a,160\na,170": "24 again", "all,550\nd,100": "25 eligibility"}
            for text, refusal in rows.items():
                await bob.send(form, list=f"b,210\n{text}")
                assert refusal in bob.words() and "Nothing was sent" in bob.words() and not [one for one in bob.forms() if one.action == "/bids/send"], text
            for text in ("a", "a,b", "a,1,2", "a,-1", "a,1.5", "\0,1", "a," + "9" * 30, "a,1\n" * 128):
                await bob.send(form, list=text)
                assert bob.status == 400, (text, bob.words())
            assert commands(front) == []
            await bob.send(form, list="node,amount\r\nc,200\r\n", **{"amount.east": "360"})
            assert "2 bids for 560 dollars in all" in bob.words()
            await bob.send(bob.form("/bids/send"))
            assert commands(front) == ["IN 2 BID z 2 east 360", "IN 2 BID z 3 c 200"] and bob.words().count("accepted, number") == 2

    run(look)


def test_behind_a_bid_that_is_refused_none_is_sent() -> None:
    async def look() -> None:
        front = began()
        async with visited(front) as visitor:
            bob = await Browser(visitor).sign_in("bob")
            form = next(form for form in bob.forms() if form.action == "/bids/check" and form.fields["bidder"] == "z")
            await bob.send(form, list="a,160\nb,210\nc,200")
            front.answers["IN 2 BID z 3 b 210"] = FrontRefused("closed")
            await bob.send(bob.form("/bids/send"))
            words = bob.words()
            assert "accepted, number 6, ticket 2" in words and "refused: closed: no round is open" in words
            assert "not accepted: a draft before it wasn't accepted, so it wasn't sent" in words
            assert commands(front) == ["IN 2 BID z 2 a 160", "IN 2 BID z 3 b 210"]

    run(look)


def test_a_form_of_another_round_or_of_a_used_ticket_is_sent_nowhere() -> None:
    async def look() -> None:
        front = began()
        async with visited(front) as visitor:
            ann = await Browser(visitor).sign_in("ann")
            form = ann.form("/bids/check")
            await ann.send(form, **{"amount.a": "160"})
            ready = ann.form("/bids/send")
            front.tell("BID x 2 a 200")
            await ann.send(ready)
            assert ann.status == 400 and "ticket 2 was used meanwhile" in ann.words()
            front.tell("CLOSE 2")
            await ann.send(ready)
            assert ann.status == 400 and "round 3 is the auction's" in ann.words() and commands(front) == []
            for fields in ({"bidder": "y"}, {"bidder": "nobody"}, {"round": "0"}, {"round": "99999999999"}, {"ticket": "x"}, {"ticket": "0"}):
                await ann.send(form, **{"amount.a": "160", **fields})
                assert ann.status == 400, fields
            await ann.send(form)
            assert ann.status == 400 and "no amount was given" in ann.words()

    run(look)


def test_a_waiver_is_checked_and_sent_once() -> None:
    async def look() -> None:
        front = began()
        async with visited(front) as visitor:
            ann = await Browser(visitor).sign_in("ann")
            await ann.send(ann.form("/waivers/check"))
            ready = ann.form("/waivers/send")
            for _ in range(2):
                await ann.send(ready)
                assert "a waiver of x 2 accepted, number 6, ticket 2" in ann.words()
            assert commands(front) == ["IN 2 WAIVE x 2"]
            await ann.go("/bid")
            assert not [form for form in ann.forms() if form.action == "/waivers/check"], "none is left"

    run(look)


def test_a_draft_shows_sent_until_its_answer_comes() -> None:
    async def look() -> None:
        front = began()
        async with visited(front) as visitor:
            ann = await Browser(visitor).sign_in("ann")
            await ann.send(ann.form("/bids/check"), **{"amount.a": "160"})
            front.answers["IN 2 BID x 2 a 160"] = Unanswered("", True)
            ready = ann.form("/bids/send")
            await ann.send(ready)
            assert "sent with ticket 2: the answer hasn't come yet" in ann.words() and 'http-equiv="refresh"' in ann.text
            place = ann.path
            await ann.send(ready)
            await ann.go("/bid")
            assert "Sent, and not answered yet" in ann.words()
            front.answers.clear()
            await asyncio.sleep(0.3)
            await ann.go(place)
            assert "accepted, number 6" in ann.words() and 'http-equiv="refresh"' not in ann.text
            assert set(commands(front)) == {"IN 2 BID x 2 a 160"} and front.auction.count == 6

    run(look)


# Kills.


def rows_of_kills() -> dict[str, tuple[list[str], str]]:
    """What the auction has got of a draft when the site comes back, and what the draft's page says then."""
    return {
        "never sent": ([], "not accepted: no command with its ticket was accepted, so it doesn't count"),
        "accepted": (["BID x 2 a 160"], "accepted, number 6, ticket 2"),
        "another command": (["BID x 2 a 170"], "not accepted: another command has its ticket, so it doesn't count"),
        "accepted, and the round closed": (["BID x 2 a 160", "CLOSE 2"], "accepted, number 6, ticket 2"),
        "not accepted, and the round closed": (["BID y 2 b 210", "CLOSE 2"], "not accepted: no command with its ticket was accepted"),
        "others went on": (["BID x 2 a 160", "WAIVE x 3"], "a later ticket was used by another program meanwhile"),
    }


@pytest.mark.parametrize("what", rows_of_kills())
def test_a_draft_whose_site_was_killed_is_not_in_doubt(tmp_path: pathlib.Path, what: str) -> None:
    lines, wanted = rows_of_kills()[what]

    async def look() -> None:
        front = began()
        drafts = tmp_path / "drafts"
        async with visited(front, drafts=drafts) as visitor:
            ann = await Browser(visitor).sign_in("ann")
            await ann.send(ann.form("/bids/check"), **{"amount.a": "160"})
            front.answers["IN 2 BID x 2 a 160"] = Unanswered("", True)
            await ann.send(ann.form("/bids/send"))
            place = ann.path
        front.answers.clear()
        for line in lines:
            front.tell(line)
        before = front.auction
        async with visited(front, drafts=drafts) as visitor:
            again = Browser(visitor)
            again.cookies = dict(ann.cookies)
            await again.go(place)
            assert again.path == "/signin", "sessions end with their site"
            await again.sign_in("ann")
            await again.go(place)
            assert wanted in again.words(), again.words()
            await again.go("/bid")
            assert front.auction == before, "looking sends nothing that counts"

    run(look)


def test_a_draft_is_on_the_disk_before_it_is_sent(tmp_path: pathlib.Path, monkeypatch: pytest.MonkeyPatch) -> None:
    front, path = began(), tmp_path / "drafts"
    seen: list[str] = []

    async def look() -> None:
        async with visited(front, drafts=path) as visitor:
            ann = await Browser(visitor).sign_in("ann")
            await ann.send(ann.form("/bids/check"), **{"amount.a": "160"})
            answer = front.answer

            def spied(name: str, line: str) -> Any:
                if line.startswith("IN 2 BID"):
                    seen.append(path.read_text())
                return answer(name, line)

            monkeypatch.setattr(front, "answer", spied)
            await ann.send(ann.form("/bids/send"))

    run(look)
    assert len(seen) == 1 and json.loads(seen[0]) == {"name": "ann", "line": "IN 2 BID x 2 a 160", "state": "sent", "number": None, "why": "", "at": ""}
    assert path.stat().st_mode & 0o777 == 0o600


def test_a_file_of_drafts_is_read_up_to_its_last_whole_line_and_no_other_file_is(tmp_path: pathlib.Path) -> None:
    path = tmp_path / "drafts"

    async def keep() -> None:
        drafts = Drafts(path)
        await drafts.note([Draft("ann", Bid("x", "a", 160, 2, 2)), Draft("desk", Close(1, True), ACCEPTED, 7, "", "2026-12-02T09:20:00Z")])
        drafts.close()

    run(keep)
    path.write_bytes(path.read_bytes() + b'{"name": "ann", "li')
    again = Drafts(path)
    assert [(one.name, one.state, one.number) for one in (*again.of("ann"), *again.of("desk"))] == [("ann", SENT, None), ("desk", ACCEPTED, 7)]
    assert again.accepted("desk", None, 1) == again.find("desk", Close(1, True)) == Draft("desk", Close(1, True), ACCEPTED, 7, "", "2026-12-02T09:20:00Z")
    again.close()
    assert path.read_bytes().endswith(b"}\n")
    for text in ("no json\n", "[]\n", '{"name": "ann"}\n', '{"name": "ann", "line": "SHOW", "state": "sent", "number": null, "why": "", "at": ""}\n'):
        path.write_text(text)
        with pytest.raises(NotKept):
            Drafts(path)
    with pytest.raises(NotKept):
        Drafts(tmp_path / "none" / "drafts")


# The desk.


def test_the_desk_sorts_bidders_by_urgency_and_counts_them() -> None:
    async def look() -> None:
        front = Front(waivers=1)
        for line in (*FIRST_ROUND, "WAIVE x 2", "CLOSE 2", "BID w 2 d 100"):
            front.tell(line)
        async with visited(front) as visitor:
            desk = await Browser(visitor).sign_in("desk")
            words = desk.words()
            assert "3 of 4 short; 0 waivers would be taken; 3 bidders would lose eligibility; revenue 600 after a close." in words
            order = re.findall(r'<th scope="row">(\w)</th>', desk.text)
            assert order == ["w", "x", "y", "z"] and "Next ticket 3" in words

    run(look)


def test_a_close_has_its_preview_and_an_ending_one_its_word() -> None:
    async def look() -> None:
        front = began()
        async with visited(front) as visitor:
            desk = await Browser(visitor).sign_in("desk")
            assert "a close now ends the auction" in desk.words()
            await desk.go("/desk/close")
            ending = desk.form("/desk/close")
            front.answers["CLOSE 2"] = FrontRefused("end")
            await desk.send(ending, word="")
            assert "The close: refused: end: this close would end the auction, and doesn't say so." in desk.words()
            await desk.send(ending, word="end")
            assert "The word wasn't END: nothing was sent." in desk.words() and desk.path == "/desk/close"
            front.answers.clear()
            front.tell("BID x 2 a 160")
            await desk.go("/desk/close")
            assert "ends the auction" not in desk.words() and "word" not in desk.form("/desk/close").fields
            await desk.send(desk.form("/desk/close"))
            assert "The close: accepted, number 7, ticket 2" in desk.words() and front.auction.round == 3
            await desk.send(ending, word="END")
            assert not front.auction.is_over
            await desk.go("/desk/close")
            await desk.send(desk.form("/desk/close"), word="END")
            assert front.auction.is_over and "The auction is over" in desk.words()

    run(look)


def test_the_auctioneer_keeps_the_clock_and_announces() -> None:
    async def look() -> None:
        front = began()
        async with visited(front) as visitor:
            desk = await Browser(visitor).sign_in("desk")
            await desk.send(desk.form("/desk/clock"), until="10:30")
            await desk.send(desk.form("/desk/say"), to="all", text="we begin")
            await desk.send(desk.form("/desk/stage"))
            lines = [line for _, line in front.asked if line.split(" ")[0] in ("OPEN", "SAY", "STAGE")]
            assert lines == ["OPEN 2 UNTIL 10:30", "SAY all we begin", "STAGE 2"] and "we begin" in desk.words() and "Stage 2 of 2" in desk.words()
            for fields in ({"to": "ALL"}, {"text": ""}, {"text": "a\nb"}, {"text": "x" * 130}):
                await desk.go("/desk")
                await desk.send(desk.form("/desk/say"), **{"to": "all", "text": "hello", **fields})
                assert desk.status == 400, fields
            judge = await Browser(visitor).sign_in("judge")
            await judge.send(judge.form("/agree"))
            assert "You agree that the close with ticket 3 ends the auction." in judge.words()
            public = await Browser(visitor).sign_in("public")
            await public.send(public.form("/agree"))
            assert "rights" in public.words()
            for name in ("ann", "public"):
                one = await Browser(visitor).sign_in(name)
                await one.go("/desk")
                assert one.status == 404

    run(look)


def test_pages_and_documents_of_a_mock_say_so() -> None:
    async def look() -> None:
        for is_mock in (True, False):
            front = began()
            front.is_mock = is_mock
            async with visited(front) as visitor:
                ann = await Browser(visitor).sign_in("ann")
                assert ("MOCK" in ann.words()) == is_mock and (await visitor.get("/v1/auction"))["is_mock"] == is_mock

    run(look)


def test_a_front_that_is_away_is_said_to_be() -> None:
    async def look() -> None:
        front = began()
        async with visited(front) as visitor:
            ann = await Browser(visitor).sign_in("ann")
            fault: HpbError = Unanswered("", False)
            front.answers["*"] = fault
            await ann.go("/bid")
            assert ann.status == 503 and "the front wasn't reached" in ann.words()

    run(look)
