"""Attacks on the site as it is started: forms from elsewhere, cookies that were stolen or planted, frames, ways out, and names that are markup."""

from __future__ import annotations

import re
import subprocess
from collections.abc import Iterator
from pathlib import Path

import pytest
from boards import Tools
from fronts import Front, make_certificate, token_of, toml
from harness.programs import Program
from harness.serving import ADDRESS, free_port
from sites_of_web import RULES, SECONDS, Person, Web

COOKIE, FORM_COOKIE = "__Host-hpb", "__Host-hpb-form"
EVIL = '<script>alert(1)</script>"\'><img src=x onerror=alert(2)>'
PERSONAL = ("/bid", "/drafts", "/drafts.csv", "/results", "/receipts/x/1", "/drafts/x/1-1", "/signin", "/nowhere", "/v1/bidders/me", "/v1/announcements")


@pytest.fixture
def front(program: Program, room: Path) -> Iterator[Front]:
    """A front of a new auction with waivers."""
    made = Front(program, room)
    program.keep(made.file, (), RULES, journal=16)
    made.configure(listen=f"{ADDRESS}:{free_port()}").start()
    yield made
    made.kill()


def test_what_comes_from_elsewhere_changes_nothing(front: Front, tools: Tools) -> None:
    site = Web(tools, front, {"drafts": "drafts", "title": EVIL}).start()
    ann, desk = Person(site, "ann"), Person(site, "desk")
    look_at_forms(ann, desk, site)
    look_at_cookies(site)
    look_at_ways_out(ann)
    look_at_markup(ann, desk)
    look_at_fields(ann)
    assert front.entries("accepted") == [] and [line for line in front.log_lines() if line.get("line") in ("CLOSE 1", "STAGE 1")] == []


def look_at_forms(ann: Person, desk: Person, site: Web) -> None:
    """A forged origin, none, another session's token, and none: each is refused, and the form itself would count."""
    rows = [
        (ann, "/waivers/send", {**ann.form("/bid", "/waivers/check")}), (ann, "/bids/send", {**ann.form("/bid", "/bids/check"), "bid.1": "a,100"}),
        (desk, "/desk/stage", desk.form("/desk", "/desk/stage")), (desk, "/desk/close", {**desk.form("/desk/close", "/desk/close"), "word": "END"}),
        (desk, "/desk/say", {**desk.form("/desk", "/desk/say"), "to": "all", "text": "forged"}), (ann, "/signout", ann.form("/bid", "/signout")),
    ]
    for person, path, form in rows:
        other = (desk if person is ann else ann).form("/results", "/signout")["form"]
        forged = ["https://evil.example", "null", f"https://{ADDRESS}:{site.port}", f"http://{ADDRESS}:1", f"http://{ADDRESS}:{site.port}.evil.example", ""]
        found = [person.ask("POST", path, form, Origin=origin) for origin in forged] + [person.ask("POST", path, form)]
        found += [person.send(path, form, **{"Sec-Fetch-Site": kind}) for kind in ("cross-site", "same-site")]
        found += [person.send(path, {**form, "form": token}) for token in ("", "x", other)]
        found.append(person.send(path, {name: value for name, value in form.items() if name != "form"}))
        assert found == [403] * len(found), (path, found)
        stranger = Person(site)
        assert stranger.send(path, form) == 403 and stranger.ask("GET", path) in (303, 404, 405)
        assert person.ask("POST", path, form, Origin=person.origin, Authorization=f"Basic {token_of('desk')}", Cookie="") == 403
    said = {**desk.form("/desk", "/desk/say"), "to": "all", "text": "not forged"}
    assert desk.send("/desk/say", said) == 303 and desk.ask("GET", "/desk") == 200 and "not forged" in desk.text


def look_at_cookies(site: Web) -> None:
    """A cookie that somebody planted never becomes a session, and one that ended is none."""
    for planted in ("planted", "", "a" * 43, "\xff", "a;b"):
        victim, thief = Person(site), Person(site)
        victim.cookies[COOKIE] = thief.cookies[COOKIE] = planted
        assert victim.sign_in("ann") == 303 and victim.cookies[COOKIE] != planted
        assert thief.ask("GET", "/bid") == 303 and thief.fields["Location"] == "/signin"
        victim.ask("GET", "/bid")
        old = dict(victim.cookies)
        assert victim.send("/signout", victim.form("/bid", "/signout")) == 303
        thief.cookies = old
        assert thief.ask("GET", "/bid") == 303 and thief.fields["Location"] == "/signin", "replayed"
    planted_form = Person(site)
    planted_form.cookies[FORM_COOKIE] = "b" * 43
    form = planted_form.form("/signin", "/signin")
    other = Person(site)
    other.ask("GET", "/signin")
    assert other.send("/signin", {**form, "name": "ann", "token": token_of("ann")}) == 403, "the form goes with its own cookie alone"
    twice = Person(site, "ann")
    assert twice.ask("GET", "/bid", Cookie=f"{COOKIE}={twice.cookies[COOKIE]}; {COOKIE}=x") == 303, "of two cookies of one name none counts"
    assert twice.ask("GET", "/bid", Cookie=f"a/b=1; [c]=2; {COOKIE}={twice.cookies[COOKIE]}") == 200, "cookies of others do no harm"


def look_at_ways_out(ann: Person) -> None:
    """Nothing leads to another host."""
    outs = ["//evil.example/", "/\\evil.example", "/%2f%2fevil.example", "/signin?next=https://evil.example", "/?to=//evil.example", "/.//evil.example/", "/bid/../..//evil.example"]
    for path in outs:
        status = ann.ask("GET", path)
        assert status in (200, 303, 400, 404) and ann.fields.get("Location", "/") in ("/", "/bid", "/signin"), (path, status, ann.fields)
        assert "evil.example" not in ann.text or path not in ann.text, path
    assert ann.ask("GET", "/bid", None, **{"X-Forwarded-Host": "evil.example"}) == 200 and "evil.example" not in ann.text


def look_at_markup(ann: Person, desk: Person) -> None:
    """Whatever people send, and the auction's name, is text."""
    check = ann.form("/bid", "/bids/check")
    texts = []
    for path, form in (
        ("/bids/check", {**check, "list": f"{EVIL},100"}), ("/bids/check", {**check, "amount.a": EVIL}), ("/bids/check", {**check, f"amount.{EVIL}": "1"}),
        ("/bids/check", {**check, "bidder": EVIL}), ("/bids/check", {**check, "round": EVIL}), (f"/bids/{EVIL}".replace(" ", "+"), check),
    ):
        ann.send(path, form)
        texts.append(ann.text)
    stranger = Person(ann.site)
    stranger.sign_in(EVIL, token=EVIL)
    texts.append(stranger.text)
    assert desk.send("/desk/say", {**desk.form("/desk", "/desk/say"), "to": "all", "text": EVIL}) == 303
    for person, path in ((desk, "/desk"), (ann, "/bid"), (ann, "/results")):
        person.ask("GET", path)
        texts.append(person.text)
    assert all("<script" not in text and "<img" not in text for text in texts) and "&lt;script&gt;" in texts[-1]


def look_at_fields(ann: Person) -> None:
    """No answer is kept, framed, or taken for another kind. None says which program made it."""
    for path in (*PERSONAL, "/site.css"):
        ann.ask("GET", path, form=None, **({"Authorization": f"Bearer {token_of('ann')}"} if path.startswith("/v1/") else {}))
        fields = ann.fields
        assert fields["Cache-Control"] == "no-store" and "ETag" not in fields and "Last-Modified" not in fields, path
        assert fields["X-Frame-Options"] == "DENY" and "frame-ancestors 'none'" in fields["Content-Security-Policy"], path
        assert fields["X-Content-Type-Options"] == "nosniff" and fields["Referrer-Policy"] == "same-origin", path
        assert "Access-Control-Allow-Origin" not in fields and "aiohttp" not in fields.get("Server", ""), path


def test_a_name_with_a_certificate_is_nobody_without_it(front: Front, tools: Tools) -> None:
    context = make_certificate(front.folder)
    clients = front.folder / "clients"
    clients.mkdir()
    digests = {name: made(clients, name) for name in ("ann", "eve", "desk")}
    (front.folder / "CA").write_bytes(b"".join((clients / f"{name}.pem").read_bytes() for name in digests))
    table = {"ann": digests["ann"], "desk": "CN=desk,O=Coast"}
    site = Web(tools, front, {"certificate": "S", "key": "K", "clients": "CA"}, tables={"certificates": table}, context=context).start()
    assert site.ask("GET", "/v1/bidders/me", "ann")[1]["word"] == "factor" and Person(site).sign_in("ann") == 401
    assert site.ask("GET", "/v1/bidders/me", "bob")[0] == 200 and Person(site).sign_in("bob") == 303
    for own, other in (("ann", "desk"), ("desk", "ann")):
        context.load_cert_chain(clients / f"{own}.pem", clients / f"{own}.key")
        assert site.ask("GET", "/v1/bidders/me", own)[1]["name"] == own and Person(site).sign_in(own) == 303
        assert site.ask("GET", "/v1/bidders/me", other)[1]["word"] == "factor" and Person(site).sign_in(other) == 401
    signed_in = Person(site, "desk")
    assert signed_in.ask("GET", "/desk") == 200
    context.load_cert_chain(clients / "eve.pem", clients / "eve.key")
    assert signed_in.ask("GET", "/desk") == 401, "a cookie that was stolen is worth nothing without the certificate"
    assert site.ask("GET", "/v1/bidders/me", "ann")[1]["word"] == "factor"


def test_the_operator_enrols_names_by_the_tool(room: Path, tools: Tools) -> None:
    (room / "definition.json").write_bytes(RULES)
    fields = {"definition": "definition.json", "front": "localhost:1", "plain": True, "listen": f"{ADDRESS}:0", "codes": "codes", "title": "Coast 2026"}
    (room / "W").write_text(toml(fields, {}))
    written, said, status = tools.start("web", "--config", room / "W", "--enrol", "ann").ended()
    assert (said, status) == ("", 0) and re.fullmatch(r"otpauth://totp/Coast%202026%3Aann\?secret=[A-Z2-7]{32}&issuer=Coast%202026\n", written), written
    assert (room / "codes").stat().st_mode & 0o777 == 0o600
    again = tools.start("web", "--config", room / "W", "--enrol", "ann").ended()
    assert again == ("", f"web: ann has a secret: take its line out of {room / 'codes'} first\n", 1)
    (room / "codes").chmod(0o644)
    served = tools.start("web", "--config", room / "W").ended()
    assert served == ("", f"web: codes: {room / 'codes'}: others may read it; `chmod 600` it, and own it\n", 1)


def made(folder: Path, name: str) -> str:
    """Makes a certificate of a client that vouches for itself, and returns its SHA-256, as openssl writes it."""
    words = f"req -x509 -newkey rsa:2048 -nodes -days 2 -subj /O=Coast/CN={name} -keyout {name}.key -out {name}.pem"
    subprocess.run(["openssl", *words.split()], cwd=folder, check=True, capture_output=True, timeout=SECONDS)
    told = subprocess.run(["openssl", "x509", "-noout", "-sha256", "-fingerprint", "-in", f"{name}.pem"], cwd=folder, check=True, capture_output=True)
    return told.stdout.decode().strip().rpartition("=")[2]
