"""Second factors of the site: codes by the vectors of RFC 4226 and RFC 6238, each of one use, and certificates by digest and subject."""
from __future__ import annotations

import base64
import hashlib
import pathlib
import time
import urllib.parse
from collections.abc import Callable

import pytest

from hpb.web import factors, pages
from hpb.web.factors import STEP_SECONDS, Certificate, Codes, Factors, NotUsable, code_at, enrol, read_secrets
from hpb.web.problems import Problem
from hpb.web.sessions import COOKIE
from web_browser import Browser
from web_front import Front
from web_site import run, visited

SECRET = b"12345678901234567890"
# RFC 6238, appendix B: the time, and the codes of 8 digits by SHA-1, SHA-256 and SHA-512.
TIMED = {
    59: ("94287082", "46119246", "90693936"), 1111111109: ("07081804", "68084774", "25091201"), 1111111111: ("14050471", "67062674", "99943326"),
    1234567890: ("89005924", "91819424", "93441116"), 2000000000: ("69279037", "90698825", "38618901"), 20000000000: ("65353130", "77737706", "47863826"),
}
# RFC 4226, appendix D: the codes of the counts from 0.
COUNTED = ("755224", "287082", "359152", "969429", "338314", "254676", "287922", "162583", "399871", "520489")
NOW = 1_234_567_890.0
STEP = int(NOW) // STEP_SECONDS


def kept(path: pathlib.Path, **secrets: bytes) -> pathlib.Path:
    """A file of secrets."""
    path.touch(mode=0o600)
    path.write_text("".join(f"{name} {base64.b32encode(secret).decode()}\n" for name, secret in secrets.items()))
    return path


def word_of(call: Callable[[], object]) -> str:
    """The word of the problem that a call raises."""
    with pytest.raises(Problem) as raised:
        call()
    return raised.value.word


def test_codes_are_those_of_the_rfcs() -> None:
    secrets = {"sha1": SECRET, "sha256": SECRET + b"123456789012", "sha512": SECRET * 3 + b"1234"}
    for at, wanted in TIMED.items():
        assert tuple(code_at(secret, at // 30, 8, algorithm) for algorithm, secret in secrets.items()) == wanted, at
    assert tuple(code_at(SECRET, count) for count in range(10)) == COUNTED


def test_a_code_counts_once_and_one_step_beside_its_time(tmp_path: pathlib.Path) -> None:
    codes = Codes(kept(tmp_path / "codes", ann=SECRET, bob=SECRET))
    assert [codes.takes("ann", code_at(SECRET, STEP + drift), NOW) for drift in (-2, 2)] == [False, False]
    assert [codes.takes("ann", code, NOW) for code in ("", "000000", "89005924", code_at(SECRET, STEP) + "0")] == [False] * 4
    assert codes.takes("ann", "005924", NOW), "the last six digits of the RFC's code"
    assert not codes.takes("ann", "005924", NOW) and not codes.takes("ann", code_at(SECRET, STEP - 1), NOW), "neither again nor an older one"
    assert codes.takes("bob", code_at(SECRET, STEP - 1), NOW) and codes.takes("bob", code_at(SECRET, STEP + 1), NOW)
    again = Codes(tmp_path / "codes")
    assert not again.takes("ann", "005924", NOW), "nor after a restart"
    assert again.takes("ann", code_at(SECRET, STEP + 1), NOW + STEP_SECONDS)
    assert (tmp_path / "codes.used").stat().st_mode & 0o777 == 0o600


def test_a_file_that_others_may_read_or_that_is_no_list_is_refused(tmp_path: pathlib.Path) -> None:
    path = kept(tmp_path / "codes", ann=SECRET)
    for mode in (0o644, 0o640, 0o604, 0o620):
        path.chmod(mode)
        with pytest.raises(NotUsable, match="others may read it"):
            read_secrets(path)
    path.chmod(0o600)
    known = base64.b32encode(SECRET).decode()
    for text in ("ann\n", f"ANN {known}\n", f"ann {known} x\n", f"ann {known}\nann {known}\n", "ann MZXW6YTB\n", "ann 1111111111111111\n", "\xe4\n"):
        path.write_text(text)
        with pytest.raises(NotUsable, match="codes: "):
            read_secrets(path)
    path.write_text(f"\nann {known.lower()}\n")
    assert read_secrets(path) == {"ann": SECRET}
    with pytest.raises(NotUsable):
        read_secrets(tmp_path / "none")
    (tmp_path / "codes.used").write_text("[]")
    with pytest.raises(NotUsable):
        Codes(path)


def test_the_operator_enrols_a_name_for_its_app(tmp_path: pathlib.Path) -> None:
    path = tmp_path / "codes"
    address = urllib.parse.urlsplit(enrol(path, "ann", "Coast 2026"))
    words = urllib.parse.parse_qs(address.query)
    assert (address.scheme, address.netloc, urllib.parse.unquote(address.path), words["issuer"]) == ("otpauth", "totp", "/Coast 2026:ann", ["Coast 2026"])
    secret = base64.b32decode(words["secret"][0])
    assert len(secret) == 20 and path.stat().st_mode & 0o777 == 0o600
    assert Codes(path).takes("ann", code_at(secret, STEP), NOW)
    enrol(path, "bob", "Coast 2026")
    assert list(read_secrets(path)) == ["ann", "bob"]
    for name in ("ann", "no name", "ANN"):
        with pytest.raises(NotUsable):
            enrol(path, name, "Coast 2026")


def test_wrong_codes_are_slowed_and_the_right_one_clears_that(tmp_path: pathlib.Path) -> None:
    found = Factors(Codes(kept(tmp_path / "codes", ann=SECRET)))
    right = code_at(SECRET, STEP)
    assert [word_of(lambda: found.look_at_code("ann", "000000", NOW)) for _ in range(5)] == ["factor"] * 5
    assert word_of(lambda: found.look_at_code("ann", right, NOW)) == "slow", "whatever the code is"
    found.look_at_code("ann", right, NOW + 1)
    assert word_of(lambda: found.look_at_code("ann", right, NOW + 1)) == "factor"
    found.look_at_code("carl", "", NOW)


def test_a_certificate_is_known_by_its_digest_or_its_subject() -> None:
    fields = {"subject": ((("countryName", "DE"),), (("organizationName", "Coast, Inc."),), (("commonName", "ann"),))}
    found = Certificate.of(b"encoded", fields)
    assert found == Certificate(hashlib.sha256(b"encoded").hexdigest(), "CN=ann,O=Coast\\, Inc.,C=DE")
    assert Certificate.of(None, {}) is None
    for wanted in (found.digest, found.subject):
        asked = Factors(None, {"ann": wanted})
        for is_session in (True, False):
            asked.look("ann", found, is_session)
            asked.look("bob", None, is_session)
            for other in (None, Certificate("0" * 64, "CN=ann"), Certificate("0" * 64, "")):
                assert word_of(lambda: asked.look("ann", other, is_session)) == "factor"


def test_a_name_with_codes_signs_in_by_a_code_of_one_use(tmp_path: pathlib.Path, monkeypatch: pytest.MonkeyPatch) -> None:
    path = kept(tmp_path / "codes", ann=SECRET)
    clock = [NOW]
    monkeypatch.setattr(pages.time, "time", lambda: clock[0])
    monkeypatch.setattr(factors.Slowing, "wait", lambda *_: 0.0)

    async def look() -> None:
        async with visited(Front(), codes=path) as visitor:
            texts = []
            for code in ("", "000000", code_at(SECRET, STEP + 2), "12345678", "\N{ARABIC-INDIC DIGIT ONE}" * 6):
                eve = await Browser(visitor).sign_in("ann", code=code)
                assert eve.status == 401 and COOKIE not in eve.cookies
                texts.append(eve.words())
            stranger = await Browser(visitor).sign_in("ann", "a-token-of-nobody-at-all", code=code_at(SECRET, STEP))
            assert {*texts, stranger.words()} == {stranger.words()}, "nobody learns which was wrong"
            assert "Name, token and code don't belong together." in stranger.words()
            ann = await Browser(visitor).sign_in("ann", code=code_at(SECRET, STEP))
            assert ann.path == "/bid" and ann.status == 200
            thief = await Browser(visitor).sign_in("ann", code=code_at(SECRET, STEP))
            assert thief.status == 401, "a code that was seen is worth nothing"
            clock[0] += STEP_SECONDS
            again = await Browser(visitor).sign_in("ann", code=code_at(SECRET, STEP + 1))
            assert again.path == "/bid"
            carl = await Browser(visitor).sign_in("carl")
            assert carl.path == "/bid", "a name without codes needs none"
            answer = await visitor.ask("GET", "/v1/auction", "ann")
            assert (answer.status, (await answer.json())["word"]) == (401, "factor"), "the token alone isn't enough for a program, either"
            assert (await visitor.ask("GET", "/v1/auction", "carl")).status == 200
            assert not any(code_at(SECRET, step) in line for line in visitor.noted.lines for step in range(STEP - 2, STEP + 3))

    run(look)


def test_codes_that_cant_be_kept_let_nobody_in(tmp_path: pathlib.Path) -> None:
    path = kept(tmp_path / "codes", ann=SECRET)

    async def look() -> None:
        async with visited(Front(), codes=path) as visitor:
            (tmp_path / "codes.used.new").mkdir()
            ann = await Browser(visitor).sign_in("ann", code=code_at(SECRET, int(time.time()) // STEP_SECONDS))
            assert ann.status == 503 and COOKIE not in ann.cookies

    run(look)
