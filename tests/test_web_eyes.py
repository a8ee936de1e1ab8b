"""The site's pages in a Chromium, for eyes, ears and hands: contrast, names and roles, the keyboard alone, forced colours and paper.

A page of another site can do nothing there.

With PICTURES, a folder, each page is photographed there.
"""

from __future__ import annotations

import json
import os
import socket
from collections.abc import Callable, Iterator
from pathlib import Path
from typing import Any

import pytest
from boards import RULES, Running, Tools
from fronts import Front, make_certificate
from harness.programs import Program
from harness.serving import ADDRESS, free_port, wait_until
from selenium.webdriver.common.action_chains import ActionChains
from selenium.webdriver.common.by import By
from selenium.webdriver.common.keys import Keys
from sites_of_web import SECONDS, Web
from test_board_browser import browser as browser
from test_web_browser import SIZES, TOO_WIDE, sign_in, words
from test_web_browser import definition as largest

Driver = Any
# Each element with a text of its own whose contrast is too low (WCAG 2.2, 1.4.3).
TOO_FAINT = """
const parts = text => (text.match(/[\\d.]+/g) || []).map(Number);
const light = ([red, green, blue]) => [red, green, blue].map(part => part / 255)
    .map(part => part <= 0.04045 ? part / 12.92 : ((part + 0.055) / 1.055) ** 2.4).reduce((sum, part, place) => sum + part * [0.2126, 0.7152, 0.0722][place], 0);
const ground = one => { for (; one; one = one.parentElement) { const found = parts(getComputedStyle(one).backgroundColor); if (found.length && found[3] !== 0) return found; } return [255, 255, 255]; };
return [...document.querySelectorAll("body *")]
    .filter(one => one.checkVisibility() && [...one.childNodes].some(node => node.nodeType === 3 && node.textContent.trim()))
    .map(one => { const both = [light(parts(getComputedStyle(one).color)), light(ground(one))].sort((a, b) => a - b); return [(both[1] + 0.05) / (both[0] + 0.05), one.outerHTML.slice(0, 90)]; })
    .filter(([ratio]) => ratio < 4.5)
"""
NAMED = ("button", "link", "textbox", "table", "region", "navigation", "heading", "RootWebArea")


def of_nodes(nodes: int) -> bytes:
    """An auction of so many nodes: that of the first example, 30 licences in five packages, or the largest."""
    if nodes == 6:
        return RULES
    if nodes == 127:
        return largest()
    made: list[dict[str, object]] = [{"name": "all", "parent": None}]
    made += [{"name": f"region{number}", "parent": "all"} for number in range(1, 6)]
    made += [{"name": f"licence{number}", "parent": f"region{number % 5 + 1}", "units": 10, "opening": 1000} for number in range(1, 31)]
    bidders = [{"name": f"bidder{number}", "units": 50} for number in range(1, 9)]
    return json.dumps({"step": 10, "percent": 10, "stages": [80, 95], "waivers": 1, "nodes": made, "bidders": bidders}).encode() + b"\n"


@pytest.fixture
def make(program: Program, room: Path, tools: Tools) -> Iterator[Callable[[bytes], Web]]:
    """A site over TLS before a front of an auction, whose first bidder is ann's."""

    def makes(rules: bytes) -> Web:
        bidders = [one["name"] for one in json.loads(rules)["bidders"]]
        front = Front(program, room, names={"desk": "auctioneer", "ann": bidders[:1], "rest": bidders[1:], "public": "observer"}, limits={"lines_per_second": 1_000})
        program.keep(front.file, (), rules, journal=16)
        front.configure(listen=f"{ADDRESS}:{free_port()}").start()
        tools.stack.callback(front.kill)
        context = make_certificate(room)
        return Web(tools, front, {"certificate": "S", "key": "K", "title": "Coast 2026", "drafts": "drafts"}, rules, context=context).start()

    yield makes


@pytest.mark.timeout(600)
@pytest.mark.parametrize("nodes", [6, 36, 127])
def test_pages_can_be_read_by_eyes_and_ears(browser: Driver, make: Callable[[bytes], Web], nodes: int) -> None:
    site = make(of_nodes(nodes))
    one = json.loads(of_nodes(nodes))["nodes"][-1]["name"]
    bidder = json.loads(of_nodes(nodes))["bidders"][0]["name"]
    if nodes == 6:
        one = "a"
    assert site.ask("POST", "/v1/commands", "ann", {"kind": "bid", "bidder": bidder, "node": one, "amount": 1000, "ticket": 1})[0] == 200
    assert site.ask("POST", "/v1/commands", "desk", {"kind": "close", "ticket": 1})[0] == 200
    browser.get(f"https://localhost:{site.port}/signin")
    look(browser, f"signin-{nodes}")
    for name, paths in {"ann": ("bid", "drafts", "results"), "desk": ("desk", "desk/close")}.items():
        sign_in(browser, site, name)
        for path in paths:
            browser.get(f"https://localhost:{site.port}/{path}")
            assert browser.title.endswith("\N{EN DASH} Coast 2026"), browser.title
            look(browser, f"{path.replace('/', '-')}-{nodes}")
            if path == "results":
                assert "yours" in words(browser) and f"{bidder}: 1 licence, 1,000" in words(browser)


def look(driver: Driver, name: str) -> None:
    """Nothing is too wide or too faint in any size and scheme, and everything has its name."""
    media = [*(("screen", {"prefers-color-scheme": scheme, "forced-colors": "none"}) for scheme in ("light", "dark")), ("screen", {"forced-colors": "active"}), ("print", {"prefers-color-scheme": "dark"})]
    for medium, features in media:
        told = [{"name": known, "value": value} for known, value in features.items()]
        driver.execute_cdp_cmd("Emulation.setEmulatedMedia", {"media": medium, "features": told})
        for width, height in SIZES if medium == "screen" else [(1200, 900)]:
            driver.execute_cdp_cmd("Emulation.setDeviceMetricsOverride", {"width": width, "height": height, "deviceScaleFactor": 1, "mobile": False})
            assert driver.execute_script(TOO_WIDE) == [], (name, medium, features, width)
            # A browser that forces its own colours sees to their contrast.
            assert "active" in features.values() or driver.execute_script(TOO_FAINT) == [], (name, medium, features)
            if folder := os.environ.get("PICTURES"):
                driver.save_screenshot(f"{folder}/eyes-{name}-{medium}-{'-'.join(features.values())}-{width}.png")
    driver.execute_cdp_cmd("Emulation.setEmulatedMedia", {"media": "screen", "features": []})
    tree = [node for node in driver.execute_cdp_cmd("Accessibility.getFullAXTree", {})["nodes"] if not node["ignored"]]
    roles = [node["role"]["value"] for node in tree]
    assert [node for node in tree if node["role"]["value"] in NAMED and not node.get("name", {}).get("value")] == [], name
    assert roles.count("main") == roles.count("banner") == 1 and "heading" in roles, name
    levels = [int(one.tag_name[1]) for one in driver.find_elements(By.CSS_SELECTOR, "h1, h2, h3")]
    assert levels[0] == 1 and levels.count(1) == 1 and all(after - before <= 1 for before, after in zip(levels, levels[1:])), (name, levels)


def reach(driver: Driver, holds: str) -> Any:
    """Presses Tab until what has the keyboard is this, and can be seen."""
    for _ in range(60):
        ActionChains(driver).send_keys(Keys.TAB).perform()  # type: ignore[no-untyped-call]
        if driver.execute_script(f"const one = document.activeElement; return {holds}"):
            at = "const at = document.activeElement.getBoundingClientRect(); return at.top >= 0 && at.bottom <= innerHeight && getComputedStyle(document.activeElement).outlineStyle !== 'none'"
            assert driver.execute_script(at), holds
            return driver.switch_to.active_element
    raise AssertionError(holds)


def enter(driver: Driver, holds: str) -> None:
    """Presses Enter there, and waits for the next page."""
    before = driver.find_element(By.TAG_NAME, "html").id
    reach(driver, holds).send_keys(Keys.ENTER)
    wait_until(lambda: bool(driver.find_element(By.TAG_NAME, "html").id != before), SECONDS, "the next page")
    wait_until(lambda: bool(driver.execute_script("return document.readyState") == "complete"), SECONDS, "all of it")


@pytest.mark.timeout(400)
def test_a_bid_by_the_keyboard_alone_and_what_another_site_can_do(browser: Driver, make: Callable[[bytes], Web]) -> None:
    site = make(RULES)
    browser.get(f"https://localhost:{site.port}/signin")
    assert reach(browser, "one.hash === '#content'").text == "To the content"
    reach(browser, "one.name === 'name'").send_keys("ann")
    reach(browser, "one.name === 'token'").send_keys("token-of-ann-in-a-trial")
    enter(browser, "one.textContent === 'Sign in'")
    reach(browser, "one.name === 'amount.a'").send_keys("100")
    enter(browser, "one.textContent === 'Check these bids'")
    enter(browser, "one.textContent === 'Send 1 bid'")
    assert "accepted, number 1, ticket 1" in words(browser)
    look_from_elsewhere(browser, site)
    browser.get(f"https://localhost:{site.port}/bid")
    assert "ann, bidder" in words(browser), "the session is still there"
    assert site.front.accepted() == [("BID x 1 a 100", "OK 1")]


def look_from_elsewhere(driver: Driver, site: Web) -> None:
    """A page of another site shows nothing of this one in a frame, and its forms change nothing."""
    target = f"https://localhost:{site.port}"
    page = f"""<!DOCTYPE html><title>evil</title><iframe src="{target}/bid"></iframe>
        <form method="post" action="{target}/waivers/send"><input name="bidder" value="x"><input name="round" value="1"><input name="ticket" value="2"><button>win</button></form>"""

    def serve(client: socket.socket) -> None:
        client.recv(65_536)
        client.sendall(b"HTTP/1.1 200 OK\r\nContent-Type: text/html\r\nConnection: close\r\n\r\n" + page.encode())

    for host in ("localhost", ADDRESS):
        evil = Running(serve)
        driver.get(f"http://{host}:{evil.port}/")
        driver.switch_to.frame(0)
        assert "bidder" not in words(driver), "framed"
        driver.switch_to.default_content()
        driver.find_element(By.TAG_NAME, "button").click()
        wait_until(lambda: bool(driver.current_url.startswith(target)), SECONDS, "the form was sent")
        assert "403" in words(driver) and "What to do" in words(driver)
