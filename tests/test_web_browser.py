"""The site's pages in a Chromium, over TLS: a round is bid, closed and looked at, and nothing is wider than its window.

With PICTURES, a folder, each size is photographed there.
"""

from __future__ import annotations

import json
import os
from pathlib import Path
from typing import Any

import pytest
from boards import Tools
from fronts import Front, make_certificate, token_of
from harness.programs import Program
from harness.serving import ADDRESS, free_port, wait_until
from selenium.webdriver.common.by import By
from sites_of_web import SECONDS, Web
from test_board_browser import browser as browser

Driver = Any
SIZES = [(400, 900), (1200, 900), (1920, 1080)]
# The elements that reach beyond the window, but for those that can be scrolled there.
TOO_WIDE = """
return document.documentElement.scrollWidth <= innerWidth ? [] : [...document.querySelectorAll("body *")]
    .filter(one => one.getBoundingClientRect().right > innerWidth && !one.closest("table")).map(one => one.outerHTML.slice(0, 80))
"""
# As many bidders and nodes as there may be.
BIDDERS = [f"bidder{number}" for number in range(1, 65)]
LICENCES = [f"licence{number}" for number in range(1, 65)]
PACKAGES = [f"package{number}" for number in range(1, 64)]


def definition() -> bytes:
    """64 licences in pairs, which lie in packages, up to 127 nodes."""
    parents: dict[str, str | None] = {"package1": None}
    parents |= {f"package{number}": f"package{number // 2}" for number in range(2, 64)}
    nodes: list[dict[str, object]] = [{"name": name, "parent": parents[name]} for name in PACKAGES]
    nodes += [{"name": name, "parent": f"package{(number + 63) // 2}", "units": 10, "opening": 1000} for number, name in enumerate(LICENCES, 1)]
    bidders = [{"name": name, "units": 50} for name in BIDDERS]
    return json.dumps({"step": 10, "percent": 10, "stages": [80, 95], "waivers": 1, "nodes": nodes, "bidders": bidders}).encode() + b"\n"


@pytest.fixture
def site(program: Program, room: Path, tools: Tools) -> Web:
    """A site over TLS, before a front of the largest auction."""
    names = {"desk": "auctioneer", "ann": ["bidder1"], "rest": BIDDERS[1:]}
    front = Front(program, room, names=names, limits={"lines_per_second": 1000})
    program.keep(front.file, (), definition(), journal=16)
    front.configure(listen=f"{ADDRESS}:{free_port()}").start()
    tools.stack.callback(front.kill)
    make_certificate(room)
    made = Web(tools, front, {"certificate": "S", "key": "K", "title": "Coast 2026", "drafts": "drafts"}, definition())
    return made.start()


def fill(driver: Driver, **fields: str) -> None:
    """Types into fields of the page, by their names."""
    for name, text in fields.items():
        driver.find_element(By.NAME, name.replace("_", ".")).send_keys(text)


def press(driver: Driver, text: str) -> None:
    """Presses the first button with this text, and waits for the next page."""
    button = driver.find_element(By.XPATH, f"//button[starts-with(., '{text}')]")
    button.click()
    wait_until(lambda: bool(driver.execute_script("return document.readyState") == "complete"), SECONDS, "the next page")


def words(driver: Driver) -> str:
    """The words of the page."""
    return str(driver.find_element(By.TAG_NAME, "body").text)


def sign_in(driver: Driver, site: Web, name: str) -> None:
    """Signs in as a name."""
    driver.get(f"https://localhost:{site.port}/signin")
    fill(driver, name=name, token=token_of(name))
    press(driver, "Sign in")


@pytest.mark.timeout(400)
def test_a_round_in_a_browser(browser: Driver, site: Web) -> None:
    sign_in(browser, site, "ann")
    assert "ann, bidder" in words(browser) and "40 units short" in words(browser)
    cookies = {cookie["name"]: cookie for cookie in browser.get_cookies()}
    assert [cookies["__Host-hpb"][word] for word in ("secure", "httpOnly", "sameSite", "path")] == [True, True, "Strict", "/"]
    assert browser.execute_script("return document.cookie") == ""
    look_at_sizes(browser, "bid")
    fill(browser, amount_package16="4000")
    (site.front.folder / "bids.csv").write_text("node,amount\nlicence5,1000\n")
    browser.find_element(By.NAME, "file").send_keys(str(site.front.folder / "bids.csv"))
    press(browser, "Check these bids")
    assert "2 bids for 5,000 dollars in all" in words(browser), words(browser)
    look_at_sizes(browser, "check")
    press(browser, "Send 2 bids")
    assert "accepted, number 1, ticket 1" in words(browser) and "accepted, number 2, ticket 2" in words(browser)
    look_at_sizes(browser, "outcome")
    browser.get(f"https://localhost:{site.port}/receipts/bidder1/1")
    assert "4,000 on package16 for bidder1" in words(browser)
    press(browser, "Sign out")
    sign_in(browser, site, "desk")
    assert "63 of 64 short" in words(browser)
    look_at_sizes(browser, "desk")
    size = {"width": 1920, "height": 1080, "deviceScaleFactor": 1, "mobile": False}
    browser.execute_cdp_cmd("Emulation.setDeviceMetricsOverride", size)
    assert browser.execute_script("return document.getElementById('bidders').getBoundingClientRect().bottom <= innerHeight"), "64 bidders on one screen"
    browser.find_element(By.LINK_TEXT, "Close round 1: look first").click()
    press(browser, "Close round 1")
    assert "The close: accepted, number 3, ticket 1" in words(browser)
    assert site.front.accepted() == [("BID bidder1 1 package16 4000", "OK 1"), ("BID bidder1 2 licence5 1000", "OK 2"), ("CLOSE 1", "OK 3")]
    browser.get(f"https://localhost:{site.port}/results")
    assert "bidder1: 5 licences, 5,000" in words(browser)
    look_at_sizes(browser, "results")
    assert [line for line in browser.get_log("browser") if line["level"] == "SEVERE" and "favicon" not in line["message"]] == []


def look_at_sizes(driver: Driver, name: str) -> None:
    """Nothing is wider than its window, light and dark."""
    for width, height in SIZES:
        for scheme in ("light", "dark"):
            size = {"width": width, "height": height, "deviceScaleFactor": 1, "mobile": False}
            driver.execute_cdp_cmd("Emulation.setDeviceMetricsOverride", size)
            driver.execute_cdp_cmd("Emulation.setEmulatedMedia", {"features": [{"name": "prefers-color-scheme", "value": scheme}]})
            assert driver.execute_script(TOO_WIDE) == [], (name, width, scheme)
            if folder := os.environ.get("PICTURES"):
                driver.save_screenshot(f"{folder}/site-{name}-{width}-{scheme}.png")
