"""The page in a Chromium: its script shows what events bring, nothing is refused by its policy, and nothing is too wide.

With PICTURES, a folder, each size is photographed there.
"""

from __future__ import annotations

import os
import shutil
from collections import Counter
from collections.abc import Iterator
from contextlib import closing
from pathlib import Path
from typing import Any

import pytest
from boards import NODES, RULES, Site, Tool, Tools
from harness.auctions import FIRST_ROUND
from harness.fixtures import Lack
from harness.markup import Page
from harness.programs import Program
from harness.serving import Serve, wait_until
from selenium.webdriver import Chrome, ChromeOptions
from selenium.webdriver.chrome.service import Service
from selenium.webdriver.common.keys import Keys
from test_board_values import accept

# A Chrome of selenium, most of whose calls have no types.
Driver = Any
SECONDS = 60
MOVING = {"clock", "said", "picture-image"}
SIZES = [(1400, 1180, "light"), (1400, 1180, "dark"), (400, 1900, "light"), (400, 1900, "dark")]
# The roles for a screen reader: a head, and a row for each node with its name and four values.
TABLE = {"table": 1, "row": 1 + len(NODES), "columnheader": 5, "rowheader": len(NODES), "cell": 4 * len(NODES)}
STEPS = [FIRST_ROUND[:4], FIRST_ROUND[4:], ["BID w 2 c 250"], ["CLOSE 2"], ["BID y 2 b 180"]]


@pytest.fixture
def browser(room: Path, lack: Lack) -> Iterator[Driver]:
    """A Chromium without a window."""
    program, driver = (shutil.which(name) or "" for name in ("chromium", "chromedriver"))
    if not program or not driver:
        lack("no Chromium is there, or no chromedriver")
    options: Any = ChromeOptions()
    options.binary_location = program
    for word in ("--headless=new", "--no-sandbox", "--disable-gpu", "--no-first-run", "--hide-scrollbars", "--ignore-certificate-errors", f"--user-data-dir={room / 'chromium'}"):
        options.add_argument(word)
    options.set_capability("goog:loggingPrefs", {"browser": "ALL"})
    made = Chrome(service=Service(driver), options=options)
    yield made
    made.quit()


def value(browser: Driver, script: str) -> Any:
    return browser.execute_script(f"return {script}")


def text(browser: Driver, name: str) -> Any:
    return value(browser, f"document.getElementById('{name}')?.textContent")


@pytest.fixture
def followed(program: Program, room: Path, serve: Serve, tools: Tools, browser: Driver) -> tuple[Tool, Site]:
    """A board whose page the browser has opened, and has followed to the third round."""
    server = serve(program.keep(room / "F", (), RULES), 2)
    tool, site = tools.board(server.port, "--bidders", "x,y,w")
    wait_until(lambda: site.get("/tree.svg")[0] == 200, SECONDS, "the picture that the page asks for")
    browser.get(f"http://127.0.0.1:{site.port}/")
    wait_until(lambda: text(browser, "clock") not in (None, "\N{EN DASH}"), SECONDS, "the page is there")
    count = 0
    with closing(server.connect()) as session:
        for lines in STEPS:
            accept(session, *lines)
            count += len(lines)
            wait_until(lambda: bool(text(browser, "count") == str(count)), SECONDS, f"{count} commands")
    return tool, site


@pytest.mark.timeout(240)
def test_the_page_in_a_browser(browser: Driver, followed: tuple[Tool, Site]) -> None:
    tool, site = followed
    look_at_script(browser, site)
    look_at_sizes(browser)
    browser.switch_to.active_element.send_keys(Keys.TAB)
    at = "[document.activeElement.hash, document.activeElement.getBoundingClientRect().top >= 0].join()"
    assert value(browser, at) == "#own,true", "the first Tab shows where to go"
    browser.execute_script("document.querySelector('details').open = true")
    wait_until(lambda: bool(value(browser, "document.getElementById('picture-image').naturalWidth > 100")), SECONDS, "the picture is shown")
    assert browser.get_log("browser") == []
    tool.stop()
    wait_until(lambda: bool(text(browser, "contact").startswith("The board isn't reached.")), SECONDS, "the board's end is told")


def look_at_script(browser: Driver, site: Site) -> None:
    """What the script has made of the page is the page as it is loaded now."""
    found, loaded = Page(value(browser, "document.documentElement.outerHTML")), site.page()
    written, wanted = ({name: text for name, text in page.texts().items() if name not in MOVING} for page in (found, loaded))
    assert written == wanted
    assert found.marks() == loaded.marks()
    texts = found.texts()
    by_hand = [texts["node-c-bid"], texts["node-c-bid-was"], found.marks()["node-c"], texts["said"]]
    assert by_hand == ["250 of w", "was 100 of w", "wins changed", "y: ticket 2, activity 10."]
    assert browser.title == "Round 3, open \N{EN DASH} Auction"


def look_at_sizes(browser: Driver) -> None:
    """Nothing is wider than the window, and a screen reader finds a table."""
    for width, height, scheme in SIZES:
        size = {"width": width, "height": height, "deviceScaleFactor": 1, "mobile": False}
        browser.execute_cdp_cmd("Emulation.setDeviceMetricsOverride", size)
        browser.execute_cdp_cmd("Emulation.setEmulatedMedia", {"features": [{"name": "prefers-color-scheme", "value": scheme}]})
        assert value(browser, "document.documentElement.scrollWidth <= innerWidth"), (width, scheme)
        nodes = browser.execute_cdp_cmd("Accessibility.getFullAXTree", {})["nodes"]
        roles = Counter(node["role"]["value"] for node in nodes if not node["ignored"])
        assert {role: roles[role] for role in TABLE} == TABLE
        if folder := os.environ.get("PICTURES"):
            browser.save_screenshot(f"{folder}/board-{width}-{scheme}.png")
