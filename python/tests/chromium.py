"""A Chromium without a window for the desk's page, driven by selenium (Debian's python3-selenium and chromium-driver)."""

import contextlib
import json
import shutil
from base64 import b64decode
from collections.abc import Callable, Iterator
from typing import Any

from selenium import webdriver
from selenium.webdriver.chrome.service import Service
from selenium.webdriver.common.action_chains import ActionChains
from selenium.webdriver.common.keys import Keys

from ixm.trials import wait_until

PATIENCE = 120.0  # seconds, because other work may be on the machine
WORDS = ("--headless=new", "--no-sandbox", "--disable-gpu", "--disable-dev-shm-usage", "--no-first-run", "--hide-scrollbars",
         "--host-resolver-rules=MAP * ~NOTFOUND, EXCLUDE 127.0.0.1", "--disable-background-networking")


def is_here() -> bool:
    return bool(shutil.which("chromedriver") and shutil.which("chromium"))


class Page:
    """The page that the browser shows. Elements are named by CSS selectors."""

    def __init__(self, driver: Any) -> None:
        self.driver = driver  # selenium's, which has few types

    def find(self, selector: str) -> Any:
        return self.driver.find_element("css selector", selector)

    def text(self, selector: str) -> str:
        """What a reader sees of an element."""
        return str(self.find(selector).text)

    def value(self, selector: str) -> str:
        return str(self.find(selector).get_property("value"))

    def run(self, script: str, *values: object) -> Any:
        return self.driver.execute_script(script, *values)

    def press(self, *keys: str, control: bool = False) -> None:
        """Presses these keys one after the other, wherever the keyboard is, and Control with them."""
        steps = ActionChains(self.driver)
        if control:
            steps.key_down(Keys.CONTROL)
        steps.send_keys(*keys)
        if control:
            steps.key_up(Keys.CONTROL)
        steps.perform()

    def wait(self, what: str, holds: Callable[[], object]) -> None:
        wait_until(holds, what, PATIENCE)

    def wait_text(self, selector: str, text: str) -> None:
        self.wait(f"{selector} says {text!r}", lambda: self.text(selector) == text)

    def requests(self) -> list[str]:
        """The addresses of all requests since this was asked before."""
        events = [json.loads(entry["message"])["message"] for entry in self.driver.get_log("performance")]
        sent = [event["params"] for event in events if event["method"] == "Network.requestWillBeSent"]
        return [one["request"]["url"] for one in sent]

    def picture(self) -> bytes:
        """A picture of the whole page, as PNG."""
        size = self.driver.execute_cdp_cmd("Page.getLayoutMetrics", {})["cssContentSize"]
        wanted = {"captureBeyondViewport": True, "clip": {**size, "scale": 1}}
        return b64decode(self.driver.execute_cdp_cmd("Page.captureScreenshot", wanted)["data"])


@contextlib.contextmanager
def opened(folder: str, width: int = 1280, height: int = 900) -> Iterator[Page]:
    """A browser that keeps what it has, and downloads, in this folder."""
    options = webdriver.ChromeOptions()
    options.binary_location = shutil.which("chromium")
    for word in (*WORDS, f"--user-data-dir={folder}/profile", f"--window-size={width},{height}"):
        options.add_argument(word)
    options.add_experimental_option("prefs", {"download.default_directory": folder})
    options.set_capability("goog:loggingPrefs", {"performance": "ALL", "browser": "ALL"})
    driver = webdriver.Chrome(service=Service(shutil.which("chromedriver")), options=options)
    try:
        yield Page(driver)
    finally:
        driver.quit()
