"""The live view in a real browser, and what its pages tell without one."""

from __future__ import annotations

import json
import os
import socket
import tempfile
from collections.abc import Callable
from typing import Any

from selenium import webdriver
from selenium.common.exceptions import StaleElementReferenceException
from selenium.webdriver.chrome.service import Service
from selenium.webdriver.common.by import By
from selenium.webdriver.common.keys import Keys

from .support import Front, Place, page, wait_until

HOSTILE = "<img/src=x/onerror=document.title='hit'>"
WORDS = ("--headless=new", "--no-sandbox", "--disable-gpu", "--disable-dev-shm-usage", "--no-first-run",
         "--host-resolver-rules=MAP * ~NOTFOUND, EXCLUDE 127.0.0.1", "--window-size=1280,900")


def free_port() -> int:
    """A port at which nobody listens."""
    with socket.socket() as sock:
        sock.bind(("127.0.0.1", 0))
        port: int = sock.getsockname()[1]
        return port


def head_and_text(folder: str, name: str, host: str = "front") -> tuple[str, str]:
    """A page of the socket for a reader who names this host."""
    with socket.socket(socket.AF_UNIX) as sock:
        sock.settimeout(60)
        sock.connect(f"{folder}/page")
        sock.sendall(f"GET {name} HTTP/1.1\r\nHost: {host}\r\n\r\n".encode())
        head, _, text = sock.makefile().read().partition("\n\n")
        return head, text


class Told(Place):
    """What the pages tell."""

    def now(self, name: str) -> Any:
        """What `/now` tells under a name."""
        return json.loads(head_and_text(self.folder, "/now")[1])[name]

    def test_actions_are_named_only_where_it_is_wanted(self) -> None:
        manager = self.manager()
        with self.client(manager.path) as past:
            past.request(f"confirm {past.ticket('do(old)')}")
        front = self.paged(manager.path)
        client, other = self.client(front.path), self.client(front.path)
        client.request(f"confirm {client.ticket('do(secret)')}")
        client.ticket("do(secret)")
        other.send("ask do(secret) 1000")
        wait_until(lambda: bool(self.now("waiting")["first"]), "an ask waits")
        text = head_and_text(self.folder, "/now")[1]
        self.assertNotIn("secret", text)
        user = f"uid {os.getuid()}"
        found = json.loads(text)
        self.assertEqual([found["reservation"]["by"], found["waiting"]["first"][0]["by"]], [user, user])
        self.assertEqual([(done["number"], done["by"]) for done in found["last"]], [(2, user), (1, None)])
        self.assertEqual(found["counts"]["history"], [2, 1000000])
        self.assertLess(abs(found["moment"] + 60 - found["reservation"]["ends"]), 30)

    def test_actions_past_the_front_are_asked_for(self) -> None:
        manager = self.manager()
        with self.client(manager.path) as past:
            for place in range(12):
                past.request(f"confirm {past.ticket(f'do(a{place})')}")
        front = self.paged(manager.path, "--page-actions", "--every", "0.1")
        wait_until(lambda: [done["action"] for done in self.now("last")] == [
            f"do(a{place})" for place in range(11, 1, -1)], "the last ten are named")
        with self.client(front.path) as client:
            client.request(f"confirm {client.ticket('do(b)')}")
        first = self.now("last")[0]
        self.assertEqual((first["number"], first["action"], first["by"]), (13, "do(b)", f"uid {os.getuid()}"))

    def test_a_reservation_past_the_front_is_nobody_s(self) -> None:
        """The front knows it only by the 20 of an ask that waits for its end."""
        manager = self.manager()
        with self.client(manager.path) as past:
            ticket = past.ticket("do(old)")
        front = self.paged(manager.path, "--page-actions")
        client, other = self.client(front.path), self.client(front.path)
        self.assertIsNone(self.now("reservation"))
        client.send("ask do(a) 60000")
        wait_until(lambda: self.now("reservation") is not None, "it is met")
        found = self.now("reservation")
        self.assertEqual((found["by"], found["action"]), (None, None))
        moment = self.now("moment")
        self.assertLess(abs(found["since"] - moment), 30)
        self.assertLess(abs(found["ends"] - moment - 60), 30)
        other.request(f"confirm {ticket}")
        self.assertTrue(str(client.reply()).startswith("granted "))
        found = self.now("reservation")
        self.assertEqual((found["by"], found["action"]), (f"uid {os.getuid()}", "do(a)"))

    def test_heads(self) -> None:
        self.paged(self.manager().path)
        for host in ("", "front", "localhost:9464", "127.0.0.1:9464", "[::1]:9464"):
            self.assertIn(" 200 OK", head_and_text(self.folder, "/", host)[0])
        for name in ("/", "/now"):
            self.assertIn(" 421 ", head_and_text(self.folder, name, "rebound.example:9464")[0])
        head, text = head_and_text(self.folder, "/")
        for line in ("Content-Type: text/html; charset=utf-8", f"Content-Length: {len(text)}",
                     "X-Content-Type-Options: nosniff", "Referrer-Policy: no-referrer", "Cache-Control: no-store"):
            self.assertIn(line, head.split("\n"))
        policy = next(line for line in head.split("\n") if line.startswith("Content-Security-Policy: "))
        self.assertIn("default-src 'none'; script-src 'sha256-", policy)
        self.assertNotIn("unsafe", policy)
        self.assertNotIn("://", text)
        self.assertIn("Content-Type: application/json", head_and_text(self.folder, "/now")[0])
        self.assertEqual(page(self.folder, "/", "HEAD").partition("\n\n")[2], "")


class Seen(Place):
    """What a browser shows."""

    browser: Any  # since selenium has few types

    @classmethod
    def setUpClass(cls) -> None:
        profile = tempfile.TemporaryDirectory(prefix="front-view-")
        cls.addClassCleanup(profile.cleanup)
        options: Any = webdriver.ChromeOptions()
        options.binary_location = "/usr/bin/chromium"
        for word in (*WORDS, f"--user-data-dir={profile.name}"):
            options.add_argument(word)
        options.set_capability("goog:loggingPrefs", {"browser": "ALL"})
        cls.browser = webdriver.Chrome(service=Service("/usr/bin/chromedriver"), options=options)
        cls.addClassCleanup(cls.browser.quit)

    def opened(self, manager: str, *words: str) -> Front:
        """A front whose view the browser has open."""
        place = f"127.0.0.1:{free_port()}"
        front = self.front(manager, "--page", place, "--every", "0.2", *words)
        self.browser.get(f"http://{place}/")
        self.browser.execute_script("window.isTheSame = true")
        return front

    def text(self, name: str) -> str:
        """The text of an element, as it is seen."""
        return str(self.browser.find_element(By.ID, name).text)

    def shows(self, name: str, holds: Callable[[str], bool]) -> None:
        """Waits until an element's text is such, and that without another load of the page."""
        def is_so() -> bool:
            try:
                return holds(self.text(name))
            except StaleElementReferenceException:
                return False
        wait_until(is_so, f"{name}, which is {self.text(name)!r}")
        self.assertTrue(self.browser.execute_script("return window.isTheSame === true"))

    def test_what_happens_is_seen(self) -> None:
        manager = self.manager()
        # An ask of no action is answered when it is sent to the manager again, so that is put off here.
        front = self.opened(manager.path, "--page-actions", "--again", "60000")
        self.shows("health", lambda text: text == "The manager answers.")
        self.shows("no-reservation", lambda text: text == "Nothing is reserved.")
        self.shows("history", lambda text: text.startswith("Actions in the journal 0 1,000,000 0.0 %"))
        holder, waiter = self.client(front.path), self.client(front.path)
        ticket = holder.ticket("do(a)")
        self.shows("reservation", lambda text: text.startswith(f"uid {os.getuid()} ") and text.endswith(" do(a)"))
        self.assertEqual(self.text("no-reservation"), "")
        waiter.send(f"ask {HOSTILE} 60000")
        self.shows("waiting", lambda text: text == "1")
        # A name is text, whatever it looks like.
        self.shows("asks", lambda text: text.endswith(HOSTILE))
        self.assertEqual(self.browser.find_elements(By.CSS_SELECTOR, "img"), [])
        holder.request(f"confirm {ticket}")
        self.assertEqual(waiter.reply(), "refused 12 action")
        self.shows("no-reservation", lambda text: text == "Nothing is reserved.")
        self.shows("no-asks", lambda text: text == "Nobody waits.")
        self.shows("last", lambda text: text.startswith("1 ") and text.endswith(f" uid {os.getuid()} do(a)"))
        self.shows("history", lambda text: text.startswith("Actions in the journal 1 "))
        self.assertEqual(self.browser.title, "A running house")
        manager.kill()
        self.shows("health", lambda text: text == "The manager isn't there or reads another.")
        front.stop()
        self.shows("health", lambda text: text.startswith("The front hasn't answered since "))

    def test_no_names_and_no_request_elsewhere(self) -> None:
        front = self.opened(self.manager().path)
        client = self.client(front.path)
        client.ticket("do(secret)")
        self.shows("reservation", lambda text: text.startswith(f"uid {os.getuid()} "))
        self.assertNotIn("secret", self.browser.page_source)
        asked = self.browser.execute_script("return performance.getEntriesByType('resource').map(each => each.name)")
        self.assertEqual(set(asked), {f"{self.browser.current_url}now"})
        here = self.browser.current_url
        self.assertEqual([said for said in self.browser.get_log("browser") if here in said["message"]], [])

    def test_by_keyboard_by_ear_and_large(self) -> None:
        front = self.opened(self.manager().path)
        self.shows("health", lambda text: text == "The manager answers.")
        # One part is read aloud of itself, and only where whether the manager answers has changed.
        loud = self.browser.find_elements(By.CSS_SELECTOR, "[role=status], [aria-live]")
        self.assertEqual([each.get_attribute("id") for each in loud], ["health"])
        self.browser.execute_script(
            "window.changes = 0; new MutationObserver(() => { changes += 1; }).observe("
            "document.getElementById('health'), { childList: true, characterData: true, subtree: true });")
        moment = self.text("moment")
        self.shows("moment", lambda text: text != moment)
        self.assertEqual(self.browser.execute_script("return window.changes"), 0)
        for table in self.browser.find_elements(By.TAG_NAME, "table"):
            self.assertTrue(table.get_attribute("aria-labelledby"))
            self.assertTrue(table.find_elements(By.CSS_SELECTOR, "thead th[scope=col]"))
        pause = self.browser.find_element(By.ID, "pause")
        self.browser.find_element(By.TAG_NAME, "body").send_keys(Keys.TAB)
        self.assertEqual(self.browser.switch_to.active_element, pause)
        pause.send_keys(Keys.SPACE)
        self.assertEqual(pause.get_attribute("aria-pressed"), "true")
        with self.client(front.path) as client:
            client.ticket("do(a)")
        self.assertEqual(self.text("reservation"), "")
        pause.send_keys(Keys.ENTER)
        self.shows("reservation", lambda text: text.startswith("uid "))
        # 1280 pixels at 200 percent are 640. Nothing has to be moved sideways to be read.
        self.browser.set_window_size(640, 900)
        self.addCleanup(self.browser.set_window_size, 1280, 900)
        width = self.browser.execute_script(
            "const root = document.documentElement; return [root.scrollWidth, root.clientWidth];")
        self.assertLessEqual(width[0], width[1])
