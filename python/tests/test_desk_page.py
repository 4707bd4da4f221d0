"""The page of `ixm-desk RULES..` (docs/desk.md) in a Chromium."""

import contextlib
import http.server
import json
import os
import subprocess
import sys
import tempfile
import threading
import unittest
from typing import Any

try:
    from selenium.webdriver.common.keys import Keys
except ImportError:
    raise unittest.SkipTest("selenium isn't here") from None

from ixm.desk import program
from tests import chromium
from tests.chromium import Page
from tests.test_desk import TOP
from tests.test_desk_server import CASES, DOORS, Case, request
from tests.test_lint import KEEPS


@unittest.skipUnless(chromium.is_here(), "chromium and chromedriver aren't here")
class TestPage(Case):
    page: Page
    downloads: str

    @classmethod
    def setUpClass(cls) -> None:
        stack = contextlib.ExitStack()
        cls.addClassCleanup(stack.close)
        cls.downloads = stack.enter_context(tempfile.TemporaryDirectory())
        cls.page = stack.enter_context(chromium.opened(cls.downloads))

    def tearDown(self) -> None:
        """The page breaks none of its own rules, and asks nobody else."""
        self.assertEqual([entry["message"] for entry in self.page.driver.get_log("browser")], self.told)
        own = ("blob:", "data:", self.address or "data:")
        self.assertEqual([one for one in self.page.requests() if not one.startswith(own)], [])

    def setUp(self) -> None:
        super().setUp()
        self.told, self.address = list[str](), ""
        self.page.driver.get("about:blank")
        self.page.requests()
        self.page.driver.get_log("browser")

    def opened(self, **texts: str) -> Page:
        """The page over rules with these names and texts, once it shows them."""
        desk = self.served(**texts)
        self.address = desk.address
        self.page.driver.get(desk.address)
        self.page.wait("an answer", lambda: self.page.text("#state") or self.page.text("#rules-fault"))
        return self.page

    def drawn(self, selector: str = "#drawn") -> list[str]:
        """The actions in a drawing, and the operators' words and signs."""
        script = "return [...document.querySelectorAll(arguments[0] + ' text')].map((one) => one.textContent)"
        return list(self.page.run(script, selector))

    def said(self, selector: str = "#actions") -> list[str]:
        script = "return [...document.querySelectorAll(arguments[0] + ' li')].map((one) => one.innerText)"
        return [" ".join(one.split()) for one in self.page.run(script, selector)]

    def test_a_fault_is_shown_at_its_place_until_it_is_mended(self) -> None:
        page = self.opened(rules=DOORS)
        page.find("#rules-text").send_keys("- look away")
        page.wait_text("#rules-fault", "2:8: this can't stand here")
        self.assertEqual(page.run("return document.querySelector('#rules-shown mark').textContent"), "away")
        self.assertEqual(page.run("return document.querySelector('#rules-text').ariaInvalid"), "true")
        self.assertEqual(self.drawn(), ["open", "close"])
        self.assertIn("The rules have a fault", page.text("#drawing"))
        page.find("#rules-fault button").click()
        page.press("- ")
        page.wait_text("#rules-fault", "")
        self.assertEqual(page.value("#rules-text"), DOORS + "- look - away")
        page.wait("the drawing", lambda: self.drawn() == ["open", "close", "look", "away"])
        self.assertNotIn("The rules have a fault", page.text("#drawing"))

    def test_a_place_is_shown_in_a_long_text(self) -> None:
        page = self.opened(rules="// one of many lines\n" * 200 + "a b")
        page.wait_text("#rules-fault", "201:3: this can't stand here")
        script = "const place = (one) => document.querySelector(one).getBoundingClientRect(); " \
                 "const [mark, box] = ['mark', '.editor'].map(place); " \
                 "return mark.top >= box.top && mark.bottom <= box.bottom && mark.bottom <= innerHeight"
        self.assertFalse(page.run(script))
        page.find("#rules-fault button").click()
        self.assertTrue(page.run(script))
        page.press(Keys.HOME, control=True)
        self.assertFalse(page.run(script))

    def test_a_fault_of_a_part_after_a_character_of_two_units(self) -> None:
        page = self.opened(rules="let v($p) = a($p);\n/* \U0001f6aa */ all $p v\n- b")
        page.wait_text("#rules-fault", "2:16: the part v has 1 parameter, and here it is given 0")
        self.assertEqual(page.run("return document.querySelector('#rules-shown mark').textContent"), "v")

    def test_a_history_is_clicked(self) -> None:
        page = self.opened(rules=DOORS, rules_cases=CASES)
        self.assertEqual(page.text("#state"), "complete")
        page.find("#action").send_keys("open" + Keys.ENTER)
        page.wait("open", lambda: self.said() == ["open permitted"])
        self.assertEqual(page.text("#state"), "partial")
        page.find("#used li:first-child button").click()
        page.wait("a refusal", lambda: self.said() == ["open permitted", "open refused"])
        page.find("#used li:nth-child(2) button").click()
        page.wait("close", lambda: self.said() == ["open permitted", "open refused", "close permitted"])
        self.assertEqual(page.text("#state"), "complete")
        page.find("#undo").click()
        page.wait_text("#state", "partial")
        self.assertEqual(self.said(), ["open permitted", "open refused"])
        page.find("#action").send_keys("no action" + Keys.ENTER)
        page.wait_text("#action-fault", "no action is no action")
        self.assertEqual((self.said(), page.value("#action")), (["open permitted", "open refused"], "no action"))
        page.find("#begin").click()
        page.wait_text("#state", "complete")
        page.find("#undo").click()
        page.wait_text("#state", "partial")

    def hospital(self, *commands: str) -> Page:
        """The page over the rules of the hospital, if the program has these commands."""
        self.needs(*commands)
        with open(f"{TOP}/examples/hospital/expression") as file:
            return self.opened(rules=file.read())

    def lit(self) -> list[list[str]]:
        """What stands in each part of the drawing that is lit."""
        script = "return [...document.querySelectorAll('#drawn rect[fill=\"#ffe9a8\"]')]" \
                 ".map((one) => [...one.parentNode.querySelectorAll('text')].map((text) => text.textContent))"
        return list(self.page.run(script))

    def wait_menu(self, *actions: str) -> None:
        self.page.wait(f"a menu of {actions}", lambda: self.said("#menu") == list(actions))

    def test_a_history_is_clicked_together(self) -> None:
        page, first = self.hospital("next"), ["call(anna,xray) permitted"]
        self.wait_menu("call($1,$1)", "call($1,$2)")
        page.find("#menu li:nth-child(2) button").click()
        page.press("anna", Keys.TAB, "xray", Keys.ENTER)
        page.wait("the first action", lambda: self.said() == first)
        self.wait_menu("call($1,$1)", "call($1,$2)", "perform(anna,xray)")
        self.assertEqual(page.text("#tried"), "and those of the history: p=anna x=xray")
        page.find("#menu li:nth-child(3) button").click()
        page.wait_text("#state", "complete")
        self.wait_menu("call(anna,xray)", "call(anna,$1)", "call($1,xray)", "call($1,$1)", "call($1,$2)")
        page.press("z", control=True)
        page.wait("undone", lambda: self.said() == first)
        page.press("y", control=True)
        page.wait("done again", lambda: self.said() == [*first, "perform(anna,xray) permitted"])
        page.find("#redo").click()
        page.wait_text("#action-fault", "There is nothing to do again.")
        page.find("#begin").click()
        page.wait_text("#tried", "")
        page.find("#given").send_keys("p=ben x=ct")
        self.wait_menu("call(ben,ct)", "call(ben,$1)", "call($1,ct)", "call($1,$1)", "call($1,$2)")
        page.find("#given").send_keys(" ,")
        page.wait_text("#given-fault", ", is no value such as anna, and none of a parameter such as p=anna")
        self.assertEqual(self.said("#menu"), [])

    def test_the_menu_by_keyboard(self) -> None:
        page = self.hospital("next")
        self.wait_menu("call($1,$1)", "call($1,$2)")
        page.find("#given").click()
        self.tab_to("call($1,$1)")
        page.press(Keys.ENTER)
        self.assertEqual(page.run("return document.activeElement.name"), "$1")
        page.press(Keys.ENTER)  # without a name
        page.press("a b", Keys.ENTER)
        self.assertTrue(page.find("#naming").is_displayed())
        page.press(Keys.ESCAPE)
        self.assertFalse(page.find("#naming").is_displayed())
        self.assertEqual((self.where(), self.said()), ("call($1,$1)", []))
        page.press(Keys.ENTER, "anna", Keys.ENTER)
        page.wait("the action", lambda: self.said() == ["call(anna,anna) permitted"])
        self.wait_menu("call($1,$1)", "call($1,$2)", "perform(anna,anna)")
        self.assertEqual(self.where(), "call($1,$1)")
        self.tab_to("perform(anna,anna)")
        page.press(" ")
        page.wait_text("#state", "complete")

    def test_what_refuses_is_told_and_lit(self) -> None:
        page = self.hospital("why")
        page.wait_text("#refusal", "A refused action is explained here")
        self.assertEqual(self.lit(), [])
        page.find("#action").send_keys("call(anna,xray)" + Keys.ENTER)
        page.wait("no refusal", lambda: self.said() == ["call(anna,xray) permitted"])
        for action, place, bound, word in (("call(ben,xray)", "3:8", "$x being xray", "any $p"),
                                           ("call(anna,ct)", "1:8", "$p being anna", "any $x")):
            page.find("#action").send_keys(action + Keys.ENTER)
            page.wait(action, lambda: self.said("#parts") == [f"{place}: this refuses {action}, {bound}"])
            page.wait("the light", lambda: self.lit() == [["A", word, "call($p,$x)", "perform($p,$x)"]])
        page.find("#actions li:nth-child(2) button").click()
        page.wait_text("#refusal", "call(ben,xray) is refused")
        page.wait("the light", lambda: [one[1] for one in self.lit()] == ["any $p"])
        self.assertEqual(page.run("return document.activeElement.ariaPressed"), "true")
        page.find("#parts button").click()
        script = "return document.querySelector('#rules-text').selectionStart"
        self.assertEqual(page.run(script), page.value("#rules-text").rindex("*"))
        page.find("#undo").click()
        page.wait("the last action", lambda: page.text("#refusal") == "call(ben,xray) is refused")
        page.find("#undo").click()
        page.wait("no light", lambda: self.lit() == [] and page.text("#refusal") == "A refused action is explained here")

    def test_a_history_that_is_stuck_is_played(self) -> None:
        self.needs("stuck")
        page = self.opened(rules="?(a - b) & ?(a - c)")
        page.find("#moves").send_keys("u" + Keys.ENTER)
        page.wait("the actions that never come", lambda: self.said("#gone") == [
            f"1:{column}: {action} never comes again" for column, action in ((3, "a"), (7, "b"), (14, "a"), (18, "c"))])
        page.find("#play").click()
        page.wait("the history", lambda: self.said() == ["a permitted"])
        page.find("#rules-text").send_keys(" ")
        page.wait_text("#searched", "")
        self.assertFalse(page.find("#play").is_displayed())

    def test_a_search_says_how_far_it_came(self) -> None:
        self.needs("stuck")
        self.play("stuck", "")
        self.write("words", "")
        os.unlink(f"{self.folder}/said")
        os.mkfifo(f"{self.folder}/said")  # so each answer waits for the one below
        page = self.opened(rules="*(a - b)")
        page.find("#moves").send_keys("u" + Keys.ENTER)
        never = "No history of these values is stuck: each can be completed. States: 20000."
        for states, sentence, lines in ((1000, "Searching ..", "more than 1000 states\n"),
                                        (10000, "More than 1000 states. Searching ..", "more than 10000 states\n"),
                                        (100000, "More than 10000 states. Searching ..", "never stuck 20000\n")):
            page.wait_text("#searched", sentence)
            page.wait("the question", lambda: f"--states={states}\n" in self.kept("words"))
            self.write("said", lines)
        page.wait_text("#searched", never)

    def test_what_the_program_has_not_is_hidden(self) -> None:
        self.play("", "Usage: ixm COMMAND WORDS\n\nCommands:\n  trace EXPR ACTIONS\n", 2)
        page = self.opened(rules=DOORS)
        page.find("#action").send_keys("close" + Keys.ENTER)
        page.wait("a refusal", lambda: self.said() == ["close refused"])
        shown = [one.is_displayed() for one in page.driver.find_elements("css selector", "section")]
        self.assertEqual((len(shown), sum(shown)), (8, 5))
        self.assertEqual(page.driver.find_elements("css selector", "#actions button"), [])

    def test_a_history_is_asked_again_when_the_rules_change(self) -> None:
        page = self.opened(rules="open - close")
        page.find("#action").send_keys("open" + Keys.ENTER)
        page.find("#action").send_keys("open" + Keys.ENTER)
        page.wait("a refusal", lambda: self.said() == ["open permitted", "open refused"])
        page.find("#rules-text").send_keys(" | open - open")
        page.wait("the second open", lambda: self.said() == ["open permitted", "open permitted"])

    def test_the_suite_is_run_on_every_change(self) -> None:
        page = self.opened(rules=DOORS, rules_cases=CASES)
        page.wait_text("#counts", "cases 2, right 2, wrong 0")
        page.find("#rules-text").send_keys("| *open")
        page.wait_text("#counts", "cases 2, right 1, wrong 1")
        sentence = "4:1: refused twice: open in line 6 came as yes, and not as no"
        self.assertEqual(self.said("#wrong"), [sentence])
        page.find("#wrong button").click()
        script = "return document.querySelector('#cases-text').selectionStart"
        self.assertEqual(page.run(script), CASES.index("refused"))
        page.find("#cases-text").send_keys("look\n")
        page.wait_text("#cases-fault", "4:1: a case begins with pass, complete or refused, and its name")
        self.assertEqual(self.said("#wrong"), [])

    def test_a_history_becomes_a_case(self) -> None:
        page = self.opened(rules=DOORS)
        self.assertEqual(page.text("#counts"), "no cases")
        for action in ("open", "open"):
            page.find("#action").send_keys(action + Keys.ENTER)
        page.wait("a refusal", lambda: self.said() == ["open permitted", "open refused"])
        refused, passed = "refused one\n    open\n    open\n", "\npass two\n    open\n"
        for number, name, text in ((3, "one", refused), (1, "two", passed)):
            page.find(f"#kind option:nth-child({number})").click()
            page.find("#name").send_keys(name + Keys.ENTER)
            page.wait(name, lambda: page.value("#cases-text").endswith(text))
        page.wait_text("#counts", "cases 2, right 2, wrong 0")

    def test_the_drawing_tells_what_has_no_bound(self) -> None:
        with open(f"{TOP}/examples/hospital/expression") as file:
            page = self.opened(rules=file.read())
        page.wait_text("#bound", "at most 20605 nodes")
        page.find("#values").send_keys(Keys.BACKSPACE + Keys.BACKSPACE + "353")
        page.wait_text("#bound", "above 1000000")
        page.find("#rules-text").send_keys("@ (a -\n  times 3 b)")
        page.wait_text("#bound", "without a bound (54)")
        sentence = "many of these may have begun, and each of them may be the one that goes on"
        self.assertEqual(self.said("#refused"), [f"5:3: {sentence}"])
        script = "const titled = [...document.querySelectorAll('#drawn g title')]; " \
                 "return titled.filter((one) => one.textContent === arguments[0])" \
                 ".map((one) => [...one.parentNode.querySelectorAll('text')].map((text) => text.textContent))"
        self.assertEqual(page.run(script, sentence), [["!", "times 3", "b"]])

    def test_what_looks_wrong_is_told_as_advice(self) -> None:
        page = self.opened(rules=DOORS)
        page.wait_text("#looks", "Nothing looks wrong")
        self.assertNotIn("advice", page.text("#lint"))
        page.find("#rules-text").send_keys("@ (look -\n all $p ?sign($p))\n@ *(b & *(b - a))")
        page.wait_text("#looks", "2 things look wrong")
        apart = "only one side of this & knows a (number of values: 0), so it never comes here: is @ meant?"
        self.assertEqual(self.said("#found"), [f"3:2: {KEEPS}", f"4:7: {apart}"])
        self.assertIn("This is advice and no fault", page.text("#lint"))
        self.assertEqual(page.text("#rules-fault"), "")
        page.find("#found li:first-child button").click()
        self.assertEqual(page.run("return document.querySelector('#rules-shown mark').textContent"), "all")
        self.assertEqual(page.run("return document.activeElement.id"), "rules-text")
        page.press("*")
        page.wait_text("#looks", "1 thing looks wrong")
        self.assertEqual(page.value("#rules-text"), DOORS + "@ (look -\n *all $p ?sign($p))\n@ *(b & *(b - a))")
        page.press(Keys.HOME, control=True)
        page.press("-")
        page.wait_text("#rules-fault", "1:1: this can't stand here")
        self.assertIn("The rules have a fault. This is what looked wrong before it.", page.text("#lint"))
        self.assertEqual(self.said("#found"), [f"4:7: {apart}"])

    def test_what_looks_wrong_and_what_is_refused_differ_in_the_drawing(self) -> None:
        page = self.opened(rules="all $p ?sign($p) @ (a - times 3 b)")
        script = "return [...document.querySelectorAll('#drawn rect')].map((one) => getComputedStyle(one))" \
                 ".filter((style) => style.strokeDasharray !== 'none')" \
                 ".map((style) => style.strokeDasharray.replace(/px|,/g, ''))"
        page.wait("the frames", lambda: page.run(script) == ["0 8", "7 4"])
        self.assertEqual(self.drawn(), ["1", "all $p", "sign($p)", "a", "!", "times 3", "b", "@", "@"])

    def test_the_same_rules_simplified(self) -> None:
        page = self.opened(rules="?*a - b")
        page.wait("simpler rules", lambda: page.run("return !document.querySelector('#simple').hidden"))
        page.find("#simple summary").click()
        page.wait_text("#simple-text", "*a - b")
        self.assertEqual(self.drawn("#simple-drawn"), ["a", "b"])
        page.find("#rules-text").send_keys(Keys.HOME + Keys.DELETE)
        page.wait("nothing simpler", lambda: page.run("return document.querySelector('#simple').hidden"))
        self.assertEqual(page.value("#rules-text"), "*a - b")

    def test_saves_and_leaves_a_file_that_changed(self) -> None:
        page = self.opened(rules=DOORS)
        page.find("#rules-text").send_keys("// one\n")
        self.assertEqual(page.text("#unsaved"), "not saved")
        page.find("#save").click()
        page.wait_text("#said", "Saved.")
        self.assertEqual((page.text("#unsaved"), self.kept("rules")), ("", DOORS + "// one\n"))
        page.find("#cases-text").send_keys(CASES)
        page.press("s", control=True)
        page.wait("the suite", lambda: os.path.exists(f"{self.folder}/rules.cases"))
        page.wait_text("#unsaved", "")
        self.assertEqual(self.kept("rules.cases"), CASES)
        self.write("rules", "another's")
        page.find("#rules-text").send_keys("// two\n")
        page.press("s", control=True)
        sentence = "The file of the rules has changed since it was read. It was left as it is. Export your text."
        page.wait_text("#said", sentence)
        self.assertEqual((self.kept("rules"), page.text("#unsaved")), ("another's", "not saved"))
        page.find("#again").click()
        page.driver.switch_to.alert.dismiss()
        self.assertEqual(page.value("#rules-text"), DOORS + "// one\n// two\n")
        page.find("#again").click()
        page.driver.switch_to.alert.accept()
        page.wait("the file's text", lambda: page.value("#rules-text") == "another's")

    def test_exports(self) -> None:
        page = self.opened(doors="let door = open - close; // one\n*door", doors_cases=CASES)
        for name, file, wanted in (("rules", "doors", "let door = open - close; // one\n*door"),
                                   ("cases", "doors.cases", CASES), ("drawing", "doors.svg", self.drawing("doors")),
                                   ("expression", "doors.expression", "*(open - close)")):
            script = "return document.getElementById(arguments[0] + '-export').download"
            page.wait(name, lambda: page.run(script, name) == file)
            page.find(f"#{name}-export").click()
            # The browser may make the file before it has its text, and adds an ending to a name that has none.
            page.wait(file, lambda: wanted in self.downloaded(file))

    def downloaded(self, file: str) -> list[str]:
        """The texts of the downloads of this name."""
        found = []
        for name in {file, f"{file}.txt"} & set(os.listdir(self.downloads)):
            with open(f"{self.downloads}/{name}") as opened:
                found.append(opened.read())
        return found

    def drawing(self, name: str) -> str:
        words = [sys.executable, "-m", "ixm.desk", "draw", f"{self.folder}/{name}"]
        return subprocess.run(words, cwd=f"{TOP}/python", stdout=subprocess.PIPE, text=True, check=True).stdout

    def test_two_files(self) -> None:
        page = self.opened(doors=DOORS, others="a - b")
        page.find("#action").send_keys("open" + Keys.ENTER)
        page.wait("open", lambda: self.said() == ["open permitted"])
        page.find("#rules-text").send_keys("// more")
        page.find("#house option:nth-child(2)").click()
        page.wait("the other rules", lambda: self.drawn() == ["a", "b"])
        self.assertEqual((page.value("#rules-text"), self.said(), page.text("#unsaved")), ("a - b", [], ""))
        page.find("#house option:nth-child(1)").click()
        page.wait("the first history", lambda: self.said() == ["open permitted"])
        self.assertEqual((page.value("#rules-text"), page.text("#unsaved")), (DOORS + "// more", "not saved"))

    def where(self) -> str:
        """Where the keyboard is."""
        return str(self.page.run("return document.activeElement.id || document.activeElement.textContent"))

    def tab_to(self, name: str) -> None:
        for _ in range(40):
            if self.where() == name:
                return
            self.page.press(Keys.TAB)
        self.fail(f"the keyboard doesn't come to {name}")

    def test_the_keyboard_alone(self) -> None:
        page, tab_to = self.opened(rules="open -", rules_cases=CASES), self.tab_to
        tab_to("rules-text")
        page.press(Keys.END, control=True)
        page.press(" close")
        page.wait_text("#rules-fault", "")
        tab_to("action")
        page.press("open" + Keys.ENTER)
        page.wait("open", lambda: self.said() == ["open permitted"])
        page.wait("the cases' actions", lambda: self.said("#used") == ["open", "close"])
        tab_to("close")
        page.press(" ")
        page.wait("close", lambda: self.said() == ["open permitted", "close permitted"])
        page.press(" ")
        page.wait("a refusal", lambda: len(self.said()) == 3 and self.said()[2] == "close refused")
        tab_to("undo")
        page.press(Keys.ENTER)
        page.wait("undone", lambda: len(self.said()) == 2)
        page.press("s", control=True)
        page.wait_text("#said", "Saved.")
        self.assertEqual(self.kept("rules"), "open - close")

    def test_twice_as_large_nothing_is_beside_the_page(self) -> None:
        page = self.opened(rules="all $p *(open($p) - close($p))", rules_cases=CASES)
        if "next" in program.commands():
            self.wait_menu("open($1)")
            page.find("#menu button").click()
        size = {"width": 640, "height": 450, "deviceScaleFactor": 2, "mobile": False}
        page.driver.execute_cdp_cmd("Emulation.setDeviceMetricsOverride", size)
        try:
            script = "const all = [...document.querySelectorAll('button, a, input, textarea, h2, label')]; " \
                     "return [innerWidth, document.documentElement.scrollWidth, " \
                     "...all.map((one) => one.getBoundingClientRect().right)]"
            inner, *others = page.run(script)
            self.assertEqual(inner, 640)
            self.assertLessEqual(max(others), 640)
        finally:
            page.driver.execute_cdp_cmd("Emulation.clearDeviceMetricsOverride", {})

    def test_the_page_can_ask_nobody_else(self) -> None:
        page = self.opened(rules=DOORS)
        with other_server("") as (address, came):
            fetched = "return fetch(arguments[0]).then(() => 'came', (error) => error.name)"
            shown = "const image = new Image(); image.src = arguments[0]; document.body.append(image); " \
                    "return new Promise((end) => { image.onload = image.onerror = (event) => end(event.type) })"
            self.assertEqual(page.run(fetched, address), "TypeError")
            self.assertEqual(page.run(shown, f"{address}image"), "error")
            self.assertEqual(came, [])
        self.told = [entry["message"] for entry in page.driver.get_log("browser")]
        self.assertTrue(self.told and all("Content Security Policy" in one for one in self.told), self.told)
        self.told = []
        page.requests()

    def test_another_page_can_not_ask_it(self) -> None:
        desk = self.served(rules=DOORS)
        read = {"house": 0, "kind": "rules"}
        body = json.dumps({**read, "text": "other", "stamp": request(desk, "read", read)[1]["stamp"]})
        with other_server("<title>other</title>") as (address, _):
            self.page.driver.get(address)
            script = "return fetch(arguments[0], arguments[1]).then((reply) => reply.type, (error) => error.name)"
            plain = {"method": "POST", "body": body}
            typed: dict[str, object] = {**plain, "headers": {"Content-Type": "application/json"}}
            for options in ({**plain, "mode": "no-cors"}, typed):
                self.assertEqual(self.page.run(script, f"{desk.address}save", options), "TypeError")
            self.assertEqual(self.page.run(script, f"{desk.address}read", {"mode": "no-cors"}), "TypeError")
            script = "const frame = document.createElement('iframe'); frame.src = arguments[0]; " \
                     "document.body.append(frame); return new Promise((end) => { frame.onload = end })" \
                     ".then(() => frame.contentDocument === null)"
            self.assertTrue(self.page.run(script, desk.address))
        self.assertEqual(self.kept("rules"), DOORS)
        self.page.requests()
        self.page.driver.get_log("browser")


@contextlib.contextmanager
def other_server(text: str) -> Any:
    """Another server of this machine: its address, and the paths that it was asked for."""
    came = list[str]()

    class Handler(http.server.BaseHTTPRequestHandler):
        def do_GET(self) -> None:
            came.append(self.path)
            self.send_response(200)
            self.send_header("Content-Type", "text/html")
            self.end_headers()
            self.wfile.write(text.encode())

        def log_message(self, format: str, *values: object) -> None:
            pass

    with http.server.ThreadingHTTPServer(("127.0.0.1", 0), Handler) as server:
        threading.Thread(target=server.serve_forever, daemon=True).start()
        yield f"http://127.0.0.1:{server.server_address[1]}/", came
        server.shutdown()


if __name__ == "__main__":
    unittest.main()
