"""The server of the page of `ixm-desk RULES..` (docs/desk.md), as any program may ask it."""

import contextlib
import http.client
import json
import os
import re
import signal
import subprocess
import sys
import tempfile
import threading
import unittest
from typing import Any
from unittest import mock
from xml.etree import ElementTree

from ixm.desk import main, program
from ixm.desk.drawing import TITLES
from ixm.desk.server import Desk
from ixm.trials import built
from tests.test_desk import SVG
from tests.test_lint import FINDINGS, KEEPS

TOP = os.path.join(os.path.dirname(os.path.abspath(__file__)), "..", "..")
DOORS = "*(open - close)\n"
CASES = "complete a door\n    open\n    close\nrefused twice\n    open\n    open\n"
# Rules, the code of the first node that `bound` refuses in them, and the line and the column of the sign or the word of each.
UNBOUNDED = [
    ("a - b - a", 51, [(1, 7)]),
    ("a - a - b", 51, [(1, 3)]),
    ("any $p ?(a | (b | *(#d)))", 52, [(1, 19), (1, 21)]),
    ("c |\nall $p (call($p,x) | call(x,$p))", 53, [(2, 1)]),
    ("let v = b - #c; // a part\na | v", 54, [(1, 13)]),
    ("let v = b - #c; // a part\n(a - a) | v + v", 51, [(2, 4), (2, 13), (1, 13), (1, 13)]),
]
# What tells the frames of each kind.
FRAMES = {"found": {"stroke-dasharray": "0 8"}, "refused": {"stroke-dasharray": "7 4"}, "refusing": {"fill": "#ffe9a8"}}
Headers = dict[str, str | None]  # with None for one that isn't sent


class Case(unittest.TestCase):
    """A test with a folder, and with the program in place."""

    def setUp(self) -> None:
        self.stack = contextlib.ExitStack()
        self.addCleanup(self.stack.close)
        self.folder = self.stack.enter_context(tempfile.TemporaryDirectory())
        self.program = built()
        self.stack.enter_context(mock.patch.dict(os.environ, IXM=self.program))

    def served(self, **texts: str) -> Desk:
        """A desk over the rules of these names. One that ends in _cases is a suite."""
        for name, text in texts.items():
            self.write(name.replace("_", "."), text)
        rules = [f"{self.folder}/{name}" for name in texts if not name.endswith("_cases")]
        desk = self.stack.enter_context(Desk(rules))
        threading.Thread(target=desk.serve_forever, args=(0.02,), daemon=True).start()
        self.stack.callback(desk.shutdown)
        return desk

    def write(self, name: str, text: str) -> None:
        with open(f"{self.folder}/{name}", "w", encoding="utf-8", newline="") as file:
            file.write(text)

    def needs(self, *commands: str) -> None:
        """Skips the test if the program has not all of these commands."""
        missing = [command for command in commands if command not in program.commands()]
        if missing:
            self.skipTest(f"the program has no command {' and no '.join(missing)}")

    def play(self, command: str, lines: str, status: int = 0) -> None:
        """Has the program say these lines to a command, or to no words, and end with a status. The file `words` has its
        words then, and `text` what stands in the second. The other commands it answers itself."""
        self.write("said", lines)
        script = f'cd {self.folder}\nprintf "%s\\n" "$@" >words\n[ ! -f "$3" ] || cp "$3" text\ncat said\nexit {status}'
        self.write("played", f'#!/bin/sh\nif [ "$1" = "{command}" ]; then\n{script}\nfi\nexec "{self.program}" "$@"\n')
        os.chmod(f"{self.folder}/played", 0o755)
        self.stack.enter_context(mock.patch.dict(os.environ, IXM=f"{self.folder}/played"))

    def kept(self, name: str) -> str:
        with open(f"{self.folder}/{name}", encoding="utf-8", newline="") as file:
            return file.read()


def takes_interrupts() -> None:
    """Has a process end by an interrupt also where these tests run in the background, where a shell has it ignored."""
    signal.signal(signal.SIGINT, signal.SIG_DFL)


def request(desk: Desk, name: str, body: Any = None, headers: Headers | None = None) -> tuple[int, Any]:
    """The status of a request and its answer. It is one of the page, except for these headers."""
    connection = http.client.HTTPConnection("127.0.0.1", desk.server_address[1], timeout=30)
    sent: Headers = {"Host": desk.host}
    data = None
    if body is not None:
        data = body if isinstance(body, bytes) else json.dumps(body).encode()
        sent |= {"Origin": f"http://{desk.host}", "Content-Type": "application/json"}
    sent |= headers or {}
    path = name if name.startswith("/") else f"/{desk.secret}/{name}"
    with contextlib.closing(connection):
        whole = {key: value for key, value in sent.items() if value}
        connection.request("GET" if data is None else "POST", path, data, whole)
        reply = connection.getresponse()
        text = reply.read()
        return reply.status, json.loads(text) if reply.headers["Content-Type"] == "application/json" else text


def asked(rules: str, **others: object) -> dict[str, object]:
    """A question about these rules, and else about nothing but these."""
    return {"rules": rules, "cases": "", "actions": [], "explained": 0, "values": 3, "given": [], "states": 9, **others}


def framed(svg: str, kind: str) -> list[tuple[str, str]]:
    """The signs of the frames of this kind in a drawing, and the titles of what is inside each."""
    groups = [group for group in ElementTree.fromstring(svg).iter(f"{SVG}g")
              if any(FRAMES[kind].items() <= box.attrib.items() for box in group.findall(f"{SVG}rect"))]
    return [(group.findtext(f"{SVG}text", ""), group.findtext(f"{SVG}g/{SVG}title", "")) for group in groups]


class TestServer(Case):
    def test_what_is_no_request_of_the_page_is_refused(self) -> None:
        desk = self.served(rules=DOORS)
        port = desk.host.partition(":")[2]
        read = {"house": 0, "kind": "rules"}
        save = {**read, "text": "other", "stamp": request(desk, "read", read)[1]["stamp"]}
        refused = (403, {"error": "this is no request of the desk's page"})
        for name, value in (("Host", f"localhost:{port}"), ("Host", f"elsewhere.example:{port}"), ("Host", "127.0.0.1"),
                            ("Origin", "http://elsewhere.example"), ("Origin", "http://127.0.0.1:1"),
                            ("Origin", "null"), ("Origin", None), ("Sec-Fetch-Site", "cross-site"),
                            ("Sec-Fetch-Site", "same-site")):
            with self.subTest(name, value=value):
                self.assertEqual(request(desk, "read", read, {name: value}), refused)
                self.assertEqual(request(desk, "save", save, {name: value}), refused)
                if value:
                    self.assertEqual(request(desk, "", None, {name: value}), refused)
        self.assertEqual(self.kept("rules"), DOORS)
        self.assertEqual(request(desk, "")[0], 200)

    def test_without_the_secret_nothing_is_told(self) -> None:
        desk, other = self.served(rules=DOORS), "0" * 32
        refused = (403, {"error": "this isn't the address that ixm-desk printed"})
        for path in ("/", "/desk.js", f"/{other}/", f"/{other}/desk.js", "//"):
            self.assertEqual(request(desk, path), refused)
        self.assertEqual(request(desk, f"/{other}/read", {"house": 0, "kind": "rules"}), refused)

    def test_only_its_own_pages_and_files(self) -> None:
        desk = self.served(rules=DOORS)
        for name in ("rules", "../rules", "page/desk.js", "kept.py", "desk.js?x"):
            self.assertEqual(request(desk, name), (404, {"error": "there is no such page"}))
        for house, kind in ((1, "rules"), (-1, "rules"), (True, "rules"), ("0", "rules"), (0, "../rules"), (0, "path")):
            self.assertEqual(request(desk, "read", {"house": house, "kind": kind})[0], 400)
            self.assertEqual(request(desk, "save", {"house": house, "kind": kind, "text": "", "stamp": ""})[0], 400)
        self.assertEqual(os.listdir(self.folder), ["rules"])

    def test_what_is_no_question(self) -> None:
        desk = self.served(rules=DOORS)
        right = asked("a", actions=["a"])
        self.assertEqual(request(desk, "history", right), (200, {"lines": ["yes"], "state": "complete"}))
        for name, value in (("rules", 1), ("rules", "\ud800"), ("actions", "a"), ("actions", [1]),
                            ("actions", ["a\nb"]), ("values", 1.5), ("values", -1), ("values", 1000001),
                            ("explained", None), ("given", ["a", 1])):
            self.assertEqual(request(desk, "history", {**right, name: value})[0], 400, (name, value))
        for data, status in ((b"[]", 400), (b"{", 400), (b" " * (1 << 20) + b" ", 400)):
            self.assertEqual(request(desk, "history", data)[0], status)
        self.assertEqual(request(desk, "history", right, {"Content-Type": "text/plain"})[0], 400)
        self.assertEqual(request(desk, "else", right), (404, {"error": "there is no such question"}))

    def test_the_node_without_a_bound_is_placed(self) -> None:
        desk = self.served(rules=DOORS)
        for text, code, places in UNBOUNDED:
            with self.subTest(text):
                answer = request(desk, "drawing", asked(text))[1]
                self.assertTrue(answer["bound"].startswith(f"unbounded {code} "), answer["bound"])
                self.assertEqual([(one["line"], one["column"]) for one in answer["refused"]], list(dict.fromkeys(places)))
                self.assertEqual([sign for sign, _ in framed(answer["shown"], "refused")], ["!"] * len(places))

    def test_what_looks_wrong_is_placed(self) -> None:
        desk = self.served(rules=DOORS)
        for source, line, right in FINDINGS:
            with self.subTest(source):
                answer = request(desk, "lint", asked(source))[1]
                self.assertEqual(["{line}:{column}: {sentence}".format(**one) for one in answer["found"]], [line])
                self.assertEqual(request(desk, "lint", asked(right)), (200, {"found": []}))
                self.assertEqual(framed(request(desk, "drawing", asked(right))[1]["shown"], "found"), [])
        fault = {"line": 1, "column": 4, "sentence": "the text ends here, and something is missing"}
        self.assertEqual(request(desk, "lint", asked("a -")), (200, {"fault": fault}))

    def test_what_looks_wrong_is_framed_with_its_number(self) -> None:
        desk = self.served(rules=DOORS)
        with open(f"{TOP}/examples/slips/expression") as file:
            answer = request(desk, "drawing", asked(file.read()))[1]
        wanted = [("1", TITLES["@"]), ("2", "call($patient,room)"), ("3", "call($patient)"),
                  ("4", "any $nurse: for some value"), ("5", TITLES["&"]),
                  ("6 7", "all $person: side by side for all values"), ("8", "all $bed: side by side for all values")]
        self.assertEqual(framed(answer["shown"], "found"), wanted)
        self.assertEqual(framed(answer["svg"], "found"), [])

    def test_a_finding_in_a_part_is_framed_at_each_use(self) -> None:
        desk = self.served(rules=DOORS)
        source = "let once = all $p ?sign($p);\n(examine - send | once) @ once @ (a - times 3 b)"
        found = [{"line": 1, "column": 12, "sentence": KEEPS}]
        self.assertEqual(request(desk, "lint", asked(source)), (200, {"found": found}))
        shown = request(desk, "drawing", asked(source))[1]["shown"]
        self.assertEqual(framed(shown, "found"), [("1", "all $p: side by side for all values")] * 2)
        self.assertEqual(framed(shown, "refused"), [("!", "times 3: so many of these side by side")])

    def test_what_the_browser_is_told(self) -> None:
        desk = self.served(rules=DOORS)
        with contextlib.closing(http.client.HTTPConnection("127.0.0.1", desk.server_address[1])) as connection:
            connection.request("GET", f"/{desk.secret}/")
            headers = connection.getresponse().headers
        policy = dict(one.strip().split(" ", 1) for one in headers["Content-Security-Policy"].split(";"))
        self.assertEqual(policy.pop("style-src").split()[0], "'self'")
        nothing = dict.fromkeys(("default-src", "base-uri", "form-action", "frame-ancestors"), "'none'")
        self.assertEqual(policy, {"script-src": "'self'", "connect-src": "'self'", "img-src": "data:", **nothing})
        self.assertEqual(headers["Referrer-Policy"], "no-referrer")
        self.assertNotIn("Access-Control-Allow-Origin", headers)

    def test_saves(self) -> None:
        desk = self.served(rules=DOORS)
        os.chmod(f"{self.folder}/rules", 0o640)
        os.symlink("rules", f"{self.folder}/link")
        desk.houses[0].texts["rules"].path = f"{self.folder}/link"
        stamp = request(desk, "read", {"house": 0, "kind": "rules"})[1]["stamp"]
        save = {"house": 0, "kind": "rules", "text": "ä // é\n", "stamp": stamp}
        status, answer = request(desk, "save", save)
        self.assertEqual((status, self.kept("rules")), (200, "ä // é\n"))
        self.assertEqual(os.stat(f"{self.folder}/rules").st_mode & 0o777, 0o640)
        self.assertTrue(os.path.islink(f"{self.folder}/link"))
        self.assertEqual(request(desk, "save", save), (200, {"changed": True}))
        self.assertEqual(request(desk, "save", {**save, "text": "b", **answer})[0], 200)
        self.assertEqual(sorted(os.listdir(self.folder)), ["link", "rules"])

    def test_a_suite_is_made_and_never_over_another(self) -> None:
        desk = self.served(rules=DOORS)
        read = {"house": 0, "kind": "cases"}
        self.assertEqual(request(desk, "read", read), (200, {"text": "", "stamp": ""}))
        self.write("rules.cases", "another's")
        self.assertEqual(request(desk, "save", {**read, "text": CASES, "stamp": ""}), (200, {"changed": True}))
        self.assertEqual(self.kept("rules.cases"), "another's")
        os.unlink(f"{self.folder}/rules.cases")
        self.assertEqual(request(desk, "save", {**read, "text": CASES, "stamp": ""})[0], 200)
        self.assertEqual(self.kept("rules.cases"), CASES)

    def test_a_file_that_can_not_be_used(self) -> None:
        desk = self.served(rules=DOORS)
        with open(f"{self.folder}/rules", "wb") as file:
            file.write(b"\xff")
        sentence = f"{self.folder}/rules:1:1: from here on this is no UTF-8"
        self.assertEqual(request(desk, "read", {"house": 0, "kind": "rules"}), (500, {"error": sentence}))
        os.unlink(f"{self.folder}/rules")
        os.mkdir(f"{self.folder}/rules")
        self.assertEqual(request(desk, "read", {"house": 0, "kind": "rules"})[0], 500)
        with mock.patch.dict(os.environ, IXM="/bin/false"):
            sentence = "/bin/false ended with status 1 and the line: "
            self.assertEqual(request(desk, "rules", asked("a")), (500, {"error": sentence}))

    def test_as_a_process(self) -> None:
        self.write("test", DOORS)
        for words in (["open", "test"], ["./test"], ["./test", "test"]):
            words = [sys.executable, "-m", "ixm.desk", *words]
            environment = {**os.environ, "PYTHONPATH": f"{TOP}/python"}
            with subprocess.Popen(words, cwd=self.folder, env=environment, stdout=subprocess.PIPE, text=True,
                                  preexec_fn=takes_interrupts) as process:
                assert process.stdout
                address = re.fullmatch(r"http://(127\.0\.0\.1:\d+)/([\w-]{32})/\n", process.stdout.readline())
                assert address
                with contextlib.closing(http.client.HTTPConnection(address.group(1))) as connection:
                    connection.request("GET", f"/{address.group(2)}/")
                    self.assertEqual(connection.getresponse().status, 200)
                process.send_signal(signal.SIGINT)
                self.assertEqual(process.wait(), 0)

    def test_words(self) -> None:
        with contextlib.redirect_stderr(open(os.devnull, "w")) as errors, errors:
            for words in (["open"], ["--open"], ["--open", "check", "rules"]):
                with self.subTest(words), self.assertRaises(SystemExit) as ended:
                    main.main(words)
                self.assertEqual(ended.exception.code, 2)


if __name__ == "__main__":
    unittest.main()
