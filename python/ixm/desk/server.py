"""The server of the page: on 127.0.0.1 alone, behind an address that is secret, and for no page but its own."""

import hashlib
import json
import os
import secrets
import socketserver
import sys
from base64 import b64encode
from collections.abc import Callable, Sequence
from http.server import BaseHTTPRequestHandler
from typing import Any

from ixm.desk import program
from ixm.desk.drawing import STYLE
from ixm.desk.kept import Changed, House, Kept
from ixm.desk.panels import PANELS, Answer, Question, answer
from ixm.desk.texts import Undecoded

FOLDER = os.path.join(os.path.dirname(os.path.abspath(__file__)), "page")
HTML, SCRIPT, SHEET = "text/html; charset=utf-8", "text/javascript; charset=utf-8", "text/css; charset=utf-8"
PAGES = {"": ("desk.html", HTML), "desk.js": ("desk.js", SCRIPT), "desk.css": ("desk.css", SHEET)}
JSON = "application/json"
LARGEST = 1 << 20  # bytes of a question
DROPPED = 16 << 20  # bytes of a refused one that are read all the same
MOST = 1000000  # the largest number in a question
STYLE_HASH = b64encode(hashlib.sha256(STYLE.encode()).digest()).decode()
POLICY = (
    f"default-src 'none'; script-src 'self'; style-src 'self' 'sha256-{STYLE_HASH}'; connect-src 'self'; "
    "img-src data:; base-uri 'none'; form-action 'none'; frame-ancestors 'none'"
)
HEADERS = {
    "Content-Security-Policy": POLICY,
    "Cross-Origin-Opener-Policy": "same-origin",
    "Cross-Origin-Resource-Policy": "same-origin",
    "Referrer-Policy": "no-referrer",
    "X-Content-Type-Options": "nosniff",
    "Cache-Control": "no-store",
}


class Refused(Exception):
    """A request that isn't one of the page: its status and a sentence."""

    def __init__(self, status: int, sentence: str) -> None:
        super().__init__(sentence)
        self.status, self.sentence = status, sentence


class Body:
    """The fields of a question."""

    def __init__(self, data: bytes) -> None:
        try:
            self.fields = json.loads(data)
        except ValueError:
            raise Refused(400, "this is no JSON") from None
        if not isinstance(self.fields, dict):
            raise Refused(400, "this is no question")

    def text(self, name: str) -> str:
        return self.checked(name, self.fields.get(name))

    def checked(self, name: str, text: object) -> str:
        """This, if it is a text that a file can have."""
        try:
            if isinstance(text, str) and text.encode() is not None:
                return text
        except UnicodeEncodeError:
            pass
        raise Refused(400, f"{name} is no text")

    def number(self, name: str, most: int) -> int:
        found = self.fields.get(name)
        if type(found) is not int or not 0 <= found <= most:
            raise Refused(400, f"{name} is no number from 0 to {most}")
        return found

    def lines(self, name: str) -> list[str]:
        found = self.fields.get(name)
        if not isinstance(found, list) or any("\n" in self.checked(name, line) for line in found):
            raise Refused(400, f"{name} are no lines")
        return found

    def question(self) -> Question:
        """What a panel is asked."""
        explained, values = self.number("explained", MOST), self.number("values", MOST)
        texts, actions = (self.text("rules"), self.text("cases")), self.lines("actions")
        return Question(*texts, actions, explained, values, self.lines("given"), self.number("states", MOST))


class Desk(socketserver.ThreadingTCPServer):
    """The server, at a port that the system chooses. `address` is the page's."""

    allow_reuse_address = True
    daemon_threads = True

    def __init__(self, paths: Sequence[str]) -> None:
        self.houses = [House(path) for path in paths]
        super().__init__(("127.0.0.1", 0), Handler)
        self.host = f"127.0.0.1:{self.server_address[1]}"
        self.secret = secrets.token_urlsafe(24)
        self.address = f"http://{self.host}/{self.secret}/"

    def handle_error(self, request: Any, client_address: Any) -> None:
        """A page that was closed before its answer came is no fault."""
        if not isinstance(sys.exc_info()[1], ConnectionError):
            super().handle_error(request, client_address)


class Handler(BaseHTTPRequestHandler):
    server: Desk
    timeout = 30  # seconds that a request may take to come
    left = 0  # bytes of the question that aren't read yet

    def do_GET(self) -> None:
        self.settle(self.page)

    def do_POST(self) -> None:
        length = self.headers.get("Content-Length", "")
        self.left = min(int(length), DROPPED) if length.isdigit() else 0
        self.settle(self.asked)
        self.drop()

    def drop(self) -> None:
        """Reads what is left of a refused question, because a connection that ends before may take the answer with it."""
        while self.left > 0 and (data := self.rfile.read(min(self.left, LARGEST))):
            self.left -= len(data)

    def settle(self, found: Callable[[], tuple[str, bytes]]) -> None:
        """Sends what was found, or why nothing was."""
        try:
            self.check()
            self.put(200, *found())
        except Refused as refused:
            self.put(refused.status, JSON, as_json({"error": refused.sentence}))
        except OSError as error:
            self.put(500, JSON, as_json({"error": f"{error.filename}: {error.strerror}"}))
        except (Undecoded, program.Unusable) as error:
            self.put(500, JSON, as_json({"error": str(error)}))

    def check(self) -> None:
        """Refuses what another page of the browser can send, and another name of this machine."""
        own = self.headers.get_all("Host") == [self.server.host]
        origin, site = self.headers.get("Origin"), self.headers.get("Sec-Fetch-Site", "none")
        own = own and origin in (f"http://{self.server.host}", None) and site in ("same-origin", "none")
        if not own or origin is None and self.command != "GET":
            raise Refused(403, "this is no request of the desk's page")

    def wanted(self) -> str:
        """The name behind the secret."""
        secret, _, name = self.path[1:].partition("/")
        if not secrets.compare_digest(secret.encode(), self.server.secret.encode()):
            raise Refused(403, "this isn't the address that ixm-desk printed")
        return name

    def page(self) -> tuple[str, bytes]:
        name = self.wanted()
        if name not in PAGES:
            raise Refused(404, "there is no such page")
        with open(os.path.join(FOLDER, PAGES[name][0]), "rb") as file:
            return PAGES[name][1], file.read()

    def asked(self) -> tuple[str, bytes]:
        name = self.wanted()
        body = self.body()
        if name == "begin":
            return JSON, as_json({"houses": [house.name for house in self.server.houses], "commands": program.commands()})
        if name == "read":
            text, stamp = self.kept(body).read()
            return JSON, as_json({"text": text, "stamp": stamp})
        if name == "save":
            return JSON, as_json(self.save(body))
        if name in PANELS:
            return JSON, as_json(answer(name, body.question()))
        raise Refused(404, "there is no such question")

    def body(self) -> Body:
        length = self.headers.get("Content-Length", "")
        if self.headers.get("Content-Type") != JSON or not length.isdigit() or int(length) > LARGEST:
            raise Refused(400, f"a question is JSON with at most {LARGEST} bytes")
        self.left = 0
        return Body(self.rfile.read(int(length)))

    def kept(self, body: Body) -> Kept:
        house, kind = body.number("house", len(self.server.houses) - 1), body.text("kind")
        if kind not in self.server.houses[house].texts:
            raise Refused(400, "a text is of the kind rules or cases")
        return self.server.houses[house].texts[kind]

    def save(self, body: Body) -> Answer:
        try:
            return {"stamp": self.kept(body).save(body.text("text"), body.text("stamp"))}
        except Changed:
            return {"changed": True}

    def put(self, status: int, kind: str, data: bytes) -> None:
        self.send_response(status)
        for name, value in {**HEADERS, "Content-Type": kind, "Content-Length": str(len(data))}.items():
            self.send_header(name, value)
        self.end_headers()
        self.wfile.write(data)

    def log_message(self, format: str, *values: object) -> None:
        """Says nothing: standard error is for faults."""


def as_json(found: object) -> bytes:
    return json.dumps(found).encode()
