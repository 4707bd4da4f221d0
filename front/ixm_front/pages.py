"""The view, the metrics and the health: doors of their own, which no client's line stands in front of, and a file."""

from __future__ import annotations

import asyncio
import os
import re
import socket
from collections.abc import Callable
from dataclasses import dataclass

from .loop import Services
from .view import screen, screen_policy

LONGEST = 5.0  # seconds that a reader of a page may take
READERS = 32  # at most so many at once
HEAD = 4096  # bytes of a request's head at most
NAMES = "/, /now, /metrics, /ready, /live or /health\n"
TEXT = "text/plain; version=0.0.4; charset=utf-8"
# What a browser takes the host of the page to be: an address, or a name without a dot, as `localhost`. A site of another
# house that leads its own name to this machine would have one with dots.
HOUSE = re.compile(r"(\[[0-9a-f:.]+\]|[0-9.]+|[a-z0-9_-]*)(:[0-9]+)?", re.IGNORECASE)


@dataclass(frozen=True)
class Reply:
    """A page, and what a reader is told of it."""

    status: str
    text: str
    kind: str = TEXT
    policy: str = "default-src 'none'"

    def head(self) -> str:
        """The lines in front of the text."""
        return (f"HTTP/1.0 {self.status}\r\nContent-Type: {self.kind}\r\nContent-Length: {len(self.text)}\r\n"
                f"Content-Security-Policy: {self.policy}\r\nX-Content-Type-Options: nosniff\r\n"
                "Referrer-Policy: no-referrer\r\nCross-Origin-Resource-Policy: same-origin\r\n"
                "Cache-Control: no-store\r\nConnection: close\r\n\r\n")


def host_of(head: str) -> str:
    """The host that a reader asks for; empty where it names none."""
    for line in head.split("\n")[1:]:
        name, _, value = line.partition(":")
        if name.strip().lower() == "host":
            return value.strip()
    return ""


class Pages:
    """Answers `GET` and `HEAD` of `/`, `/now`, `/metrics`, `/live`, `/ready` and `/health`."""

    def __init__(self, loop: asyncio.AbstractEventLoop, metrics: Callable[[], str],
                 health: Callable[[], tuple[bool, str]], view: Callable[[], str]) -> None:
        self.loop = loop
        self.metrics = metrics
        self.health = health
        self.view = view
        self.refused: Callable[[socket.socket], None] = lambda sock: None  # a reader there were too many for
        self.readers = Services(loop)
        screen_policy()  # is read now, since later no open file may be free

    def take(self, sock: socket.socket) -> None:
        """Answers whoever has connected, or closes the connection where there are too many."""
        if len(self.readers) >= READERS:
            self.refused(sock)
            sock.close()
            return
        sock.setblocking(False)
        self.readers.begin(self._serve(sock))

    def write(self, path: str) -> bool:
        """Writes the metrics to a file, which is always whole. False where it couldn't be written."""
        try:
            with open(f"{path}.new", "w", encoding="ascii") as file:
                file.write(self.metrics())
            os.replace(f"{path}.new", path)
        except OSError:
            return False
        return True

    def page(self, method: str, target: str, host: str) -> Reply:
        """A page. The view is only for who asks for this machine by an address or a name of the house."""
        if method not in ("GET", "HEAD"):
            return Reply("405 Method Not Allowed", "GET or HEAD\n")
        name = target.partition("?")[0]
        if name in ("/", "/now"):
            if HOUSE.fullmatch(host) is None:
                return Reply("421 Misdirected Request", "by an address, or a name without a dot\n")
            if name == "/":
                return Reply("200 OK", screen(), "text/html; charset=utf-8", screen_policy())
            return Reply("200 OK", self.view(), "application/json")
        if name == "/metrics":
            return Reply("200 OK", self.metrics())
        if name == "/live":
            return Reply("200 OK", "the front answers\n")
        if name in ("/ready", "/health"):
            is_well, text = self.health()
            return Reply("200 OK" if is_well else "503 Service Unavailable", text)
        return Reply("404 Not Found", NAMES)

    async def _serve(self, sock: socket.socket) -> None:
        try:
            await asyncio.wait_for(self._answer(sock), LONGEST)
        except (OSError, asyncio.TimeoutError):
            pass  # the reader is gone, or too slow
        finally:
            sock.close()

    async def _answer(self, sock: socket.socket) -> None:
        head = b""
        while b"\n\r\n" not in head and b"\n\n" not in head:
            data = await self.loop.sock_recv(sock, HEAD)
            head += data
            if not data or len(head) > HEAD:
                return
        asked = head.decode("ascii", "replace")
        words = asked.partition("\n")[0].split()
        reply = self.page(words[0], words[1], host_of(asked)) if len(words) > 1 else Reply("400 Bad Request", NAMES)
        text = "" if words and words[0] == "HEAD" else reply.text
        await self.loop.sock_sendall(sock, (reply.head() + text).encode())
