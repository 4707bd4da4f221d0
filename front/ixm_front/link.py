"""The one connection to the manager."""

from __future__ import annotations

import asyncio
import socket
from collections import deque
from time import monotonic
from typing import Protocol

from .lines import ReplyReader
from .loop import TurnSelector
from .request import Line, OwnLine

FIRST_PAUSE = 0.02  # seconds between two tries to connect, which double
LONGEST_PAUSE = 1.0


class User(Protocol):
    """What is told of the connection."""

    selector: TurnSelector

    def is_up(self) -> None:
        """The manager has answered a first line on a new connection."""

    def replied(self, request: Line, reply: bytes) -> None:
        """The reply to the oldest line without one."""

    def is_lost(self, unanswered: list[Line]) -> None:
        """The connection is gone, and the replies to these lines with it."""


class Link:
    """Sends lines in order. Each reply is that of the oldest line without one, since the manager answers in order."""

    def __init__(self, user: User, path: str) -> None:
        self.user = user
        self.path = path
        self.is_up = False
        self.unanswered: deque[Line] = deque()
        self._sock: socket.socket | None = None
        self._reader = ReplyReader()
        self._out = bytearray()
        self._is_full = False  # the system takes no more for now
        self._ended = asyncio.Event()

    async def keep(self) -> None:
        """Connects, and again whenever the connection is gone."""
        pause = FIRST_PAUSE
        while True:
            if self._connect():
                await self._ended.wait()
                pause = FIRST_PAUSE
            await asyncio.sleep(pause)
            pause = min(2 * pause, LONGEST_PAUSE)

    def send(self, request: Line) -> None:
        """Sends a line, together with the others that are sent in this turn of the loop."""
        request.sent = monotonic()
        self.unanswered.append(request)
        self._out += request.line
        self._out += b"\n"

    def flush(self) -> None:
        """Hands over to the system what was sent in this turn."""
        if self._out and not self._is_full:
            self._write()

    def oldest(self) -> float | None:
        """When the oldest line without a reply was sent."""
        return self.unanswered[0].sent if self.unanswered else None

    def close(self) -> None:
        """Closes the connection and tells nobody."""
        if self._sock is not None:
            self.user.selector.watch(self._sock.fileno(), None, None)
            self._sock.close()
            self._sock = None
        self._is_full = False
        self._out.clear()
        self.is_up = False

    def _connect(self) -> bool:
        """Connects. The first line is the front's own `status`, whose reply shows that the manager reads it."""
        try:
            sock = socket.socket(socket.AF_UNIX, socket.SOCK_STREAM | socket.SOCK_NONBLOCK)
        except OSError:
            return False  # no open file is free
        try:
            sock.connect(self.path)
        except OSError:
            sock.close()
            return False
        self._sock, self._reader = sock, ReplyReader()
        self._ended.clear()
        self.user.selector.watch(sock.fileno(), self._readable, None)
        self.send(OwnLine(b"status", monotonic()))
        return True

    def _readable(self, flags: int) -> None:
        assert self._sock is not None
        try:
            data = self._sock.recv(65536)
        except (BlockingIOError, InterruptedError):
            return
        except OSError:
            data = b""
        if not data:
            self._lose()
            return
        for reply in self._reader.feed(data):
            if not self.unanswered:
                # A manager never says anything unasked, so this isn't one.
                self._lose()
                return
            request = self.unanswered.popleft()
            self.user.replied(request, reply)
            if not self.is_up:
                self.is_up = True
                self.user.is_up()

    def _write(self) -> None:
        if self._sock is None:
            return
        try:
            del self._out[:self._sock.send(self._out)]
        except (BlockingIOError, InterruptedError):
            pass
        except OSError:
            # What it had answered before may still be there to be read, and its end shows behind it.
            self._out.clear()
        if self._is_full != bool(self._out):
            self._is_full = bool(self._out)
            self.user.selector.watch(self._sock.fileno(), self._readable, self._write if self._is_full else None)

    def _lose(self) -> None:
        was_up = self.is_up
        self.close()
        unanswered = list(self.unanswered)
        self.unanswered.clear()
        self._ended.set()
        self.user.selector.give_way()
        if was_up:
            self.user.is_lost(unanswered)
