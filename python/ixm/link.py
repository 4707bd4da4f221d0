"""Connections to a manager or a front: a request goes, and the lines of its reply come.

A connection on which something went wrong is closed at once, so that a late reply is never taken
for the answer to another request. Each error is an OSError: nothing is known then of what the last
request did.
"""

import asyncio
import contextlib
import os
import socket
import ssl
from collections.abc import Awaitable
from types import TracebackType
from typing import Protocol, TypeVar

from ixm.protocol import CHANGES, LONGEST_REPLY, MOST_CHANGES, line_of

T = TypeVar("T")

# The path of a Unix socket, or a host and a port.
Address = str | os.PathLike[str] | tuple[str, int]


GOODBYE = 1.0  # seconds in which the other side of a TLS connection may say that it has heard the end


class Requests(Protocol):
    """Whatever sends a request and gives the lines of its reply; OSError says that the reply is
    lost."""

    def request(self, line: str) -> list[str]: ...


class Incoming:
    """What came on a connection, taken apart at its line ends."""

    def __init__(self) -> None:
        self.pending = b""

    def check_empty(self) -> None:
        """Raises if more came than was asked for: the next line would be taken for another
        request's reply."""
        if self.pending:
            raise ConnectionError(f"nobody asked for {self.pending[:80]!r}")

    def feed(self, received: bytes) -> None:
        if not received:
            raise ConnectionError("the connection was closed in front of a reply's end")
        self.pending += received

    def take(self) -> str | None:
        """The next line, or None if its end hasn't come yet."""
        line, end, rest = self.pending.partition(b"\n")
        if len(line) > LONGEST_REPLY:
            raise ConnectionError("a line is longer than any reply")
        if not end:
            return None
        if not line.isascii():
            raise ConnectionError(f"a line isn't ASCII: {line!r}")
        self.pending = rest
        return line.decode("ascii")


def lines_behind(first: str) -> int:
    """How many lines a reply has behind its first one: those of a poll."""
    count = int(CHANGES.read(first) or 0)
    if count > MOST_CHANGES:
        raise ConnectionError(f"no poll has so many lines: {first}")
    return count


class Connection:
    """A connection that blocks. A bare manager reads one connection until that is closed, and then
    the next.

    Each wait, for the connect and for each piece of a reply, ends with an OSError after `limit`
    seconds, or never if that is None. `tls` is used where the address is a host and a port.
    """

    def __init__(
        self, address: Address, limit: float | None = None, tls: ssl.SSLContext | None = None
    ) -> None:
        self.incoming = Incoming()
        self.socket = _far(*address, limit, tls) if isinstance(address, tuple) else _near(address, limit)

    def __enter__(self) -> "Connection":
        return self

    def __exit__(
        self,
        kind: type[BaseException] | None,
        error: BaseException | None,
        trace: TracebackType | None,
    ) -> None:
        self.close()

    def close(self) -> None:
        self.socket.close()

    def request(self, line: str) -> list[str]:
        """Sends one request, and gives its reply: one line, and for a poll one more for each
        change."""
        sent = line_of(line)
        try:
            self.incoming.check_empty()
            self.socket.sendall(sent)
            first = self.read_line()
            return [first, *(self.read_line() for _ in range(lines_behind(first)))]
        except BaseException:
            self.close()
            raise

    def read_line(self) -> str:
        while (line := self.incoming.take()) is None:
            self.incoming.feed(self.socket.recv(4096))
        return line


def _near(path: str | os.PathLike[str], limit: float | None) -> socket.socket:
    connected = socket.socket(socket.AF_UNIX)
    try:
        connected.settimeout(limit)
        connected.connect(os.fspath(path))
    except BaseException:
        connected.close()
        raise
    return connected


def _far(host: str, port: int, limit: float | None, tls: ssl.SSLContext | None) -> socket.socket:
    connected = socket.create_connection((host, port), limit)
    connected.setsockopt(socket.IPPROTO_TCP, socket.TCP_NODELAY, 1)
    # Where the handshake fails, the socket is closed by it.
    return connected if tls is None else tls.wrap_socket(connected, server_hostname=host)


class AsyncConnection:
    """The same for asyncio. `open` makes one."""

    def __init__(self, reader: asyncio.StreamReader, writer: asyncio.StreamWriter) -> None:
        self.reader, self.writer, self.incoming = reader, writer, Incoming()

    @classmethod
    async def open(
        cls, address: Address, limit: float | None = None, tls: ssl.SSLContext | None = None
    ) -> "AsyncConnection":
        if isinstance(address, tuple):
            name = address[0] if tls else None
            opening = asyncio.open_connection(*address, ssl=tls, server_hostname=name)
            return cls(*await _within(limit, opening))
        return cls(*await _within(limit, asyncio.open_unix_connection(os.fspath(address))))

    async def close(self) -> None:
        self.writer.close()
        with contextlib.suppress(OSError):
            await _within(GOODBYE, self.writer.wait_closed())

    async def request(self, line: str, limit: float | None = None) -> list[str]:
        """As `Connection.request`; the whole reply has to come within `limit` seconds."""
        sent = line_of(line)
        try:
            self.incoming.check_empty()
            return await _within(limit, self._exchange(sent))
        except BaseException:
            self.writer.transport.abort()
            raise

    async def _exchange(self, sent: bytes) -> list[str]:
        self.writer.write(sent)
        await self.writer.drain()
        first = await self._read_line()
        return [first, *[await self._read_line() for _ in range(lines_behind(first))]]

    async def _read_line(self) -> str:
        while (line := self.incoming.take()) is None:
            self.incoming.feed(await self.reader.read(4096))
        return line


async def _within(limit: float | None, waits: Awaitable[T]) -> T:
    """What it waits for; OSError if that takes longer."""
    try:
        return await asyncio.wait_for(waits, limit)
    except asyncio.TimeoutError as error:
        raise TimeoutError("no reply in time") from error
