"""How an engine talks to a manager (docs/engines.md).

    engine = Engine("/run/ixm/socket", "admissions")
    engine.activity("call(anna,xray)", store=FileStore("/var/lib/admissions/4711.call"))
    ..                                        # the work: no reservation is held meanwhile
    engine.activity("perform(anna,xray)", store=FileStore("/var/lib/admissions/4711.perform"))

`Engine.activity` brings an action about exactly once, over busy managers, restarts, lost replies
and the engine's own end at any moment. `AsyncEngine` is the same for asyncio. `Connection` sends
single requests of docs/protocol.md.
"""

import asyncio
import contextlib
import ssl
import time
from collections.abc import AsyncIterator, Callable, Iterator

from ixm.core import LEASE, LONGEST_PAUSE, TURN, WAIT, Core, Link, T, Tell, drive
from ixm.errors import ForPeople, LeftOut, NotDone, NotKept, Refused, TooLate, Unspent
from ixm.grants import (
    CANCELLED, EXPIRED, LEFT_OUT, NEVER, Done, Granted, Pending, ask, cancel, confirm, settle,
)
from ixm.link import Address, AsyncConnection, Connection
from ixm.store import FileStore, MemoryStore, SqliteStore, Store

__all__ = [
    "CANCELLED", "EXPIRED", "LEFT_OUT", "NEVER", "Address", "AsyncConnection", "AsyncEngine", "Connection", "Done",
    "Engine", "FileStore", "ForPeople", "Granted", "LeftOut", "MemoryStore", "NotDone", "NotKept", "Pending", "Refused",
    "SqliteStore", "Store", "TooLate", "Unspent", "ask", "cancel", "confirm", "settle",
]


class Engine:
    """An engine at the manager's sockets, which blocks. It may be used by many threads. Its name is
    its own: no other process has it.

    `sockets` is one address or a list of them, all of the same manager or of fronts before it; the
    first that takes a connection is used. An address is the path of a Unix socket, or a host and a
    port, over which `tls` is used. An action is reserved for `lease` milliseconds from its ask to
    its confirm, has to come to its turn within `turn` seconds, and waits in the line of a front for
    `wait` milliseconds. No pause between two tries or polls is longer than `pause` seconds. `tell`
    is called with each request and its reply, as a list of lines.
    """

    def __init__(
        self,
        sockets: Address | list[Address],
        name: str,
        *,
        tls: ssl.SSLContext | None = None,
        lease: int = LEASE,
        turn: float = TURN,
        wait: int = WAIT,
        pause: float = LONGEST_PAUSE,
        tell: Tell | None = None,
    ) -> None:
        self._core = Core(
            _Blocking(), sockets, name, tls=tls, lease=lease, turn=turn, wait=wait, pause=pause, tell=tell
        )

    def activity(self, action: str, *, store: Store, within: float | None = None) -> int:
        """Brings the action about exactly once, as soon as the rules permit it, and gives its
        number in the history.

        The store is of this activity alone. A call with it goes on where the last one was, also if
        that was killed: if the action is done already, its number is given again. It is confirmed
        as soon as it is granted, so it has to be an instant: a beginning, an end, a decision. After
        `within` seconds, if that is given, no further try is made.

        Raises a `NotDone`: `ForPeople` (of which `LeftOut` is one), `TooLate`, or `NotKept`. If its `ticket` isn't None the
        action may be in the history, and the next call with the same store finds out.
        """
        return drive(self._core.activity(action, store, within))

    def do(self, action: str, *, within: float | None = None, ticket: str | None = None) -> int:
        """As `activity`, with nothing kept: for an engine that isn't started again. After an error
        with a ticket, or by a ticket that it kept itself, the caller gives that as `ticket`, and is
        asked first what became of it."""
        return drive(self._core.do(action, within, ticket))

    @contextlib.contextmanager
    def between(self, begin: str, end: str, undo: str | None = None) -> Iterator[None]:
        """Two actions around the work in the `with` block, with nothing kept. What holds a room
        meanwhile is the rule: `call - perform`.

        If the work fails, the action `undo` is brought about in place of `end`, and if there is
        none, neither.
        """
        self.do(begin)
        try:
            yield
        except BaseException:
            if undo is not None:
                self.do(undo)
            raise
        self.do(end)

    def request(self, line: str) -> list[str]:
        """One request on a connection of its own. An OSError says that its reply is lost."""
        return drive(self._core.request(line))

    def length(self) -> int:
        """The length of the history."""
        return drive(self._core.length())


class AsyncEngine:
    """`Engine` for asyncio: each call is the same, and is awaited. A call that is cancelled has the
    effect of one that was killed: the next one with the same store goes on. Its stores are called
    in threads."""

    def __init__(
        self,
        sockets: Address | list[Address],
        name: str,
        *,
        tls: ssl.SSLContext | None = None,
        lease: int = LEASE,
        turn: float = TURN,
        wait: int = WAIT,
        pause: float = LONGEST_PAUSE,
        tell: Tell | None = None,
    ) -> None:
        self._core = Core(
            _Asyncio(), sockets, name, tls=tls, lease=lease, turn=turn, wait=wait, pause=pause, tell=tell
        )

    async def activity(self, action: str, *, store: Store, within: float | None = None) -> int:
        return await self._core.activity(action, store, within)

    async def do(self, action: str, *, within: float | None = None, ticket: str | None = None) -> int:
        return await self._core.do(action, within, ticket)

    @contextlib.asynccontextmanager
    async def between(self, begin: str, end: str, undo: str | None = None) -> AsyncIterator[None]:
        await self.do(begin)
        try:
            yield
        except BaseException:
            if undo is not None:
                await self.do(undo)
            raise
        await self.do(end)

    async def request(self, line: str) -> list[str]:
        return await self._core.request(line)

    async def length(self) -> int:
        return await self._core.length()


class _BlockingLink:
    def __init__(self, connection: Connection) -> None:
        self.connection = connection

    async def request(self, line: str, limit: float | None) -> list[str]:
        self.connection.socket.settimeout(limit)
        return self.connection.request(line)

    async def close(self) -> None:
        self.connection.close()


class _Blocking:
    """The driver of `Engine`: nothing of it suspends."""

    async def connect(
        self, address: Address, limit: float | None, tls: ssl.SSLContext | None
    ) -> Link:
        return _BlockingLink(Connection(address, limit, tls))

    async def sleep(self, seconds: float) -> None:
        time.sleep(seconds)

    async def call(self, function: Callable[[], T]) -> T:
        return function()


class _Asyncio:
    """The driver of `AsyncEngine`."""

    async def connect(
        self, address: Address, limit: float | None, tls: ssl.SSLContext | None
    ) -> Link:
        return await AsyncConnection.open(address, limit, tls)

    async def sleep(self, seconds: float) -> None:
        await asyncio.sleep(seconds)

    async def call(self, function: Callable[[], T]) -> T:
        return await asyncio.to_thread(function)
