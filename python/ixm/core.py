"""What the engine that blocks and the one for asyncio share: turns at the manager, waiting for a
rule, and activities.

Everything here is a coroutine over a `Driver`. That of the engine that blocks never suspends, so
`drive` runs such a coroutine to its end by one step.
"""

import contextlib
import itertools
import random
import ssl
import threading
import time
from collections.abc import AsyncIterator, Callable, Coroutine
from typing import Any, Protocol, TypeVar

from ixm.activity import Activity
from ixm.errors import ForPeople
from ixm.link import Address
from ixm.store import MemoryStore, Record, Store

T = TypeVar("T")

LEASE = 5000  # milliseconds for which an action is reserved, from its ask to its confirm
TURN = 60.0  # seconds in which the manager has to come to a connection; else that is given up
REPLY = 10.0  # seconds in which it has to answer a connection that it reads
WAIT = 60000  # milliseconds for which an ask may wait in the line of a front, as a front lets it
FIRST_PAUSE, LONGEST_PAUSE = 0.05, 2.0  # seconds
POLLS = 10  # polls before a watch is set again: a restart that no connection met takes it away
LONGEST_NAME = 24  # bytes of an engine's name; the names of its watches have up to 32

Tell = Callable[[str, list[str]], None]


class Link(Protocol):
    """A connection of a driver."""

    async def request(self, line: str, limit: float | None) -> list[str]: ...

    async def close(self) -> None: ...


class Driver(Protocol):
    """How coroutines wait."""

    async def connect(
        self, address: Address, limit: float | None, tls: ssl.SSLContext | None
    ) -> Link: ...

    async def sleep(self, seconds: float) -> None: ...

    async def call(self, function: Callable[[], T]) -> T:
        """Calls a function that may wait for the disk."""


def drive(steps: Coroutine[Any, Any, T]) -> T:
    """The result of a coroutine whose driver never suspends."""
    try:
        steps.send(None)
    except StopIteration as end:
        result: T = end.value
        return result
    raise AssertionError("a driver that blocks has suspended")


class Pause:
    """Pauses of a random length that grow, so that engines which met one another don't meet again."""

    def __init__(self, driver: Driver, within: float | None, longest: float) -> None:
        self.driver, self.longest, self.length = driver, longest, min(FIRST_PAUSE, longest)
        self.until = None if within is None else time.monotonic() + within

    def is_over(self) -> bool:
        return self.until is not None and time.monotonic() >= self.until

    def within(self, seconds: float) -> float:
        """So many seconds, or those that are left where they are fewer."""
        left = seconds if self.until is None else self.until - time.monotonic()
        return max(0.001, min(seconds, left))

    async def wait(self) -> None:
        await self.driver.sleep(self.within(random.uniform(0, self.length)))
        self.length = min(2 * self.length, self.longest)


class Talk:
    """A connection that the manager reads, and how long to wait for its replies."""

    def __init__(self, link: Link, tell: Tell, wait: float) -> None:
        self.link, self.tell, self.wait = link, tell, wait

    async def request(self, line: str, limit: float | None = REPLY) -> list[str]:
        reply = await self.link.request(line, limit)
        self.tell(line, reply)
        return reply

    async def ask(self, line: str) -> str:
        """The first line of the reply. Only an `ask` may wait in a front's line."""
        wait = self.wait if line.startswith("ask ") else 0.0
        return (await self.request(line, REPLY + wait))[0]


class Core:
    """An engine at the manager's sockets. Its name is its own: no other process has it.

    `sockets` is one address or a list of them, all of the same manager or of fronts before it; the
    first that takes a connection is used. `tls` is used where an address is a host and a port. No
    pause between two tries or polls is longer than `pause` seconds. `tell` is called with each
    request and its reply, as a list of lines.
    """

    def __init__(
        self,
        driver: Driver,
        sockets: Address | list[Address],
        name: str,
        *,
        tls: ssl.SSLContext | None = None,
        lease: int = LEASE,
        turn: float = TURN,
        wait: int = WAIT,
        pause: float = LONGEST_PAUSE,
        tell: Tell | None = None,
    ) -> None:
        if len(name) > LONGEST_NAME:
            raise ValueError(f"the name of an engine has at most {LONGEST_NAME} bytes")
        self.driver, self.name, self.tls, self.lease = driver, name, tls, lease
        self.limit, self.front_wait, self.longest_pause = turn, wait, pause
        self.sockets = list(sockets) if isinstance(sockets, list) else [sockets]
        if not self.sockets:
            raise ValueError("an engine has at least one socket")
        self.first = 0  # the place of the socket that is tried first
        self.tell: Tell = tell or (lambda line, reply: None)
        self.waiting: set[str] = set()
        self.lock = threading.Lock()

    async def activity(self, action: str, store: Store, within: float | None) -> int:
        pause = Pause(self.driver, within, self.longest_pause)
        return await Activity(_Outside(self, store, pause), action, self.lease).bring_about(pause)

    async def do(self, action: str, within: float | None, ticket: str | None) -> int:
        kept = None if ticket is None else Record("open", ticket, action).text()
        return await self.activity(action, MemoryStore(kept), within)

    async def request(self, line: str, limit: float | None = None) -> list[str]:
        """One request on a connection of its own, which is waited for so many seconds, or a turn."""
        limit = self.limit if limit is None else limit
        async with self._connected(limit) as link:
            return await Talk(link, self.tell, 0.0).request(line, limit)

    async def length(self) -> int:
        return int((await self.request("status"))[0].split()[2])

    @contextlib.asynccontextmanager
    async def turn(self, pause: Pause) -> AsyncIterator[Talk]:
        """A connection that the manager reads, or a front.

        Its first line tells a front how long an ask may wait in its line: it says `yes`. A bare
        manager answers it with a refusal once it has come to this connection. So an engine that
        gives up while it waits for its turn leaves no ask behind that is granted to nobody.
        """
        limit = pause.within(self.limit)
        wait = int(1000 * pause.within(self.front_wait / 1000)) if self.front_wait else 0
        async with self._connected(limit) as link:
            talk = Talk(link, self.tell, 0.0)
            reply = await talk.request(f"front wait {wait}", limit)
            if reply == ["yes"]:
                talk.wait = wait / 1000
            yield talk

    @contextlib.asynccontextmanager
    async def _connected(self, limit: float) -> AsyncIterator[Link]:
        """A connection to the first socket that takes one. If it fails, the next try begins with
        the next socket."""
        link = await self._connect(limit)
        try:
            yield link
        except OSError:
            self.first += 1
            raise
        finally:
            await link.close()

    async def _connect(self, limit: float) -> Link:
        count = len(self.sockets)
        for place in range(self.first, self.first + count - 1):
            with contextlib.suppress(OSError):
                address = self.sockets[place % count]
                link = await self.driver.connect(address, limit, self.tls)
                self.first = place
                return link
        last = self.sockets[(self.first + count - 1) % count]
        return await self.driver.connect(last, limit, self.tls)

    async def wait_for(self, action: str, pause: Pause) -> None:
        """Waits until the action is allowed, or may be. The watch has a name that nobody else
        polls."""
        name = self.take_name()
        try:
            while not pause.is_over():
                try:
                    if await self._is_told(name, action, pause):
                        return
                except OSError:  # the watch may be gone, and what a poll told is lost with its reply
                    await pause.wait()
        finally:
            with contextlib.suppress(OSError):
                await self.request(f"drop {name} {action}", min(self.limit, REPLY))
            self.give_name(name)

    async def _is_told(self, name: str, action: str, pause: Pause) -> bool:
        """Whether a watch, or one of some polls behind it, tells that the action is allowed."""
        reply = await self.request(f"watch {name} {action}", pause.within(self.limit))
        if reply[0] == "refused 40 watches full":  # ask again now and then
            await pause.wait()
            return True
        if reply[0] not in ("watching yes", "watching no"):
            raise ForPeople(action, reply[0])
        if reply[0] == "watching yes":
            return True
        for _ in range(POLLS):
            if pause.is_over():
                break
            await pause.wait()
            reply = await self.request(f"poll {name}", pause.within(self.limit))
            if not reply[0].startswith("changes "):
                raise ForPeople(action, reply[0])
            if f"yes {action}" in reply:
                return True
        return False

    def take_name(self) -> str:
        with self.lock:
            names = (f"{self.name}_{number}" for number in itertools.count(1))
            name = next(it for it in names if it not in self.waiting)
            self.waiting.add(name)
            return name

    def give_name(self, name: str) -> None:
        with self.lock:
            self.waiting.discard(name)


class _Outside:
    """What the activities of an engine do outside of themselves. Its calls are given the pauses of
    `Core.activity`."""

    def __init__(self, core: Core, store: Store, pause: Pause) -> None:
        self.core, self.store, self.pause = core, store, pause

    def turn(self) -> contextlib.AbstractAsyncContextManager[Talk]:
        return self.core.turn(self.pause)

    async def wait_for(self, action: str) -> None:
        await self.core.wait_for(action, self.pause)

    async def load(self) -> str | None:
        return await self.core.driver.call(self.store.load)

    async def swap(self, old: str | None, new: str) -> bool:
        return await self.core.driver.call(lambda: self.store.swap(old, new))
