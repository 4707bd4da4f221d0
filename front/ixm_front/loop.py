"""The loop of the front: asyncio's, with a selector that sends what a turn has gathered before it waits, and that itself
calls whoever reads and writes lines, since that is most of what happens."""

from __future__ import annotations

import asyncio
import select
import selectors
from collections.abc import Callable, Coroutine, Mapping
from operator import itemgetter
from time import monotonic
from typing import Any

READ, WRITE = selectors.EVENT_READ, selectors.EVENT_WRITE
IN, OUT = select.EPOLLIN, select.EPOLLOUT
HUNG_UP = select.EPOLLHUP | select.EPOLLERR  # what is told of a file whose other end takes nothing more; above IN and OUT
AT_ONCE = 256  # events that one turn takes; the others come in the next, in their order
FLAGS = itemgetter(1)  # of an event
Keys = list[tuple[selectors.SelectorKey, int]]
Read = Callable[[int], None]  # is given what the system says of the file
Write = Callable[[], None]


def number_of(file: Any) -> int:
    """The number of an open file, which may be given by itself."""
    return file if isinstance(file, int) else int(file.fileno())


def flags_of(events: int) -> int:
    """What epoll calls these events."""
    return (IN if events & READ else 0) | (OUT if events & WRITE else 0)


class TurnSelector(selectors.BaseSelector):
    """The system's epoll. `flush` is called before each wait, and may change what is waited for; where it says that it
    has more to do, there is no wait."""

    def __init__(self) -> None:
        self.flush: Callable[[], bool] = lambda: False
        self._epoll = select.epoll()
        self._keys: dict[int, selectors.SelectorKey] = {}
        self._calls: dict[int, tuple[Read | None, Write | None]] = {}
        self._is_wanted = False

    def watch(self, fd: int, read: Read | None, write: Write | None) -> None:
        """Calls these from now on, where the file can be read and written; where both are None, it isn't looked at."""
        flags = (IN if read else 0) | (OUT if write else 0)
        if fd not in self._calls:
            if flags:
                self._epoll.register(fd, flags)
        elif flags:
            self._epoll.modify(fd, flags)
        else:
            del self._calls[fd]
            self._epoll.unregister(fd)
        if flags:
            self._calls[fd] = read, write

    def give_way(self) -> None:
        """The loop has something new to do, as a timer that was set by one of those that watch."""
        self._is_wanted = True

    def register(self, fileobj: Any, events: int, data: Any = None) -> selectors.SelectorKey:
        """Waits for these events of a file from now on."""
        fd = number_of(fileobj)
        if fd in self._keys:
            raise KeyError(f"{fileobj} is registered already")
        self._epoll.register(fd, flags_of(events))
        key = self._keys[fd] = selectors.SelectorKey(fileobj, fd, events, data)
        return key

    def unregister(self, fileobj: Any) -> selectors.SelectorKey:
        """Waits for nothing of a file from now on."""
        key = self._keys.pop(number_of(fileobj))
        try:
            self._epoll.unregister(key.fd)
        except OSError:
            pass  # it was closed before
        return key

    def modify(self, fileobj: Any, events: int, data: Any = None) -> selectors.SelectorKey:
        """Waits for these events of a file in place of those before."""
        fd = number_of(fileobj)
        if self._keys[fd].events != events:
            self._epoll.modify(fd, flags_of(events))
        key = self._keys[fd] = selectors.SelectorKey(fileobj, fd, events, data)
        return key

    def select(self, timeout: float | None = None) -> Keys:
        """Sends what there is to be sent, waits, calls those who watch, and so on until something else has happened, the
        loop has something new to do, or the time is over."""
        end = None if timeout is None else monotonic() + timeout
        self._is_wanted = False
        while True:
            has_more = self.flush()
            events = self._epoll.poll(0 if has_more else timeout, AT_ONCE)
            if len(events) > 1:
                events.sort(key=FLAGS, reverse=True)  # hang-ups first, so that nothing more is begun for those
            found = self._called(events)
            if found or self._is_wanted or not (events or has_more):
                return found
            if end is not None:
                timeout = end - monotonic()
                if timeout <= 0:
                    return found

    def _called(self, events: list[tuple[int, int]]) -> Keys:
        """Calls those who watch, and gives what is for the loop. An error or a hang-up is told to whoever waits for
        anything."""
        found: Keys = []
        for fd, flags in events:
            calls = self._calls.get(fd)
            if calls is not None:
                read, write = calls
                if write is not None and flags != IN:
                    write()
                    read = self._calls.get(fd, (None, None))[0]
                if read is not None and flags != OUT:
                    read(flags)
            elif fd in self._keys:
                key = self._keys[fd]
                ready = (READ if flags & ~OUT else 0) | (WRITE if flags & ~IN else 0)
                found.append((key, ready & key.events))
        return found

    def get_key(self, fileobj: Any) -> selectors.SelectorKey:
        """What a file is waited for."""
        return self._keys[number_of(fileobj)]

    def get_map(self) -> Mapping[Any, selectors.SelectorKey]:
        """All files that are waited for."""
        return self._keys

    def close(self) -> None:
        """Waits for nothing any more."""
        self._epoll.close()
        self._keys.clear()


class Services:
    """Tasks that each serve one connection, and whose faults cost that one alone."""

    def __init__(self, loop: asyncio.AbstractEventLoop) -> None:
        self.loop = loop
        self.on_fault: Callable[[BaseException], None] = lambda fault: None
        self._tasks: set[asyncio.Task[None]] = set()

    def __len__(self) -> int:
        return len(self._tasks)

    def begin(self, way: Coroutine[Any, Any, None]) -> None:
        """Begins one."""
        task = self.loop.create_task(way)
        self._tasks.add(task)
        task.add_done_callback(self._is_done)

    def cancel(self) -> None:
        """Ends all of them."""
        for task in self._tasks:
            task.cancel()

    def _is_done(self, task: asyncio.Task[None]) -> None:
        self._tasks.discard(task)
        fault = None if task.cancelled() else task.exception()
        if fault is not None:
            self.on_fault(fault)


def new_loop() -> tuple[asyncio.SelectorEventLoop, TurnSelector]:
    """A loop and its selector."""
    selector = TurnSelector()
    return asyncio.SelectorEventLoop(selector), selector
