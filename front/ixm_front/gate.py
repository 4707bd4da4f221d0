"""What waits until the log has it."""

from __future__ import annotations

import asyncio
from collections import deque
from collections.abc import Callable

from .log import Log


class Gate:
    """Does things once a record is written, in the order in which they were given."""

    def __init__(self, log: Log, loop: asyncio.AbstractEventLoop, is_opened: Callable[[], None]) -> None:
        self._log = log
        self._loop = loop
        self._is_opened = is_opened  # is called behind what was done
        self._waiting: deque[tuple[int, Callable[[], None]]] = deque()
        if log.is_must:
            log.on_written = self._is_written

    def __len__(self) -> int:
        return len(self._waiting)

    def once_written(self, number: int, action: Callable[[], None]) -> None:
        """Does this at once where the record of this number is written, and else later."""
        if number <= self._log.written.number:
            action()
        else:
            self._waiting.append((number, action))

    def _is_written(self, number: int) -> None:
        """The log's thread has written up to this record."""
        if not self._loop.is_closed():
            self._loop.call_soon_threadsafe(self._do, number)

    def _do(self, number: int) -> None:
        while self._waiting and self._waiting[0][0] <= number:
            self._waiting.popleft()[1]()
        self._is_opened()
