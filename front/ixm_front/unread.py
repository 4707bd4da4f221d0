"""The replies that clients haven't read, of all clients together."""

from __future__ import annotations

from .client import Client


class Unread:
    """Counts their bytes, by clients, of whom the first has waited longest."""

    def __init__(self, most: int) -> None:
        self.bytes = 0
        self._most = most
        self._of: dict[Client, int] = {}

    def set(self, client: Client, length: int) -> bool:
        """So many are a client's now. Gives whether all together are too many."""
        self.bytes += length - self._of.get(client, 0)
        if length:
            self._of[client] = length
        else:
            self._of.pop(client, None)
        return self.bytes > self._most

    def worst(self) -> Client | None:
        """Whom to cut off, where there are too many."""
        return next(iter(self._of)) if self.bytes > self._most and self._of else None
