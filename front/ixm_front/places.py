"""How many connections there may be: of all, of one user, of one process, and some that are kept free."""

from __future__ import annotations

from collections import Counter
from typing import TypeVar

from .options import Options
from .who import Who

Key = TypeVar("Key", str, int)


class Places:
    """Counts connections. A process of another namespace has no number here, so it counts by its user alone."""

    def __init__(self, options: Options) -> None:
        self._all = options.clients
        self._user = options.places_of_a_user()
        self._each = options.each
        self._common = options.clients - options.places_kept()  # behind these, only for users that have none
        self._taken = 0
        self._users: Counter[str] = Counter()
        self._processes: Counter[int] = Counter()

    def take(self, who: Who) -> str | None:
        """Takes a place, or gives the limit that is reached."""
        has = self._users[who.key]
        if self._taken >= self._all or (has and self._taken >= self._common):
            return "clients"
        if has >= self._user:
            return "user"
        if who.pid and self._processes[who.pid] >= self._each:
            return "process"
        self._taken += 1
        self._users[who.key] += 1
        if who.pid:
            self._processes[who.pid] += 1
        return None

    def give(self, who: Who) -> None:
        """Gives a place back."""
        self._taken -= 1
        count_down(self._users, who.key)
        count_down(self._processes, who.pid)


def count_down(counts: Counter[Key], key: Key) -> None:
    """Counts one less, and forgets what is none."""
    if counts[key] > 1:
        counts[key] -= 1
    else:
        counts.pop(key, None)
