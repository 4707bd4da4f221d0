"""How many asks each user may bring in a second."""

from __future__ import annotations

from collections import OrderedDict, deque

SECOND = 1.0


class Pace:
    """When the asks of the last second came that were let through, by whose they are."""

    def __init__(self) -> None:
        self._came: OrderedDict[str, deque[float]] = OrderedDict()  # whoever was let through last is last

    def __len__(self) -> int:
        return len(self._came)

    def refused_until(self, user: str, most: int, now: float) -> float | None:
        """Lets an ask of this user through that comes now, unless so many were within the second before. Gives None where
        it is let through, and else when the next one will be."""
        self._forget(now - SECOND)
        came = self._came.get(user)
        if came is None:
            came = self._came[user] = deque()
        while came and came[0] <= now - SECOND:
            came.popleft()
        if len(came) >= most:
            return came[-most] + SECOND
        came.append(now)
        self._came.move_to_end(user)
        return None

    def _forget(self, before: float) -> None:
        """Forgets the users none of whose asks came behind this moment."""
        while self._came:
            user, came = next(iter(self._came.items()))
            if came[-1] > before:
                break
            del self._came[user]
