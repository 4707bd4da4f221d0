"""What the journal's file holds, as `look` writes it down: the front may not read the journal. Behind a renewal that is less
than the history has."""

from __future__ import annotations

import threading
import time


def read_held(path: str) -> tuple[int, int] | None:
    """The records of actions and of boots that the file has; none where it doesn't tell them."""
    try:
        with open(path, encoding="ascii") as file:
            actions, boots = file.read().split()
        return int(actions), int(boots)
    except (OSError, ValueError):
        return None


class Held:
    """Reads it again and again, in a thread of its own, since its disk may be slow."""

    def __init__(self, path: str | None, every: float) -> None:
        self.found: tuple[int, int] | None = None
        if path is not None:
            threading.Thread(target=self._run, args=(path, every), name="held", daemon=True).start()

    def _run(self, path: str, every: float) -> None:
        while True:
            self.found = read_held(path)
            time.sleep(every)
