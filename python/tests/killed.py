"""An engine that brings one action about, and kills itself at a step. Its steps lie before and
behind each call by which something of it gets outside: each line that is sent, each reply that is
read, and each call on the disk."""

import os
import signal
from collections.abc import Callable
from multiprocessing.connection import Connection
from typing import Any

from ixm import link
from ixm.engine import Engine, FileStore, SqliteStore, Store


class Steps:
    def __init__(self, last: int) -> None:
        self.count, self.last = 0, last

    def step(self) -> None:
        self.count += 1
        if self.count == self.last:
            os.kill(os.getpid(), signal.SIGKILL)

    def around(self, call: Callable[..., Any]) -> Callable[..., Any]:
        """The call, with a step before and one behind it."""

        def stepped(*words: Any, **named: Any) -> Any:
            self.step()
            result = call(*words, **named)
            self.step()
            return result

        return stepped


def main(path: str, store: str, action: str, lease: int, step: int, told: Connection) -> None:
    """Tells the action's number. `store` is `KIND:PLACE`; step 0 never comes."""
    steps = Steps(step)
    kind, _, place = store.partition(":")
    kept: Store = FileStore(place)
    if kind == "sqlite":
        kept = SqliteStore(place, "activity")
    for owner, name in ((link.Connection, "request"), (link.Connection, "read_line"), (os, "fsync"), (os, "replace"),
                        (type(kept), "load"), (type(kept), "swap"), (SqliteStore, "_record")):
        setattr(owner, name, steps.around(getattr(owner, name)))
    told.send(Engine(path, "killed", lease=lease, pause=0.05).activity(action, store=kept))
