"""The live view: a page of HTML that never changes, and what it asks for again and again, as JSON.

It tells what went through the front, and costs the manager nothing that it isn't asked anyway, but for the names of actions
that were confirmed before the front's start or past it, where the view shows names."""

from __future__ import annotations

import base64
import hashlib
import json
import os
import re
import time
from collections import deque
from dataclasses import dataclass
from functools import cache

from .protocol import word
from .request import ClientLine

HERE = os.path.dirname(os.path.realpath(__file__))
LAST = 10  # actions that are shown
FIRST = 20  # asks that are shown, of those that wait
INLINE = re.compile(r"<(style|script)>(.*?)</\1>", re.DOTALL)


@cache
def screen() -> str:
    """The page."""
    with open(f"{HERE}/view.html", encoding="ascii") as file:
        return file.read()


@cache
def screen_policy() -> str:
    """What a browser may do for that page: run and use what stands in it, and ask the front, and nothing else."""
    hashes = {kind: base64.b64encode(hashlib.sha256(text.encode()).digest()).decode()
              for kind, text in INLINE.findall(screen())}
    return (f"default-src 'none'; script-src 'sha256-{hashes['script']}'; style-src 'sha256-{hashes['style']}'; "
            "connect-src 'self'; img-src data:; base-uri 'none'; form-action 'none'; frame-ancestors 'none'")


def shown(line: bytes, place: int) -> str:
    """A word of a line as text: bytes that aren't ASCII as \\xNN."""
    return word(line, place).decode("ascii", "backslashreplace")


@dataclass(slots=True)
class Granted:
    """A ticket, and the ask that it was granted for."""

    ticket: bytes
    ask: ClientLine

    def action_of(self, ticket: bytes) -> str | None:
        """The action that this ticket is for, where it is this one."""
        return shown(self.ask.line, 1) if ticket == self.ticket else None


@dataclass(frozen=True)
class Done:
    """An action of the history as the view shows it; what isn't known is None."""

    number: int
    at: float | None
    by: str | None
    action: str | None


@dataclass(frozen=True)
class Asked:
    """A reservation, or an ask that waits."""

    by: str | None
    since: float
    action: str | None
    ends: float | None = None


@dataclass(frozen=True)
class Seen:
    """What the view shows of this moment; what isn't known is None."""

    is_well: bool
    manager: str
    reservation: Asked | None
    waiting: list[Asked]  # the first of them
    waiting_count: int
    last: list[Done]  # the newest first
    counts: dict[str, tuple[int | None, int]]  # with their limits

    def text(self, shows_actions: bool) -> str:
        """All of it as JSON. Actions may name patients, so their names are there only where they are to be shown."""
        now = {"moment": time.time(), "shows_actions": shows_actions, "is_well": self.is_well, "manager": self.manager,
               "reservation": told(self.reservation, shows_actions),
               "waiting": {"count": self.waiting_count, "first": [told(each, shows_actions) for each in self.waiting]},
               "last": [told(each, shows_actions) for each in self.last], "counts": self.counts}
        return json.dumps(now)


def told(one: Asked | Done | None, shows_actions: bool) -> dict[str, object] | None:
    """One row; without the action where that isn't to be shown."""
    if one is None:
        return None
    members = dict(vars(one))
    if not shows_actions:
        del members["action"]
    return members


class Recent:
    """The last actions, as far as they are known."""

    def __init__(self) -> None:
        self._done: deque[tuple[int, float, ClientLine, Granted | None]] = deque(maxlen=LAST)  # moments of the loop's clock
        self._named: dict[int, str] = {}  # those of others, by their numbers

    def confirmed(self, number: int, now: float, confirm: ClientLine, granted: Granted | None) -> None:
        """A client's line confirmed the action of this number. `granted` is the last grant that went through the front."""
        self._done.append((number, now, confirm, granted))

    def lacks(self, history: int) -> list[int]:
        """The numbers of the last actions of a history of this length whose names aren't known."""
        if any(number > history for number, *_ in self._done):
            self._done.clear()  # it is another history
        if any(number > history for number in self._named):
            self._named.clear()
        return [done.number for done in self.last(history) if done.action is None]

    def named(self, number: int, action: bytes) -> None:
        """The manager said what the action of this number is."""
        self._named = {known: name for known, name in self._named.items() if known > number - LAST}
        self._named[number] = action.decode("ascii", "backslashreplace")

    def last(self, history: int, start: float = 0.0) -> list[Done]:
        """The last actions of a history of this length, the newest first. The loop's clock began at `start`."""
        done = {number: Done(number, None, None, self._named.get(number))
                for number in range(history, max(0, history - LAST), -1)}
        for number, at, confirm, granted in self._done:
            if number in done:
                action = None if granted is None else granted.action_of(confirm.rest)
                done[number] = Done(number, start + at, confirm.client.who.key, action or done[number].action)
        return list(done.values())
