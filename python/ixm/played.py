"""A manager that is played, for tests of engines: nothing of it is proved, and nothing is kept on a
disk.

    machine = Machine()
    with Played(folder + "/socket", Faulty(machine, lambda number, line: LOST if number == 3 else None)):
        Engine(folder + "/socket", "e").do("call(anna,xray)")
    assert machine.actions == ["call(anna,xray)"]

`Machine` answers as docs/protocol.md says, under rules that are a function. `Faulty` loses what it
will on the way to a machine, and `Rows` answers by a table. `Played` puts any of them behind a
socket, as one connection after the other.
"""

import contextlib
import os
import re
import socket
import ssl
import threading
import time
from collections.abc import Callable
from dataclasses import dataclass
from types import TracebackType
from typing import Protocol

from ixm.protocol import is_number, is_ticket

_WORD = "[A-Za-z][A-Za-z0-9_]{0,31}"
ACTION = re.compile(rf"{_WORD}(\([A-Za-z0-9_]{{1,32}}(,[A-Za-z0-9_]{{1,32}}){{0,3}}\))?")
NAME = re.compile(_WORD)

# Whether an action may come after those of the history.
Permits = Callable[[list[str], str], bool]


@dataclass
class _Reservation:
    ticket: str
    action: str
    deadline: int


class Machine:
    """A manager in memory. `permits` are its rules, and `clock` gives the milliseconds; everything
    is permitted and the time is real if they aren't given."""

    def __init__(self, permits: Permits = lambda history, action: True, clock: Callable[[], int] | None = None) -> None:
        self.permits = permits
        self.clock = clock or (lambda: time.time_ns() // 1_000_000)
        self.history: list[tuple[str, str]] = []  # tickets and actions
        self.boots, self.last = 1, 0
        self.left_out, self.left_boots = 0, 0  # actions and boots that a renewed journal doesn't tell
        self.reserved: _Reservation | None = None
        self.watched: dict[tuple[str, str], bool] = {}

    @property
    def actions(self) -> list[str]:
        return [action for _, action in self.history]

    def restart(self) -> None:
        """What a start on the same journal leaves: the history alone."""
        self.boots, self.last, self.reserved, self.watched = self.boots + 1, 0, None, {}

    def renew(self) -> None:
        """What a start on the renewed journal leaves: nobody is told any more of the history so far."""
        self.left_out, self.left_boots = len(self.history), self.boots
        self.restart()

    def answer(self, line: str) -> list[str]:
        """The lines of the reply."""
        first, *words = line.split(" ")
        if first not in _REQUESTS:
            return ["refused 11 word"]
        kinds, handle = _REQUESTS[first]
        if len(words) != len(kinds):
            return ["refused 15 words"]
        for kind, word in zip(kinds, words):
            if refusal := kind(word):
                return [refusal]
        return handle(self, *words)

    def ask(self, action: str, lease: str) -> list[str]:
        now = self.clock()
        if self.reserved is not None and now < self.reserved.deadline:
            return [f"refused 20 busy until {self.reserved.deadline}"]
        self.reserved = None
        if not self.permits(self.actions, action):
            return ["refused 21 not permitted"]
        self.last += 1
        self.reserved = _Reservation(f"{self.boots}-{self.last}", action, now + int(lease))
        return [f"granted {self.reserved.ticket}"]

    def take(self, ticket: str) -> str | None:
        """The refusal of a confirm or a cancel, or None: the reservation is used up."""
        if self.reserved is None or self.reserved.ticket != ticket:
            return "refused 30 no such ticket"
        if self.clock() >= self.reserved.deadline:
            return "refused 31 expired"
        return None

    def confirm(self, ticket: str) -> list[str]:
        refusal, reserved = self.take(ticket), self.reserved
        if refusal is not None or reserved is None:
            return [refusal or ""]
        self.history.append((ticket, reserved.action))
        self.reserved = None
        return [f"confirmed {len(self.history)}"]

    def cancel(self, ticket: str) -> list[str]:
        refusal = self.take(ticket)
        if refusal is None:
            self.reserved = None
        return [refusal or f"cancelled {ticket}"]

    def outcome(self, ticket: str) -> list[str]:
        boot, number = map(int, ticket.split("-"))
        tickets = [it for it, _ in self.history[self.left_out:]]
        if ticket in tickets:
            return [f"outcome confirmed {self.left_out + tickets.index(ticket) + 1}"]
        if boot == 0 or number == 0 or (boot, number) > (self.boots, self.last if boot == self.boots else number):
            return ["refused 30 no such ticket"]
        if boot <= self.left_boots:
            return ["refused 32 left out"]
        is_open = self.reserved is not None and self.reserved.ticket == ticket and self.take(ticket) is None
        return ["outcome open" if is_open else "outcome never"]

    def may(self, action: str) -> list[str]:
        return ["yes" if self.permits(self.actions, action) else "no"]

    def watch(self, name: str, action: str) -> list[str]:
        self.watched[name, action] = self.permits(self.actions, action)
        return [f"watching {'yes' if self.watched[name, action] else 'no'}"]

    def drop(self, name: str, action: str) -> list[str]:
        return ["refused 41 no such watch" if self.watched.pop((name, action), None) is None else "dropped"]

    def poll(self, name: str) -> list[str]:
        now = {key: self.permits(self.actions, key[1]) for key in self.watched if key[0] == name}
        changed = [f"{'yes' if it else 'no'} {key[1]}" for key, it in now.items() if it != self.watched[key]]
        self.watched.update(now)
        return [f"changes {len(changed)}", *changed]

    def status(self) -> list[str]:
        return [f"status partial {len(self.history)} nodes 1"]

    def log(self, number: str) -> list[str]:
        if not 1 <= int(number) <= len(self.history):
            return ["refused 42 no such entry"]
        if int(number) <= self.left_out:
            return ["refused 33 left out"]
        return [f"entry {number} {self.actions[int(number) - 1]}"]

    def stop(self) -> list[str]:
        return ["stopping"]


def _refused(holds: Callable[[str], object], refusal: str) -> Callable[[str], str]:
    return lambda word: "" if holds(word) else refusal


def _lease(word: str) -> str:
    if not is_number(word):
        return "refused 13 number"
    return "" if 1 <= int(word) <= 86400000 else "refused 14 lease"


_action, _name = _refused(ACTION.fullmatch, "refused 12 action"), _refused(NAME.fullmatch, "refused 16 name")
_ticket, _number = _refused(is_ticket, "refused 13 number"), _refused(is_number, "refused 13 number")
_REQUESTS: dict[str, tuple[list[Callable[[str], str]], Callable[..., list[str]]]] = {
    "ask": ([_action, _lease], Machine.ask), "confirm": ([_ticket], Machine.confirm),
    "cancel": ([_ticket], Machine.cancel), "outcome": ([_ticket], Machine.outcome), "may": ([_action], Machine.may),
    "watch": ([_name, _action], Machine.watch), "drop": ([_name, _action], Machine.drop),
    "poll": ([_name], Machine.poll), "status": ([], Machine.status), "log": ([_number], Machine.log),
    "stop": ([], Machine.stop),
}


@dataclass(frozen=True)
class Fate:
    """What becomes of one line: whether it is handled, what is sent in place of its reply, whether
    that ends the connection, and whether the manager was started again meanwhile."""

    is_handled: bool = True
    sends: bytes | None = None
    closes: bool = False
    restarts: bool = False
    waits: float = 0.0  # seconds before anything is sent


LOST = Fate(is_handled=False, sends=b"", closes=True)  # on the way to the manager
UNHEARD = Fate(sends=b"", closes=True)  # on the way back
KILLED = Fate(is_handled=False, sends=b"", closes=True, restarts=True)  # the manager, before it handled the line
KILLED_BEHIND = Fate(sends=b"", closes=True, restarts=True)  # the manager, after it


class Plays(Protocol):
    """What answers behind a socket."""

    def begin(self) -> None:
        """A connection is there."""

    def answer(self, line: str) -> Fate:
        """What is sent for a line; `sends` isn't None."""

    def end(self) -> None:
        """The client closed its connection, or its last line did."""


class Faulty:
    """A machine, and what becomes of each line on its way to it and back: `fate` is given the
    number of the line, from 1, and the line; None says that nothing is wrong. `heard` has each line
    with what was sent."""

    def __init__(self, machine: Machine, fate: Callable[[int, str], Fate | None] = lambda number, line: None) -> None:
        self.machine, self.fate = machine, fate
        self.heard: list[tuple[str, bytes]] = []

    def begin(self) -> None:
        pass

    def answer(self, line: str) -> Fate:
        fate = self.fate(len(self.heard) + 1, line) or Fate()
        reply = self.machine.answer(line) if fate.is_handled else []
        if fate.restarts:
            self.machine.restart()
        sends = fate.sends if fate.sends is not None else "".join(it + "\n" for it in reply).encode()
        self.heard.append((line, sends))
        return Fate(sends=sends, closes=fate.closes, waits=fate.waits)

    def end(self) -> None:
        pass


CLOSE, SILENCE = "close", "silence"


class Rows:
    """Answers by a table: one row for each connection, and in it each line that has to come with
    its reply. `CLOSE` in place of a reply closes the connection, and `SILENCE` waits until the
    client does. `faults` tells what came instead.
    """

    def __init__(self, rows: list[list[tuple[str, str]]]) -> None:
        self.rows, self.faults = list(rows), list[str]()
        self.row: list[tuple[str, str]] = []

    def begin(self) -> None:
        if not self.rows:
            self.faults.append("more connections than rows")
        self.row = list(self.rows.pop(0)) if self.rows else []

    def answer(self, line: str) -> Fate:
        wanted, reply = self.row.pop(0) if self.row else ("nothing", CLOSE)
        if line != wanted:
            self.faults.append(f"{line!r} in place of {wanted!r}")
            return LOST
        if reply == SILENCE:
            return Fate(sends=b"")
        return LOST if reply == CLOSE else Fate(sends=reply.encode() + b"\n")

    def end(self) -> None:
        if self.row:
            self.faults.append(f"{self.row[0][0]!r} didn't come")


class Played(contextlib.AbstractContextManager["Played"]):
    """A thread with a socket, at which `plays` answers one connection after the other. `path` is
    that of a Unix socket, or a host, on whose `port` it listens then, over `tls` if that is given.
    At the end of the block it doesn't listen."""

    def __init__(self, path: str, plays: Plays, *, is_far: bool = False, tls: ssl.SSLContext | None = None) -> None:
        self.path, self.plays, self.tls = path, plays, tls
        self.listener = socket.socket(socket.AF_INET if is_far else socket.AF_UNIX)
        self.listener.bind((path, 0) if is_far else path)
        self.port: int = self.listener.getsockname()[1] if is_far else 0
        self.listener.listen()
        self.client: socket.socket | None = None
        self.is_over = False
        self.thread = threading.Thread(target=self._run, daemon=True)
        self.thread.start()

    def __exit__(
        self, kind: type[BaseException] | None, error: BaseException | None, trace: TracebackType | None
    ) -> None:
        self.close()

    def close(self) -> None:
        self.is_over = True
        for it in (self.listener, self.client):
            if it is not None:
                with contextlib.suppress(OSError):
                    it.shutdown(socket.SHUT_RDWR)  # wakes who waits there
        self.thread.join()
        self.listener.close()
        if not self.port:
            os.remove(self.path)

    def _run(self) -> None:
        while not self.is_over:
            with contextlib.suppress(OSError):
                accepted, _ = self.listener.accept()
                with accepted if self.tls is None else self.tls.wrap_socket(accepted, server_side=True) as client:
                    self.client = client
                    self._serve(client)

    def _serve(self, client: socket.socket) -> None:
        self.plays.begin()
        with client.makefile("rb") as lines:
            for line in lines:
                fate = self.plays.answer(line.decode("ascii", "backslashreplace").removesuffix("\n"))
                time.sleep(fate.waits)
                client.sendall(fate.sends or b"")
                if fate.closes:
                    break
        self.plays.end()
