"""Who may do what: the lines of the policy's file, and whose tickets and names of watches are whose."""

from __future__ import annotations

import grp
import pwd
import re
import time
from collections import OrderedDict
from dataclasses import dataclass
from time import monotonic
from typing import Protocol

from . import protocol
from .client import Client
from .pace import Pace
from .protocol import ACTION_AT, LONGEST, MOST_ASKS, REQUESTS, SPENDING, number, word
from .who import Who

WHO = ("user", "group", "cert", "anybody")
LIMITS = {"lease": range(LONGEST + 1), "watches": range(4097), "asks": range(1, MOST_ASKS + 1)}  # the numbers of a line
MILLI = 0.001  # seconds: a reply names whole milliseconds, so that whoever waits for that one isn't too early
TICKETS = 1000  # of which it is remembered who got them: the manager has one open at a time
PATTERN = re.compile(r"([A-Za-z][A-Za-z0-9_]{0,31})(?:\((\$?[A-Za-z0-9_]{1,32}(?:,\$?[A-Za-z0-9_]{1,32}){0,3})\))?")


class PolicyFault(Exception):
    """The file can't be read, or a line of it has a fault."""


@dataclass(frozen=True)
class Permission:
    """One line of the file."""

    kind: str  # one of WHO
    one: int | str  # the user's or the group's number, or the certificate's name
    requests: frozenset[bytes]
    actions: re.Pattern[bytes]
    lease: int  # milliseconds at most
    watches: int | None  # at most; none: as for everybody
    asks: int | None  # the same, within a second

    def is_for(self, who: Who) -> bool:
        """Whether the line speaks of them."""
        if self.kind == "cert":
            return bool(who.name) and who.name == self.one
        if who.name:
            return self.kind == "anybody"
        return self.kind == "anybody" or (who.uid == self.one if self.kind == "user" else self.one in who.groups)


@dataclass(frozen=True)
class Policy:
    """What the file says: whatever one of its lines permits is permitted."""

    lines: tuple[Permission, ...]


def pattern_of(text: str) -> str:
    """The regular expression of a pattern: `*` for any action, or an action with `$x` where any value may stand."""
    if text == "*":
        return "(?s:.*)"
    parts = PATTERN.fullmatch(text)
    if parts is None:
        raise PolicyFault(f"{text} is no pattern of actions")
    name, values = parts.groups()
    return name if values is None else rf"{name}\({','.join(map(value_of, values.split(',')))}\)"


def value_of(text: str) -> str:
    """The regular expression of a value of a pattern."""
    return "[A-Za-z0-9_]+" if text.startswith("$") else text


def one_of(kind: str, name: str) -> int | str:
    """The number of a user or a group that is named or numbered, or a certificate's name as it stands."""
    if kind == "cert":
        return name
    if name.isdigit():
        return int(name)
    try:
        return pwd.getpwnam(name).pw_uid if kind == "user" else grp.getgrnam(name).gr_gid
    except KeyError:
        raise PolicyFault(f"there is no {kind} {name}") from None


def clauses_of(words: list[str]) -> dict[str, list[str]]:
    """The words behind each of the key words."""
    clauses: dict[str, list[str]] = {}
    for each in words:
        if each in ("requests", "actions", *LIMITS):
            if each in clauses:
                raise PolicyFault(f"`{each}` stands there twice")
            clauses[each] = []
        elif not clauses:
            raise PolicyFault(f"{each} in place of `requests`, `actions`, `lease`, `watches` or `asks`")
        else:
            clauses[list(clauses)[-1]].append(each)
    return clauses


def limit_of(clauses: dict[str, list[str]], key: str) -> int | None:
    """The number behind a key word, none where that isn't there."""
    if key not in clauses:
        return None
    words, bounds = clauses[key], LIMITS[key]
    value = number(words[0].encode()) if len(words) == 1 else None
    if value is None or value not in bounds:
        raise PolicyFault(f"`{key}` wants one number from {bounds[0]} to {bounds[-1]}")
    return value


def permission_of(line: str) -> Permission:
    """What a line of the file says."""
    kind, *words = line.split()
    if kind not in WHO:
        raise PolicyFault(f"{kind} in place of `user`, `group`, `cert` or `anybody`")
    one: int | str = ""
    if kind != "anybody":
        if not words:
            raise PolicyFault(f"`{kind}` wants a name")
        one = one_of(kind, words.pop(0))
    clauses = clauses_of(words)
    requests = frozenset(" ".join(clauses.get("requests", [])).replace(",", " ").encode().split())
    if requests == {b"all"}:
        requests = REQUESTS
    unknown = sorted(requests - REQUESTS)
    if not requests or unknown:
        raise PolicyFault(f"`requests` wants requests, or `all`{': ' + unknown[0].decode() if unknown else ''}")
    actions = clauses.get("actions", [])
    if requests & ACTION_AT.keys() and not actions:
        raise PolicyFault("`actions` is wanted: patterns, or *")
    pattern = re.compile("|".join(map(pattern_of, actions)).encode() or b"(?!)")
    lease = limit_of(clauses, "lease")
    return Permission(kind, one, requests, pattern, LONGEST if lease is None else lease,
                      limit_of(clauses, "watches"), limit_of(clauses, "asks"))


def read_policy(path: str) -> Policy:
    """The policy that a file tells. A PolicyFault names the first line with a fault."""
    try:
        with open(path, encoding="ascii") as file:
            text = file.read()
    except (OSError, ValueError) as error:
        raise PolicyFault(f"{path}: {error}") from None
    lines = []
    for place, line in enumerate(text.split("\n"), 1):
        line = line.partition("#")[0].strip()
        try:
            if line:
                lines.append(permission_of(line))
        except PolicyFault as fault:
            raise PolicyFault(f"{path}:{place}: {fault}") from None
    return Policy(tuple(lines))


class Names(Protocol):
    """What is known of the watches."""

    def owner_of(self, name: bytes) -> str | None:
        """Whose name it is; none where nothing is watched under it."""

    def is_watched(self, name: bytes, action: bytes) -> bool:
        """Whether the pair is watched."""

    def count_of(self, owner: str) -> int:
        """How many watches somebody has."""


@dataclass(frozen=True)
class Refusal:
    """A reply by which the front refuses a line, and why, for the log."""

    reply: bytes
    why: str


class Rights:
    """Decides what is refused before the manager hears of it: by the limits for everybody, and by the policy where
    there is one."""

    def __init__(self, policy: Policy | None, names: Names, lease: int, watches: int, asks: int) -> None:
        self.policy = policy
        self.names = names
        self.lease = lease
        self.watches = watches
        self.asks = asks
        self._pace = Pace()
        self._tickets: OrderedDict[bytes, str] = OrderedDict()  # whose they are

    def granted(self, ticket: bytes, who: Who) -> None:
        """They got this ticket."""
        if self.policy is None:
            return
        self._tickets[ticket] = who.key
        if len(self._tickets) > TICKETS:
            self._tickets.popitem(last=False)

    def tickets(self) -> list[tuple[str, str]]:
        """Whose the tickets are, the oldest first."""
        return [(ticket.decode("ascii"), key) for ticket, key in self._tickets.items()]

    def go_on(self, tickets: list[tuple[str, str]]) -> None:
        """The front of before knew whose these are."""
        self._tickets.update((ticket.encode(), key) for ticket, key in tickets)

    def refusal(self, client: Client, verb: bytes, line: bytes) -> Refusal | None:
        """How a line is refused here; none where the manager decides."""
        permissions: tuple[Permission, ...] | None = None
        if self.policy is None:
            if verb in SPENDING or (verb == b"ask" and self.lease == LONGEST and self.asks == MOST_ASKS):
                return None  # as most are
        elif verb in REQUESTS:
            permissions = tuple(each for each in self._of(client, self.policy) if verb in each.requests)
            if not permissions:
                return Refusal(protocol.NO_SUCH_WORD, "request")
        if verb in ACTION_AT:
            refused = self._of_action(client, verb, line.split(b" "), permissions)
            return self._of_pace(client, permissions) if refused is None and verb == b"ask" else refused
        if permissions is not None:
            return self._of_name(client, verb, line)
        return None

    def _of(self, client: Client, policy: Policy) -> tuple[Permission, ...]:
        """The lines of the policy that speak of a client."""
        if client.rights_of is not policy:
            client.rights = tuple(each for each in policy.lines if each.is_for(client.who))
            client.rights_of = policy
        return client.rights

    def _of_action(self, client: Client, verb: bytes, words: list[bytes],
                   permissions: tuple[Permission, ...] | None) -> Refusal | None:
        """Of a request that names an action. A line of another form goes to the manager, which refuses it."""
        if len(words) != (2 if verb == b"may" else 3):
            return None
        action, lease = words[ACTION_AT[verb]], self.lease
        if permissions is not None:
            permissions = tuple(each for each in permissions if each.actions.fullmatch(action))
            if not permissions:
                reply = {b"ask": protocol.NOT_PERMITTED, b"may": protocol.NO, b"watch": protocol.WATCHES_FULL,
                         b"drop": protocol.NO_SUCH_WATCH}[verb]
                return Refusal(reply, "action")
            lease = min(lease, max(each.lease for each in permissions))
        if verb == b"ask":
            millis = number(words[2])
            return Refusal(protocol.LONG_LEASE, "lease") if millis is not None and millis > lease else None
        if verb == b"may":
            return None
        return self._of_watch(client, verb, words[1], action, permissions)

    def _of_pace(self, client: Client, permissions: tuple[Permission, ...] | None) -> Refusal | None:
        """Of an ask that nothing else refuses: a user has the largest number that a line says by which it may ask."""
        most = self.asks
        if permissions is not None:
            most = max(most if each.asks is None else each.asks for each in permissions)
        now = monotonic()
        until = self._pace.refused_until(client.who.key, most, now) if most < MOST_ASKS else None
        return None if until is None else Refusal(protocol.busy(time.time() + until - now + MILLI), "asks")

    def _of_watch(self, client: Client, verb: bytes, name: bytes, action: bytes,
                  permissions: tuple[Permission, ...] | None) -> Refusal | None:
        """Of a watch and a drop."""
        key, most = client.who.key, self.watches
        if permissions is not None:
            if self.names.owner_of(name) not in (None, key):
                return Refusal(protocol.WATCHES_FULL if verb == b"watch" else protocol.NO_SUCH_WATCH, "name")
            most = max(most if each.watches is None else each.watches for each in permissions)
        if verb == b"watch" and not self.names.is_watched(name, action) and self.names.count_of(key) >= most:
            return Refusal(protocol.WATCHES_FULL, "watches")
        return None

    def _of_name(self, client: Client, verb: bytes, line: bytes) -> Refusal | None:
        """Of what belongs to whoever got it: a ticket, and a name of watches."""
        if line.count(b" ") != 1:
            return None
        key, named = client.who.key, word(line, 1)
        if verb in SPENDING and self._tickets.get(named) != key:
            return Refusal(protocol.NO_SUCH_TICKET, "ticket")
        if verb == b"poll" and self.names.owner_of(named) not in (None, key):
            return Refusal(protocol.NOTHING_CHANGED, "name")
        return None
