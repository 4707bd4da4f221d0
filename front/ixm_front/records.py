"""What the log tells: docs/front.md has the members of each record."""

from __future__ import annotations

import os
from collections import Counter

from .client import Client
from .log import Log, line_text, quoted
from .version import version
from .who import Who, cgroup_of, sees_all_users

LOGGED = frozenset((b"ask", b"confirm", b"cancel", b"stop"))
KINDS = 100  # of connections turned away that are told by themselves in one record each


class Records:
    """Gives the log its records, and their numbers back."""

    def __init__(self, log: Log, has_reads: bool) -> None:
        self.log = log
        self.has_reads = has_reads
        self._turned_away: Counter[tuple[str, str]] = Counter()

    def event(self, event: str, more: str = "", is_minor: bool = False) -> int:
        """Something that happened."""
        return self.log.write(f'"event": {quoted(event)}{", " if more else ""}{more}'.encode(), is_minor)

    def starts(self) -> None:
        """The front begins. Where it can't tell users apart, the log says so."""
        told = "true" if sees_all_users() else "false"
        self.event("front starts", f'"version": {quoted(version())}, "pid": {os.getpid()}, "sees_all_users": {told}')

    def connected(self, client: Client) -> None:
        """A client was let in."""
        who = client.who
        cgroup = f', "cgroup": {quoted(cgroup_of(who.pid))}' if who.pid else ""
        self.event("connected", client.text.decode() + cgroup, is_minor=True)

    def turned_away(self, limit: str, who: str) -> None:
        """A connection was closed at once. It is told with the next ones."""
        key = (limit, who)
        if key not in self._turned_away and len(self._turned_away) >= KINDS:
            key = (limit, '"others": true')
        self._turned_away[key] += 1

    def tell_turned_away(self) -> None:
        """Tells of those that were turned away, each kind once."""
        for (limit, who), count in self._turned_away.items():
            self.event("turned away", f'"limit": {quoted(limit)}, {who}, "count": {count}')
        self._turned_away.clear()

    def closed(self, client: Client, cause: str, line: bytes | None) -> None:
        """The front closed a connection."""
        request = "" if line is None else f', "request": {line_text(line).decode()}'
        self.event("closed", f'{client.text.decode()}, "cause": {quoted(cause)}{request}')

    def sends(self, client: Client, line: bytes) -> int:
        """A line is about to be sent."""
        return self.event("sends", f'{client.text.decode()}, "request": {line_text(line).decode()}')

    def answered(self, client: Client, verb: bytes, line: bytes, reply: bytes, took: float, why: str) -> int:
        """A client's line has its reply; 0 where such a line isn't logged."""
        is_read = verb not in LOGGED
        if is_read:
            if not why and not (self.has_reads and verb != b"front"):
                return 0
            reply = reply.partition(b"\n")[0]
        denied = b', "denied": "%b"' % why.encode() if why else b""
        return self.log.write(b'%b, "request": %b, "reply": %b, "ms": %.3f%b' % (
            client.text, line_text(line), line_text(reply), took * 1000, denied), is_read)

    def own(self, line: bytes, reply: bytes) -> None:
        """A line of the front's own that gave something up has its reply."""
        self.log.write(b'"front": %d, "request": %b, "reply": %b' % (os.getpid(), line_text(line), line_text(reply)))


def told(who: Who) -> str:
    """Whoever was turned away, as a record tells it. The process is left out: there may be many."""
    return who.text if who.name else f'"uid": {who.uid}, "gid": {who.gid}, "pid": {who.pid}'
