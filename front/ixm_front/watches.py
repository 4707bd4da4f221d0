"""What is watched, so that it can be watched again by the manager's next run, and whose it is."""

from __future__ import annotations

from collections import Counter
from dataclasses import dataclass, field
from time import monotonic

from .client import Client
from .protocol import word
from .request import ClientLine

YES = {b"yes": True, b"no": False}


@dataclass(slots=True)
class Watch:
    """What was last told of a watched action: to its client, and by the run that is there now."""

    told: bool
    run: bool


@dataclass(slots=True)
class Name:
    """A name under which something is watched."""

    client: Client  # who used it last
    used: float  # when
    owner: str  # whose it is, by the first who used it
    actions: dict[bytes, Watch] = field(default_factory=dict)  # in the order in which they were first watched
    is_behind: bool = False  # its client was last told something else than this run told
    is_lost: bool = False  # the next run refused one of its watches


class Watches:
    """The watches that a run of the manager has by what it replied: at most as many as it allows, 4,096.

    As long as one run answers, each reply goes through as it came. Behind a restart the next run is asked to watch the
    same again, and tells only what changes from then on. What changed before that for a client is told in its next
    poll, which is then made here: it is what a run would reply that had kept its watches."""

    def __init__(self) -> None:
        self._names: dict[bytes, Name] = {}
        self._order: dict[tuple[bytes, bytes], None] = {}  # all pairs, in the order in which they were first watched
        self._counts: Counter[str] = Counter()  # by whose they are

    def __len__(self) -> int:
        return len(self._order)

    def owner_of(self, name: bytes) -> str | None:
        """Whose name it is; none where nothing is watched under it."""
        known = self._names.get(name)
        return None if known is None else known.owner

    def is_watched(self, name: bytes, action: bytes) -> bool:
        """Whether the pair is watched."""
        return (name, action) in self._order

    def count_of(self, owner: str) -> int:
        """How many watches somebody has."""
        return self._counts[owner]

    def lines(self) -> list[bytes]:
        """The lines that set all of them again, in their order."""
        return [b"watch %b %b" % pair for pair in self._order]

    def forget(self, seconds: float) -> list[bytes]:
        """Forgets the names whose last client is gone and that nobody has used for so long; gives the lines that drop
        what was watched under them."""
        before = monotonic() - seconds
        old = [name for name, known in self._names.items() if known.client.is_closed and known.used < before]
        lines = []
        for name in old:
            for action in list(self._names[name].actions):
                lines.append(b"drop %b %b" % (name, action))
                self._remove(name, action)
            self._names.pop(name, None)
        return lines

    def set_again(self, line: bytes, reply: bytes) -> None:
        """The reply to a line that set one of them again."""
        name, action = word(line, 1), word(line, 2)
        known = self._names.get(name)
        if known is None or action not in known.actions:
            return
        answer = YES.get(word(reply, 1)) if reply.startswith(b"watching ") else None
        if answer is None:
            # The name stays, until its client is told.
            self._order.pop((name, action))
            self._counts[known.owner] -= 1
            del known.actions[action]
            known.is_lost = True
            return
        watch = known.actions[action]
        watch.run = answer
        if watch.told != answer:
            known.is_behind = True

    def replied(self, request: ClientLine, reply: bytes) -> bytes | None:
        """Learns from the reply to a client's watch, drop or poll, and gives the reply that the client gets: this one
        but where the run didn't know what the client had been told. None where a watch was lost and no reply is true."""
        name, action = word(request.line, 1), word(request.line, 2)
        if request.verb == b"watch":
            if reply.startswith(b"watching "):
                self._add(request.client, name, action, YES[word(reply, 1)])
            return reply
        if request.verb == b"drop":
            if reply == b"dropped\n":
                self._remove(name, action)
            return reply
        known = self._names.get(name)
        if known is None or request.verb != b"poll":
            return reply
        known.client, known.used = request.client, monotonic()
        if known.is_lost:
            known.is_lost = False
            if not known.actions:
                del self._names[name]
            return None
        return self._polled(known, reply) if reply.startswith(b"changes ") else reply

    def _add(self, client: Client, name: bytes, action: bytes, answer: bool) -> None:
        known = self._names.get(name)
        if known is None:
            known = self._names[name] = Name(client, 0.0, client.who.key)
        known.client, known.used = client, monotonic()
        if action not in known.actions:
            self._order[name, action] = None
            self._counts[known.owner] += 1
        known.actions[action] = Watch(answer, answer)

    def _remove(self, name: bytes, action: bytes) -> None:
        known = self._names.get(name)
        if known is None or known.actions.pop(action, None) is None:
            return
        del self._order[name, action]
        self._counts[known.owner] -= 1
        if not known.actions and not known.is_lost:
            del self._names[name]

    def _polled(self, known: Name, reply: bytes) -> bytes:
        unknown = []
        for line in reply.split(b"\n")[1:-1]:
            answer, _, action = line.partition(b" ")
            watch = known.actions.get(action)
            if watch is None:
                unknown.append(line)
                continue
            watch.run = YES[answer]
            if not known.is_behind:
                watch.told = watch.run
        if not known.is_behind:
            return reply
        known.is_behind = False
        return self._caught_up(known, unknown)

    def _caught_up(self, known: Name, unknown: list[bytes]) -> bytes:
        """The poll's reply of a run that had kept its watches, and whatever else the run has told."""
        changed = []
        for action, watch in known.actions.items():
            if watch.told != watch.run:
                watch.told = watch.run
                changed.append((b"yes " if watch.run else b"no ") + action)
        lines = [b"changes %d" % (len(changed) + len(unknown)), *changed, *unknown, b""]
        return b"\n".join(lines)
