"""A second implementation of the journal's format, from docs/journal.md alone: it writes files, and says what a start puts of
any bytes and what it makes of them. Nothing is read as a whole but a copy of the bytes."""

from __future__ import annotations

import re
from collections.abc import Callable
from dataclasses import dataclass, field, replace

OPEN, CLOSED = 0xA5, 0x00
MAGICS = (b"IXJ1", b"IXJ2", b"IXJ3")
BEGUN, RENEWED = b"IXJ2", b"IXJ3"  # what a start writes, and what a renewal does
MOST = 1_000_000  # records of actions, and of boots
LONGEST = 207  # bytes of a record's text
MOST_NUMBER, MOST_RENEWED = 2**64 - 1, 2**63
NUMBER = "(0|[1-9][0-9]*)"
ACTION = "([A-Za-z][A-Za-z0-9_]{0,31}(?:\\([A-Za-z0-9_]{1,32}(?:,[A-Za-z0-9_]{1,32}){0,3}\\))?)"
FORMS = {name: re.compile(text.encode()) for name, text in (
    ("renewed", f"renewed {NUMBER} {NUMBER}"), ("boot", f"boot {NUMBER}"), ("spent", f"{NUMBER}-{NUMBER} {ACTION}"),
    ("plain", ACTION))}


class Damaged(Exception):
    """No whole record that may stand there follows the gate in front of this place."""

    def __init__(self, place: int) -> None:
        super().__init__(f"damaged {place}")


class Many(Exception):
    """There are more records than a file may have."""


@dataclass(frozen=True)
class State:
    """What the records so far say."""

    actions: tuple[str, ...] = ()
    boots: int = 0  # records
    sequence: int = 0  # the last ticket's number in its boot
    is_renewed: bool = False
    carried: int = 0
    before: int = 0  # actions of the journals before
    boots_before: int = 0

    def count(self) -> int:
        return self.before + len(self.actions) - self.carried

    def boot(self) -> int:
        """The number of the last boot."""
        return self.boots_before + self.boots

    def behind(self, text: bytes) -> State | None:
        """The state behind a record with this text; None where it may not stand here."""
        for name, form in FORMS.items():
            found = form.fullmatch(text)
            if found is not None:
                step: Callable[..., State | None] = getattr(self, f"behind_{name}")
                return step(*(int(word) if word.isdigit() else word.decode() for word in found.groups()))
        return None

    def behind_renewed(self, actions: int, boots: int) -> State | None:
        fits = actions <= MOST_RENEWED and boots <= MOST_RENEWED and actions >= len(self.actions)
        if self.is_renewed or self.boots or not fits:
            return None
        return replace(self, is_renewed=True, carried=len(self.actions), before=actions, boots_before=boots)

    def behind_boot(self, number: int) -> State | None:
        if number != self.boot() + 1 or number > MOST_NUMBER:
            return None
        return replace(self, boots=self.boots + 1, sequence=0)

    def behind_spent(self, boot: int, sequence: int, action: str) -> State | None:
        """The ticket is of the last boot, which has a record here, and above those before it."""
        if not self.boots or boot != self.boot() or not self.sequence < sequence <= MOST_NUMBER:
            return None
        return replace(self, actions=(*self.actions, action), sequence=sequence)

    def behind_plain(self, action: str) -> State:
        return replace(self, actions=(*self.actions, action))


@dataclass(frozen=True)
class Said:
    """What a start puts first, and the bytes behind it."""

    line: str
    data: bytes


def record(text: str) -> bytes:
    """A record's length and text."""
    return len(text).to_bytes(2, "big") + text.encode()


def header(magic: bytes, text: str) -> bytes:
    return magic + record(text)


def written(magic: bytes, text: str, records: list[str]) -> bytes:
    """A journal with these records."""
    return bytes([OPEN]) + header(magic, text) + b"".join(bytes([OPEN]) + record(one) for one in records) + bytes([CLOSED])


def begun(text: str) -> bytes:
    """What a start makes of an unfinished file."""
    return written(BEGUN, text, ["boot 1"])


@dataclass
class Reader:
    """Reads a file for a start with the expression of this canonical text. `refusal` says why actions are refused as a
    history, and nothing where they aren't."""

    data: bytes
    text: str
    refusal: Callable[[tuple[str, ...]], str]
    state: State = field(default_factory=State)
    gate: int = 0  # the first that is closed

    def kind(self) -> str:
        data = self.data
        if len(data) <= 1 or data[0] == CLOSED:
            return "unfinished"
        first = 7 + int.from_bytes(data[5:7], "big")
        if data[1:5] not in MAGICS or len(data) < 7 or len(data) <= first:
            return "foreign"
        if data[0] != OPEN and len(data) == first + 1 and data[first] != OPEN:
            return "unopened"
        self.gate = first
        return "foreign" if data[0] != OPEN else "ready"

    def read_records(self) -> None:
        """Goes to the first closed gate."""
        while self.data[self.gate] == OPEN:
            place = self.gate + 1
            end = place + 2 + int.from_bytes(self.data[place:place + 2], "big")
            text = self.data[place + 2:end]
            behind = self.state.behind(text) if end < len(self.data) and len(text) <= LONGEST else None
            if behind is None:
                raise Damaged(place)
            if len(behind.actions) > MOST or behind.boots > MOST:
                raise Many("many")
            self.state, self.gate = behind, end

    def start(self) -> Said:
        """What a start puts and leaves."""
        kind = self.kind()
        if kind == "unfinished":
            return Said("history 0", begun(self.text))
        if kind == "foreign":
            return Said("refused journal foreign", self.data)
        text = self.data[7:7 + int.from_bytes(self.data[5:7], "big")]
        if text != self.text.encode():
            return Said(f"refused journal other {text.decode('latin-1')}", self.data)
        if kind == "unopened":
            return Said("history 0", begun(self.text))
        try:
            self.read_records()
        except (Damaged, Many) as fault:
            return Said(f"refused journal {fault}", self.data)
        if self.state.boots == MOST:
            return Said("refused journal many", self.data)
        refused = self.refusal(self.state.actions)
        if refused:
            return Said(f"refused journal {refused}", self.data)
        appended = record(f"boot {self.state.boot() + 1}") + bytes([CLOSED])
        tail = self.data[self.gate + 1 + len(appended):]
        return Said(f"history {self.state.count()}", self.data[:self.gate] + bytes([OPEN]) + appended + tail)


def read(data: bytes) -> State:
    """What the records of a good journal say."""
    reader = Reader(data, "", lambda actions: "")
    assert reader.kind() == "ready", "it is no journal"
    reader.read_records()
    return reader.state
