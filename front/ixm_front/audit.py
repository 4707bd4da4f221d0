"""Compares a journal with the front's log: who asked for each action, who confirmed it, and what is missing."""

from __future__ import annotations

import argparse
import json
import sys
from collections import OrderedDict
from collections.abc import Iterator
from dataclasses import dataclass, field
from typing import Any

from .log import CHAIN, HELD, chained
from .version import version

OPEN = 0xA5
MAGIC = (b"IXJ1", b"IXJ2", b"IXJ3")
HEAD = 7  # bytes in front of the expression's text


class NoJournal(Exception):
    """The file isn't a journal, or is damaged."""


@dataclass(frozen=True)
class Entry:
    """An action of the history: its number, its ticket (empty where none is kept), and its text."""

    number: int
    ticket: str
    action: str


@dataclass(frozen=True)
class History:
    """What a journal tells: where it was renewed it leaves out its first actions, which the old journal has."""

    left_out: int
    entries: list[Entry]


@dataclass
class Evidence:
    """What the log tells."""

    asked: dict[tuple[str, str], dict[str, Any]] = field(default_factory=dict)  # by ticket and action
    confirmed: dict[tuple[str, int], dict[str, Any]] = field(default_factory=dict)  # by ticket and number
    faults: list[str] = field(default_factory=list)  # of the log itself


def texts_of(data: bytes) -> Iterator[str]:
    """The texts of a journal's records, as docs/journal.md has them."""
    length = int.from_bytes(data[5:HEAD], "big")
    place = HEAD + length
    if data[:1] != bytes([OPEN]) or data[1:5] not in MAGIC or len(data) <= place:
        raise NoJournal("it is no journal, or an unfinished one")
    while place < len(data) and data[place] == OPEN:
        length = int.from_bytes(data[place + 1:place + 3], "big")
        text = data[place + 3:place + 3 + length]
        place += 3 + length
        if len(text) < length or not text or place >= len(data):
            raise NoJournal(f"damaged at {place}")
        yield text.decode("ascii", "backslashreplace")


def history_of(data: bytes) -> History:
    """The actions of a journal's history. The carried ones of a renewed journal are no part of it: they stand for others."""
    left_out, entries = 0, list[Entry]()
    for text in texts_of(data):
        first, _, rest = text.partition(" ")
        if first == "renewed" and rest:
            left_out = int(rest.partition(" ")[0])
            entries.clear()
        elif first != "boot" or not rest:
            ticket, action = (first, rest) if rest else ("", first)
            entries.append(Entry(left_out + len(entries) + 1, ticket, action))
    return History(left_out, entries)


def together(histories: list[History]) -> History:
    """One history of several journals, each renewed from the one before: what is left out is what none of them has."""
    entries = {entry.number: entry for history in histories for entry in history.entries}
    ordered = [entries[number] for number in sorted(entries)]
    last = max(history.left_out + len(history.entries) for history in histories)
    if [entry.number for entry in ordered] != list(range(last - len(ordered) + 1, last + 1)):
        raise NoJournal("a journal between two of these is missing")
    return History(last - len(ordered), ordered)


class Reader:
    """Reads logs, one behind the other, and follows their numbers and their chain."""

    def __init__(self) -> None:
        self.evidence = Evidence()
        self._number = 0
        self._chain: str | None = None  # none: at the begin, where any may stand
        self._last: OrderedDict[int, str] = OrderedDict()  # the chains of the last records, by their numbers

    def read(self, path: str) -> None:
        """Reads a file."""
        with open(path, "rb") as file:
            for line in file:
                if line.endswith(b"\n"):
                    self._take(line)

    def _take(self, line: bytes) -> None:
        found = CHAIN.fullmatch(line[:-1])
        if found is None:
            return  # torn: its record stands again behind it, or its number is missing
        text, number, chain = found[1], int(found[2]), found[3].decode()
        faults = self.evidence.faults
        if self._last.get(number) == chain:
            return  # written again behind a sync that failed
        self._last[number] = chain
        if len(self._last) > 2 * HELD:
            self._last.popitem(last=False)
        if number == 1 and chained("", text) == chain:
            # A log of its own, as on a standard output that each start has anew.
            self._chain, self._number = None, 0
        missing = number - self._number - 1
        if self._chain is not None and missing > 0:
            first, last = self._number + 1, number - 1
            faults.append(f"record {first} is missing" if missing == 1 else f"records {first} to {last} are missing")
        elif self._chain is not None and (missing < 0 or chained(self._chain, text) != chain):
            faults.append(f"record {number} was changed, or one before it")
            self._number, self._chain = number, chain
            return
        self._number, self._chain = number, chain
        self._learn(json.loads(text + b"}"))

    def _learn(self, record: dict[str, Any]) -> None:
        request, reply = str(record.get("request", "")).split(" "), str(record.get("reply", "")).split(" ")
        if request[0] == "ask" and reply[0] == "granted" and len(request) == 3:
            self.evidence.asked[reply[1], request[1]] = record
        elif request[0] == "confirm" and reply[0] == "confirmed" and len(request) == 2:
            self.evidence.confirmed[request[1], int(reply[1])] = record


def read(path: str) -> History:
    """The history of a journal in a file."""
    with open(path, "rb") as file:
        return history_of(file.read())


def who(record: dict[str, Any]) -> str:
    """Who did what a record tells, and when."""
    name = f"cert {record['cert']}" if "cert" in record else f"uid {record.get('uid')} pid {record.get('pid')}"
    return f"{name} client {record.get('client')} at {record.get('time')}"


def told(entry: Entry, evidence: Evidence) -> tuple[str, list[str]]:
    """A line of an action that the log tells whole, and lines of what is missing."""
    name = f"{entry.number} {entry.ticket or '-'} {entry.action}"
    asked = evidence.asked.get((entry.ticket, entry.action))
    confirmed = evidence.confirmed.get((entry.ticket, entry.number))
    if not entry.ticket:
        return "", [f"{name}: no ticket in the journal, so nothing can be told"]
    missing = [f"{name}: no {what} in the log" for what, found in (("ask", asked), ("confirm", confirmed)) if not found]
    if asked is None or confirmed is None:
        return "", missing
    return f"{name}: asked by {who(asked)}, confirmed by {who(confirmed)}", []


def report(history: History, evidence: Evidence, is_brief: bool) -> bool:
    """Puts what is told of each action, in brief only what is missing, and what the log tells besides. Gives whether all is
    well."""
    whole, entries = 0, history.entries
    for entry in entries:
        line, missing = told(entry, evidence)
        whole += not missing
        for each in missing or ([] if is_brief else [line]):
            print(each)
    there = {(entry.ticket, entry.number) for entry in entries}
    foreign = [f"confirmed {number} by ticket {ticket}: not in the journal"
               for ticket, number in evidence.confirmed if number > history.left_out and (ticket, number) not in there]
    for each in (*foreign, *evidence.faults):
        print(each)
    chain = "whose chain is whole" if not evidence.faults else f"whose chain has {len(evidence.faults)} faults"
    how_many = "all" if whole == len(entries) else f"{whole} of them"
    if history.left_out:
        print(f"left out are the first {history.left_out} actions: --old names the journal that has them")
    print(f"{len(entries)} actions: {how_many} asked for and confirmed by the log, {chain}")
    return whole == len(entries) and not foreign and not evidence.faults


def main() -> int:
    """0 where the log tells all of the journal and nothing else, 1 where something is missing, 2 where a file can't be
    read."""
    parser = argparse.ArgumentParser(prog="audit", description="Who asked for each action, and who confirmed it.")
    parser.add_argument("--version", action="version", version=f"ixm-audit {version()}")
    parser.add_argument("--missing", action="store_true", help="tell only what is missing")
    parser.add_argument("--old", metavar="JOURNAL", action="append", default=[], help="one that was renewed; again for each")
    parser.add_argument("journal", metavar="JOURNAL")
    parser.add_argument("logs", metavar="LOG", nargs="+", help="the log's files, the oldest first")
    words = parser.parse_args()
    reader = Reader()
    try:
        history = together([read(path) for path in (*words.old, words.journal)])
        for path in words.logs:
            reader.read(path)
    except (OSError, NoJournal) as error:
        print(f"audit: {error}", file=sys.stderr)
        return 2
    return 0 if report(history, reader.evidence, words.missing) else 1
