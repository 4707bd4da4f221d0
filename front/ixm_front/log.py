"""Who asked what: numbered records, each chained to the one before, written by a thread of their own.

The loop hands records over and never waits for a disk or a reader of a pipe. docs/front.md tells the form."""

from __future__ import annotations

import contextlib
import errno
import hashlib
import json
import os
import queue
import re
import threading
import time
from collections.abc import Callable
from time import monotonic
from typing import NamedTuple

HELD = 10000  # records that are handed over and not yet written, at most
LINGER = 0.01  # seconds in which records gather before they are written, where no reply waits for them
RETRY = 0.5  # seconds before a write that failed is tried again
SLOW = 1.0  # seconds behind which a write that hasn't ended counts as failing
TAIL = 1 << 16  # bytes of a file's end in which its last record is looked for
CHAIN = re.compile(rb'(\{"n": ([0-9]+), .*), "chain": "([0-9a-f]{32})"\}')

is_plain = re.compile(rb"[ !#-\[\]-~]*").fullmatch  # whether it stands in JSON as it is

quoted = json.JSONEncoder().encode


class Place(NamedTuple):
    """Where a log stands: the number and the chain of its last record."""

    number: int
    chain: str


REOPEN = "reopen"
END = "end"
Record = tuple[int, float, bytes]  # in the writer's queue: its number, its moment, and its further members as JSON
Item = Record | str


def line_text(line: bytes) -> bytes:
    """A line or a reply as JSON, without its line end: bytes that aren't ASCII as \\xNN."""
    line = line.rstrip(b"\n")
    if is_plain(line):
        return b'"%b"' % line
    return quoted(line.decode("ascii", "backslashreplace")).encode()


def chained(before: str, text: bytes) -> str:
    """The chain of a record with this text, behind the chain of the one before it."""
    return hashlib.sha256(before.encode() + text).hexdigest()[:32]


class Stamp:
    """Writes moments, to the second, each second's text once."""

    def __init__(self) -> None:
        self._second = -1
        self._text = b""

    def of(self, second: int) -> bytes:
        """A moment in UTC."""
        if second != self._second:
            text = time.strftime("%Y-%m-%dT%H:%M:%S", time.gmtime(second))
            self._second, self._text = second, text.encode()
        return self._text


def last_place(file: int) -> Place | None:
    """The last whole record of a file; none where it has none, or isn't a file that can be read from its end."""
    try:
        length = os.lseek(file, 0, os.SEEK_END)
        tail = os.pread(file, TAIL, max(0, length - TAIL))
    except OSError:
        return None
    for line in reversed(tail.split(b"\n")[:-1]):
        found = CHAIN.fullmatch(line)
        if found:
            return Place(int(found[2]), found[3].decode())
    return None


class LogFile:
    """The open file, and what is written of it. Only the writer's thread uses it once that runs."""

    def __init__(self, path: str, is_synced: bool) -> None:
        self.path = path
        self.is_synced = is_synced
        self.place = Place(0, "")  # at the beginning of this run
        self._file = 1
        self._torn = False  # the last line may lack its end
        self._stamp = Stamp()
        if path != "-":
            self._file = self._opened()
            self.place = last_place(self._file) or self.place
        self._chain = self.place.chain  # of the record that was rendered last

    def open_again(self) -> str | None:
        """Opens the file by its name, as when it was moved away. Where it can't, the old one stays; gives the cause."""
        if self.path == "-":
            return None
        try:
            file = self._opened()
        except OSError as error:
            return str(error)
        file, self._file = self._file, file
        os.close(file)
        return None

    def rendered(self, record: Record) -> bytes:
        """A record's line. Its chain goes on from the record that was rendered before."""
        number, moment, members = record
        second, millis = divmod(int(moment * 1000), 1000)
        text = b'{"n": %d, "time": "%b.%03dZ", %b' % (number, self._stamp.of(second), millis, members)
        self._chain = chain = chained(self._chain, text)
        return b'%b, "chain": "%b"}\n' % (text, chain.encode())

    def put(self, lines: list[bytes]) -> int:
        """Writes lines and gives how many are whole in the file. Where a call fails fewer are: behind a sync that failed
        none counts, and all are written again."""
        data, done = b"\n" * self._torn + b"".join(lines), 0
        with contextlib.suppress(OSError):
            while done < len(data):
                done += os.write(self._file, memoryview(data)[done:])
        if done == len(data):
            self._torn = False
            return len(lines) if not self.is_synced or self._sync() else 0
        if not done:
            return 0
        done -= int(self._torn)
        whole = 0
        while whole < len(lines) and len(lines[whole]) <= done:
            done -= len(lines[whole])
            whole += 1
        self._torn = done > 0
        return whole

    def _sync(self) -> bool:
        try:
            os.fdatasync(self._file)
        except OSError as error:
            return error.errno == errno.EINVAL  # a pipe, or a terminal
        return True

    def _opened(self) -> int:
        file = os.open(self.path, os.O_RDWR | os.O_APPEND | os.O_CREAT | os.O_CLOEXEC, 0o640)
        try:
            length = os.lseek(file, 0, os.SEEK_END)
            self._torn = length > 0 and os.pread(file, 1, length - 1) != b"\n"
        except OSError:
            self._torn = False
        return file


class Log:
    """Takes records, and has them written in their order. Where too many wait, further ones are lost, and counted."""

    def __init__(self, path: str, is_synced: bool = False, is_must: bool = False) -> None:
        self.is_must = is_must
        self.lost = 0
        self.on_written: Callable[[int], None] = lambda number: None  # called by the writer's thread
        self.on_opened: Callable[[str | None], None] = lambda why: None  # the same
        self.on_fault: Callable[[BaseException], None] = lambda fault: None  # the same
        self._file = LogFile(path, is_synced)
        self.number = self._file.place.number  # of the last record
        self.after = self._file.place.chain  # the chain in front of this run's first record
        self.written = Place(self.number, self.after)  # the last one that was written
        self._queue: queue.SimpleQueue[Item] = queue.SimpleQueue()
        self._given = 0  # records that were handed over
        self._done = 0  # those of them that were written
        self._begun: float | None = None  # when the write began that is under way
        self._is_failing = False
        self._left: list[tuple[int, bytes]] = []  # rendered records that aren't written yet, and their numbers
        self._ended = threading.Event()
        self._thread = threading.Thread(target=self._run, name="log", daemon=True)
        self._thread.start()

    def write(self, text: bytes, is_minor: bool = False) -> int:
        """Hands over a record with these members, and gives its number. One of minor importance leaves room to the
        others."""
        self.number += 1
        if self._given - self._done >= (HELD // 2 if is_minor else HELD):
            self.lost += 1
        else:
            self._given += 1
            self._queue.put((self.number, time.time(), text))
        return self.number

    def is_well(self) -> bool:
        """Whether records are written, as far as is known."""
        begun = self._begun
        return (not self._is_failing and self._given - self._done < HELD // 2
                and (begun is None or monotonic() - begun < SLOW))

    def open_again(self) -> None:
        """Opens the file by its name once what was handed over before is written."""
        self._queue.put(REOPEN)

    def end(self, seconds: float) -> None:
        """Writes what is left, for so long at most."""
        self._queue.put(END)
        self._ended.wait(seconds)

    def _run(self) -> None:
        try:
            while self._turn():
                pass
            self._ended.set()
        except BaseException as fault:  # the loop has to know, whatever it is
            self.on_fault(fault)

    def _turn(self) -> bool:
        """Takes what is in the queue, and writes it. False where it was the end."""
        words = set()
        for item in self._items():
            if isinstance(item, str):
                words.add(item)
            else:
                self._left.append((item[0], self._file.rendered(item)))
        if self._left:
            self._put()
        if REOPEN in words:
            self.on_opened(self._file.open_again())
        return END not in words

    def _items(self) -> list[Item]:
        """What there is to do, once there is something, or a write that failed is to be tried again."""
        items: list[Item] = []
        if self._left:
            time.sleep(RETRY)
        else:
            items.append(self._queue.get())
            if not self.is_must:
                time.sleep(LINGER)
        with contextlib.suppress(queue.Empty):
            while True:
                items.append(self._queue.get_nowait())
        return items

    def _put(self) -> None:
        self._begun = monotonic()
        whole = self._file.put([line for _, line in self._left])
        self._begun = None
        if whole:
            number, line = self._left[whole - 1]
            self.written = Place(number, line[-35:-3].decode())
            del self._left[:whole]
            self._done += whole
            self.on_written(number)
        self._is_failing = bool(self._left)
