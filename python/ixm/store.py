"""Where an activity keeps how far it is, so that an engine which was killed goes on where it was.

A store holds the record of one activity, a line of text. Another piece of work has another store,
also if its action is the same.
"""

import contextlib
import fcntl
import os
import sqlite3
import threading
from collections.abc import Iterator
from dataclasses import dataclass
from typing import Literal, Protocol, get_args

from ixm.protocol import is_number, is_ticket

State = Literal["open", "never", "done"]


class Store(Protocol):
    """What a store has to do. Each error that it raises comes to the engine as `NotKept`."""

    def load(self) -> str | None:
        """The record, or None if there is none yet."""

    def swap(self, old: str | None, new: str) -> bool:
        """Puts `new` in the place of `old`, and says True once `new` is there for good, after any
        crash. Says False, and changes nothing, if the record isn't `old`: another run has this
        activity in work too."""


@dataclass(frozen=True)
class Record:
    """What became of the last ticket of an activity, as far as it is known: `open` says that this
    isn't known, `never` that the action isn't there by this ticket and never will be, `done` that
    it is the action of this number."""

    state: State
    ticket: str
    action: str
    number: int = 0

    def text(self) -> str:
        place = f" {self.number}" if self.state == "done" else ""
        return f"{self.state} {self.ticket}{place} {self.action}"


def read_record(text: str) -> Record | None:
    """The record of a text, or None if it is none."""
    state, *words = text.split(" ")
    number = words.pop(1) if state == "done" and len(words) > 1 else "0"
    if state not in get_args(State) or len(words) != 2 or not all(words):
        return None
    if not is_ticket(words[0]) or not is_number(number):
        return None
    known: dict[str, State] = {it: it for it in get_args(State)}
    return Record(known[state], words[0], words[1], int(number))


class MemoryStore:
    """A store that ends with its process: for an engine that isn't started again, and for tests."""

    def __init__(self, text: str | None = None) -> None:
        self.text = text
        self.lock = threading.Lock()

    def load(self) -> str | None:
        return self.text

    def swap(self, old: str | None, new: str) -> bool:
        with self.lock:
            if self.text != old:
                return False
            self.text = new
            return True


class FileStore:
    """A store in a file of its own, which is replaced as a whole and brought to the disk. Its
    folder is there before."""

    def __init__(self, path: str | os.PathLike[str]) -> None:
        self.path = os.fspath(path)
        self.folder = os.path.dirname(self.path) or "."

    def load(self) -> str | None:
        try:
            with open(self.path, "rb") as file:
                return file.read().decode("ascii", "backslashreplace").removesuffix("\n")
        except FileNotFoundError:
            return None

    def swap(self, old: str | None, new: str) -> bool:
        with self._alone() as folder:
            if self.load() != old:
                return False
            with open(f"{self.path}.new", "wb") as file:
                file.write(new.encode("ascii") + b"\n")
                file.flush()
                os.fsync(file.fileno())
            os.replace(f"{self.path}.new", self.path)
            os.fsync(folder)
            return True

    @contextlib.contextmanager
    def _alone(self) -> Iterator[int]:
        """The folder, in which nobody else replaces a record meanwhile."""
        folder = os.open(self.folder, os.O_RDONLY | os.O_DIRECTORY)
        try:
            fcntl.flock(folder, fcntl.LOCK_EX)
            yield folder
        finally:
            os.close(folder)


class SqliteStore:
    """A store in a row of a database: `key` names the activity. The table is made if it isn't
    there."""

    TABLE = "CREATE TABLE IF NOT EXISTS ixm_activity (key TEXT PRIMARY KEY, record TEXT NOT NULL)"

    def __init__(self, path: str | os.PathLike[str], key: str) -> None:
        self.path, self.key = path, key

    def load(self) -> str | None:
        with self._database() as database:
            return self._record(database)

    def swap(self, old: str | None, new: str) -> bool:
        with self._database() as database:
            database.execute("BEGIN IMMEDIATE")
            if self._record(database) != old:
                return False
            database.execute("REPLACE INTO ixm_activity VALUES (?, ?)", (self.key, new))
            database.execute("COMMIT")
            return True

    @contextlib.contextmanager
    def _database(self) -> Iterator[sqlite3.Connection]:
        database = sqlite3.connect(self.path, timeout=30.0, isolation_level=None)
        try:
            database.execute("PRAGMA synchronous = EXTRA")
            database.execute(self.TABLE)
            yield database
        finally:
            database.close()

    def _record(self, database: sqlite3.Connection) -> str | None:
        query = "SELECT record FROM ixm_activity WHERE key = ?"
        row = database.execute(query, (self.key,)).fetchone()
        return None if row is None else str(row[0])
