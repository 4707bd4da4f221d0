"""What programs of this folder share: the version, the keys of a journal in etcd (docs/standby.md), and what a journal has by
its gates (docs/journal.md)."""

from __future__ import annotations

import base64
import json
import mmap
import os
import urllib.error
import urllib.request
from collections.abc import Iterator, Mapping
from contextlib import contextmanager
from dataclasses import dataclass

OPEN = 0xA5
MAGICS = (b"IXJ1", b"IXJ2", b"IXJ3")
BOOT, RENEWED = b"boot ", b"renewed "
NINE = ord("9")
MOST = 1_000_000  # records of actions, and of boots
ETCD = "etcd:"  # what a journal begins with that is a prefix of keys
BLOCK = 4096  # bytes of a block
AT_ONCE = 100  # blocks in a transaction, or in a read
LIMIT = 10  # seconds for an answer


class Fault(Exception):
    """Why etcd doesn't give what it was asked for."""


def code(data: bytes) -> str:
    return base64.b64encode(data).decode()


class Keys:
    """The keys of one journal."""

    def __init__(self, prefix: str) -> None:
        self.prefix = prefix
        self.head = code(f"{prefix}/head".encode())
        self.members = (os.environ.get("ETCDCTL_ENDPOINTS") or "127.0.0.1:2379").split(",")

    def ask(self, path: str, body: Mapping[str, object]) -> dict[str, object]:
        """The answer of the first member that answers."""
        why = ""
        for member in self.members:
            place = member if member.startswith("http://") else f"http://{member}"
            try:
                request = urllib.request.Request(place + path, json.dumps(body).encode())
                with urllib.request.urlopen(request, timeout=LIMIT) as reply:
                    answer = json.load(reply)
                if isinstance(answer, dict) and "header" in answer:
                    return answer
            except urllib.error.HTTPError as error:
                raise Fault(f"etcd refuses: {error.read().decode(errors='replace').strip()}") from None
            except (OSError, ValueError) as error:
                why = f"{error}"
        raise Fault(f"no member of etcd answers: {why}")

    def block(self, number: int) -> str:
        return code(f"{self.prefix}/block/{number:020}".encode())

    def values(self, body: Mapping[str, object]) -> tuple[list[tuple[bytes, bytes]], str]:
        """The keys that were asked for, with their values, and the revision of etcd."""
        answer = self.ask("/v3/kv/range", body)
        found, header = answer.get("kvs", []), answer["header"]
        assert isinstance(found, list) and isinstance(header, dict)
        return [(base64.b64decode(one["key"]), base64.b64decode(one.get("value", ""))) for one in found], header["revision"]

    def length(self) -> tuple[int, str]:
        """How many bytes there are, and the revision of etcd."""
        heads, revision = self.values({"key": self.head})
        if not heads:
            raise Fault(f"etcd has no journal under {self.prefix}")
        words = heads[0][1].split()
        if len(words) != 3 or not words[2].isdigit():
            raise Fault(f"{self.prefix}/head is no journal's: {heads[0][1]!r}")
        return int(words[2]), revision

    def read(self) -> bytes:
        """All bytes, as they are at one revision."""
        length, revision = self.length()
        pieces: list[bytes] = []
        end, count = code(f"{self.prefix}/block0".encode()), -(-length // BLOCK)
        while len(pieces) < count:
            body = {"key": self.block(len(pieces)), "range_end": end, "limit": str(AT_ONCE), "revision": revision}
            found, _ = self.values(body)
            for key, value in found:
                if int(key.rsplit(b"/", 1)[1]) != len(pieces) or len(value) != min(BLOCK, length - BLOCK * len(pieces)):
                    raise Fault(f"block {len(pieces)} is missing or has another length")
                pieces.append(value)
            if not found:
                raise Fault(f"block {len(pieces)} is missing")
        return b"".join(pieces)

    def value(self, key: str) -> bytes | None:
        """What a key has, where it is there."""
        found, _ = self.values({"key": code(key.encode())})
        return found[0][1] if found else None

    def put(self, *pairs: tuple[str, bytes]) -> None:
        """Puts values, while there is no head."""
        puts = [{"request_put": {"key": key, "value": code(value)}} for key, value in pairs]
        is_new = {"target": "MOD", "result": "EQUAL", "key": self.head, "mod_revision": "0"}
        if not self.ask("/v3/kv/txn", {"compare": [is_new], "success": puts}).get("succeeded"):
            raise Fault(f"etcd has a journal under {self.prefix}")

    def write(self, data: bytes) -> None:
        """Puts the blocks, and then the head, with which the journal is there."""
        blocks = [data[at:at + BLOCK] for at in range(0, len(data), BLOCK)]
        for first in range(0, len(blocks), AT_ONCE):
            self.put(*((self.block(first + i), block) for i, block in enumerate(blocks[first:first + AT_ONCE])))
        self.put((self.head, f"0 0 {len(data)}".encode()))


@dataclass(frozen=True)
class Counts:
    """How many records a journal has, and what it stands for besides: where it was renewed, its first `carried` actions
    are in place of `before` ones, and of `boots_before` boots."""

    actions: int = 0
    boots: int = 0
    is_renewed: bool = False
    carried: int = 0
    before: int = 0
    boots_before: int = 0

    @property
    def history(self) -> int:
        """The number of the last action, which a start puts."""
        return self.before + self.actions - self.carried

    @property
    def last_boot(self) -> int:
        return self.boots_before + self.boots


def numbers(text: bytes) -> tuple[int, int] | None:
    """The two of a record `renewed N B`."""
    words = text.split(b" ")
    if len(words) != 3 or not (words[1].isdigit() and words[2].isdigit()):
        return None
    return int(words[1]), int(words[2])


def count(data: bytes | mmap.mmap) -> Counts:
    """The records before the first closed gate. One that isn't whole ends them: the manager refuses that. Whether they are a
    history is the manager's to say too."""
    gate, size = 7 + int.from_bytes(data[5:7], "big"), len(data)
    actions = boots = 0
    said: tuple[int, int, int] | None = None
    while gate + 3 < size and data[gate] == OPEN:
        begin = gate + 3
        gate = begin + (data[gate + 1] << 8 | data[gate + 2])
        if gate >= size:
            break
        if data[begin] <= NINE:  # a ticket
            actions += 1
        elif data[begin:begin + len(BOOT)] == BOOT:
            boots += 1
        elif data[begin:begin + len(RENEWED)] == RENEWED:
            found = numbers(data[begin:gate])
            if found is None or said is not None:
                break
            said = (actions, *found)
        else:
            actions += 1
    return Counts(actions, boots) if said is None else Counts(actions, boots, True, *said)


@contextmanager
def opened(journal: str) -> Iterator[bytes | mmap.mmap]:
    """The bytes of a journal, which is a file or in etcd."""
    if journal.startswith(ETCD):
        yield Keys(journal[len(ETCD):]).read()
    elif os.path.getsize(journal) == 0:
        yield b""
    else:
        with open(journal, "rb") as file, mmap.mmap(file.fileno(), 0, access=mmap.ACCESS_READ) as data:
            yield data


def length_of(journal: str) -> int:
    """How many bytes it has."""
    if journal.startswith(ETCD):
        return Keys(journal[len(ETCD):]).length()[0]
    return os.path.getsize(journal)


def counts_of(journal: str) -> Counts:
    """Those of a journal, which mean something where it begins as one does."""
    with opened(journal) as data:
        return count(data)


def version() -> str:
    """What the file VERSION says, beside this file or, in the repository, above it."""
    here = os.path.dirname(os.path.realpath(__file__))
    for file in (f"{here}/VERSION", f"{here}/../VERSION"):
        if os.path.exists(file):
            with open(file) as text:
                return text.read().strip()
    return "of no known version"
