"""What a manager asks of etcd for its journal, and what etcd answers: JSON over HTTP/1.1, by etcd's API version 3.

In JSON bytes stand in base64 and numbers as texts, and etcd leaves out a field that is 0, false or empty. The file is in
the keys `NAME/head`, which says "OWNER SEQUENCE LENGTH", and `NAME/block/N`, N in twenty digits: 4,096 bytes each, and
fewer in the last one."""

from __future__ import annotations

import base64
import json
from collections.abc import Mapping
from dataclasses import dataclass

NAME = "t/j"
BLOCK = 4096  # bytes of a block
RANGE, TRANSACTION = "/v3/kv/range", "/v3/kv/txn"

# Whether a connection is kept behind an answer, is closed by the manager because it got no answer that counts, or is closed by
# the gateway because it says no more.
KEPT, DROPPED, CUT = "kept", "dropped", "cut"


@dataclass(frozen=True)
class Answer:
    """The bytes of an answer, how many are sent at a time (0 is all at once), and what comes of the connection."""

    data: bytes
    then: str = KEPT
    piece: int = 0


@dataclass(frozen=True)
class Asks:
    """The manager asks this of a member, and is answered so. Nobody may have been replied to meanwhile."""

    path: str
    text: str
    answer: Answer
    member: int = 0


def code(data: bytes) -> str:
    return base64.b64encode(data).decode()


def in_json(value: object) -> str:
    return json.dumps(value, separators=(",", ":"))


HEAD = code(f"{NAME}/head".encode())
BEHIND_BLOCKS = code(f"{NAME}/block0".encode())


def block_key(number: int) -> str:
    return code(f"{NAME}/block/{number:020}".encode())


def from_block(number: int) -> dict[str, str]:
    return {"key": block_key(number), "range_end": BEHIND_BLOCKS}


def compare(guard: int) -> list[dict[str, str]]:
    return [{"target": "MOD", "result": "EQUAL", "key": HEAD, "mod_revision": str(guard)}]


def put(key: str, value: bytes) -> dict[str, object]:
    return {"request_put": {"key": key, "value": code(value)}}


LOOK = in_json({"key": HEAD})


def commit_text(guard: int, head: str, blocks: Mapping[int, bytes], gone_from: int | None) -> str:
    """If the head was put last at the revision `guard`, it puts the head and blocks, and deletes those from a number on;
    else it reads the head."""
    success = [put(HEAD, head.encode()), *(put(block_key(number), block) for number, block in blocks.items())]
    if gone_from is not None:
        success.append({"request_delete_range": from_block(gone_from)})
    failure = [{"request_range": {"key": HEAD}}]
    return in_json({"compare": compare(guard), "success": success, "failure": failure})


def blocks_text(guard: int, number: int) -> str:
    """Reads up to 128 blocks from this one on, if the head was put last at the revision `guard`."""
    success = [{"request_range": {**from_block(number), "limit": "128"}}]
    return in_json({"compare": compare(guard), "success": success})


# Texts of requests that etcd 3.4 took, each with the one that is wanted here. etcd passes over a field that it doesn't know
# and takes 0 for one that is missing, so each letter counts.
TAKEN = (
    ('{"key":"dC9qL2hlYWQ="}', LOOK),
    ('{"compare":[{"target":"MOD","result":"EQUAL","key":"dC9qL2hlYWQ=","mod_revision":"0"}],"success":[{"request_put":'
     '{"key":"dC9qL2hlYWQ=","value":"MCAwIDA="}}],"failure":[{"request_range":{"key":"dC9qL2hlYWQ="}}]}',
     commit_text(0, "0 0 0", {}, None)),
    ('{"compare":[{"target":"MOD","result":"EQUAL","key":"dC9qL2hlYWQ=","mod_revision":"2"}],"success":[{"request_put":'
     '{"key":"dC9qL2hlYWQ=","value":"MiAxIDM="}},{"request_put":{"key":"dC9qL2Jsb2NrLzAwMDAwMDAwMDAwMDAwMDAwMDAw",'
     '"value":"YWJj"}},{"request_delete_range":{"key":"dC9qL2Jsb2NrLzAwMDAwMDAwMDAwMDAwMDAwMDAx",'
     '"range_end":"dC9qL2Jsb2NrMA=="}}],"failure":[{"request_range":{"key":"dC9qL2hlYWQ="}}]}',
     commit_text(2, "2 1 3", {0: b"abc"}, 1)),
    ('{"compare":[{"target":"MOD","result":"EQUAL","key":"dC9qL2hlYWQ=","mod_revision":"3"}],"success":[{"request_range":'
     '{"key":"dC9qL2Jsb2NrLzAwMDAwMDAwMDAwMDAwMDAwMDAw","range_end":"dC9qL2Jsb2NrMA==","limit":"128"}}]}',
     blocks_text(3, 0)),
)

# Answers of etcd 3.4: there is no head, or the comparison of a transaction that asks for blocks didn't hold.
NO_HEAD = '{"header":{"cluster_id":"3249","member_id":"3319","revision":"1","raft_term":"2"}}'


def head_pair(revision: int, head: str) -> dict[str, str]:
    return {"key": HEAD, "create_revision": "2", "mod_revision": str(revision), "version": "2", "value": code(head.encode())}


def found(revision: int, head: str) -> str:
    """The head was put last at this revision, and says this."""
    return in_json({"header": {"revision": str(revision)}, "kvs": [head_pair(revision, head)], "count": "1"})


def applied(revision: int) -> str:
    """The transaction took place, and made this revision."""
    header = {"revision": str(revision)}
    responses = [{"response_put": {"header": header}}]
    return in_json({"header": {**header, "raft_term": "2"}, "succeeded": True, "responses": responses})


def fenced(revision: int, head: str) -> str:
    """It didn't, because the head was put last at this revision, and says this."""
    header = {"revision": "99"}
    kept = {"header": header, "kvs": [head_pair(revision, head)], "count": "1"}
    return in_json({"header": header, "responses": [{"response_range": kept}]})


def blocks_found(*pairs: tuple[int, bytes | None]) -> str:
    """These blocks. A value that is None is left out."""
    header = {"revision": "3"}
    kvs = [{"key": block_key(number), **({} if block is None else {"value": code(block)})} for number, block in pairs]
    kept: dict[str, object] = {"header": header}
    if kvs:
        kept |= {"kvs": kvs, "count": str(len(kvs))}
    return in_json({"header": header, "succeeded": True, "responses": [{"response_range": kept}]})


def first_line(status: int) -> str:
    return f"HTTP/1.1 {status} {'OK' if status == 200 else 'Something Else'}\r\n"


def whole(body: str, status: int = 200) -> bytes:
    return f"{first_line(status)}Content-Type: application/json\r\nContent-Length: {len(body)}\r\n\r\n{body}".encode()


def in_chunks(body: str, front: str, end: str) -> bytes:
    """Chunks of 2 bytes, of 30, and of the rest."""
    chunks = [body[:2], body[2:32], body[32:]]
    lines = "".join(f"{len(chunk):x}\r\n{chunk}\r\n" for chunk in chunks if chunk)
    return f"{front}Transfer-Encoding: chunked\r\n\r\n{lines}0\r\n{end}\r\n".encode()


def chunked(body: str, status: int = 200) -> bytes:
    return in_chunks(body, first_line(status), "")


def trailed(body: str, status: int = 200) -> bytes:
    """As etcd sends its errors: with a trailer behind the chunks."""
    front = f"{first_line(status)}Trailer: Grpc-Trailer-Content-Type\r\n"
    return in_chunks(body, front, "Grpc-Trailer-Content-Type: application/grpc\r\n")


def continued(body: str, status: int = 200) -> bytes:
    """The answer comes behind one that only says that it will."""
    return b"HTTP/1.1 100 Continue\r\n\r\n" + whole(body, status)


def error(status: int) -> bytes:
    return trailed(in_json({"error": "something is wrong", "code": 8}), status)


def looks(body: str) -> Asks:
    return Asks(RANGE, LOOK, Answer(whole(body)))


def attaches(guard: int, length: int, body: str) -> Asks:
    return Asks(TRANSACTION, commit_text(guard, f"0 0 {length}", {}, None), Answer(whole(body)))


def reads(guard: int, number: int, body: str) -> Asks:
    return Asks(TRANSACTION, blocks_text(guard, number), Answer(whole(body)))


class Owner:
    """A manager whose attach made this revision: what it asks then. Each of its syncs makes the next revision."""

    def __init__(self, revision: int) -> None:
        self.owner = self.revision = revision
        self.sequence = 0
        self.head = ""

    def sync(self, file: bytes, *changed: int, answer: Answer | None = None) -> Asks:
        """It brings the file, of which these blocks changed, and is answered that this took place, or otherwise."""
        guard = self.revision
        self.revision, self.sequence = self.revision + 1, self.sequence + 1
        self.head = f"{self.owner} {self.sequence} {len(file)}"
        blocks = {number: file[number * BLOCK:(number + 1) * BLOCK] for number in changed}
        text = commit_text(guard, self.head, blocks, -(-len(file) // BLOCK))
        return Asks(TRANSACTION, text, answer or Answer(whole(applied(self.revision))))

    def checks(self) -> Asks:
        """It looks whether it is the owner still, and is."""
        return looks(found(self.revision, self.head))
