"""Stands between the front and the manager, and keeps what goes each way, byte for byte."""

from __future__ import annotations

import socket
import threading

Pairs = list[tuple[bytes, bytes | None]]


class Session:
    """One connection of the front: what it sent, and what the manager replied."""

    def __init__(self) -> None:
        self.sent = bytearray()
        self.received = bytearray()
        self.is_over = threading.Event()

    def pairs(self) -> Pairs:
        """Each line with its reply, None where none came whole. An unfinished line isn't one."""
        lines = bytes(self.sent).split(b"\n")[:-1]
        replies = whole_replies(bytes(self.received))
        if len(replies) > len(lines):
            raise AssertionError("more replies than lines")
        return list(zip(lines, [*replies, *[None] * (len(lines) - len(replies))]))


def whole_replies(data: bytes) -> list[bytes]:
    """The replies in what a manager sent, each with its line ends: a `changes K` has K lines more."""
    lines = data.split(b"\n")[:-1]
    replies: list[bytes] = []
    place = 0
    while place < len(lines):
        more = int(lines[place][8:]) if lines[place].startswith(b"changes ") else 0
        reply = lines[place:place + 1 + more]
        if len(reply) < 1 + more:
            break
        replies.append(b"".join(line + b"\n" for line in reply))
        place += 1 + more
    return replies


class Tap:
    """Listens on a path for a front, and connects to the manager for each of its connections."""

    def __init__(self, path: str, manager: str) -> None:
        self.path = path
        self.manager = manager
        self.sessions: list[Session] = []
        self.listener = socket.socket(socket.AF_UNIX)
        self.listener.bind(path)
        self.listener.listen(16)
        threading.Thread(target=self._accept, daemon=True).start()

    def close(self) -> None:
        self.listener.close()

    def _accept(self) -> None:
        while True:
            try:
                front, _ = self.listener.accept()
            except OSError:
                return
            manager = socket.socket(socket.AF_UNIX)
            if manager.connect_ex(self.manager) != 0:
                manager.close()
                front.close()
                continue
            session = Session()
            self.sessions.append(session)
            threading.Thread(target=self._pass, args=(front, manager, session), daemon=True).start()

    def _pass(self, front: socket.socket, manager: socket.socket, session: Session) -> None:
        back = threading.Thread(target=copy, args=(manager, front, session.received), daemon=True)
        back.start()
        copy(front, manager, session.sent)
        back.join()
        front.close()
        manager.close()
        session.is_over.set()


def copy(source: socket.socket, target: socket.socket, kept: bytearray) -> None:
    """Copies until the source ends, and tells the target of the end. What the target doesn't take is kept all the same."""
    while True:
        try:
            data = source.recv(65536)
        except OSError:
            data = b""
        if not data:
            break
        kept += data
        try:
            target.sendall(data)
        except OSError:
            pass
    for sock in (source, target):
        try:
            # A manager that is gone has to end the front's connection too.
            sock.shutdown(socket.SHUT_WR)
        except OSError:
            pass
    try:
        source.shutdown(socket.SHUT_RD)
    except OSError:
        pass
