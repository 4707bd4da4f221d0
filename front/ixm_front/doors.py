"""The sockets on which others connect."""

from __future__ import annotations

import asyncio
import fcntl
import grp
import os
import socket
import stat
import sys
from collections.abc import Callable

AT_ONCE = 8  # connections that are taken in one turn of the loop
PAUSE = 0.1  # seconds without taking connections where the system has no more open files
QUEUE = 1024


def stop(why: str) -> None:
    """Ends the program, since it can't start."""
    sys.exit(f"ixm-front: {why}")


def lock(path: str) -> int:
    """Locks a socket's name for this process until its end, so that of two that start at once one can't."""
    file = os.open(f"{path}.lock", os.O_RDWR | os.O_CREAT | os.O_CLOEXEC, 0o600)
    try:
        fcntl.flock(file, fcntl.LOCK_EX | fcntl.LOCK_NB)
    except BlockingIOError:
        stop(f"another process listens on {path}")
    return file


def remove_left(path: str) -> None:
    """Removes the socket file of a process that ended. Where one listens, or it is no socket, this one can't start."""
    try:
        if not stat.S_ISSOCK(os.stat(path).st_mode):
            stop(f"{path} is there and no socket")
    except FileNotFoundError:
        return
    with socket.socket(socket.AF_UNIX) as other:
        try:
            other.connect(path)
        except ConnectionRefusedError:
            os.unlink(path)
            return
        except OSError as error:
            stop(f"{path}: {error.strerror}")
    stop(f"another process listens on {path}")


def unix_socket(path: str, mode: int | None, group: str | None) -> socket.socket:
    """A socket that listens on a name, and whose file has this mode and group before anybody can connect."""
    remove_left(path)
    sock = socket.socket(socket.AF_UNIX, socket.SOCK_STREAM | socket.SOCK_NONBLOCK)
    sock.bind(path)
    if group is not None:
        try:
            os.chown(path, -1, int(group) if group.isdigit() else grp.getgrnam(group).gr_gid)
        except KeyError:
            stop(f"there is no group {group}")
    if mode is not None:
        os.chmod(path, mode)
    sock.listen(QUEUE)
    return sock


def tcp_socket(address: tuple[str, int]) -> socket.socket:
    """A socket that listens on an address of the network."""
    host, port = address
    sock = socket.socket(socket.AF_INET6 if ":" in host else socket.AF_INET, socket.SOCK_STREAM | socket.SOCK_NONBLOCK)
    sock.setsockopt(socket.SOL_SOCKET, socket.SO_REUSEADDR, 1)
    sock.bind((host, port))
    sock.listen(QUEUE)
    return sock


class Door:
    """Takes the connections of a socket that listens, a bounded number in each turn, and fewer where files are scarce."""

    def __init__(self, sock: socket.socket, loop: asyncio.AbstractEventLoop,
                 taken: Callable[[socket.socket], None]) -> None:
        self.sock = sock
        self.loop = loop
        self.taken = taken

    def open(self) -> None:
        """Takes connections."""
        if self.sock.fileno() >= 0:
            self.loop.add_reader(self.sock.fileno(), self._accept)

    def close(self) -> None:
        """Takes no more."""
        if self.sock.fileno() >= 0:
            self.loop.remove_reader(self.sock.fileno())
            self.sock.close()

    def _accept(self) -> None:
        for _ in range(AT_ONCE):
            try:
                sock, _ = self.sock.accept()
            except (BlockingIOError, InterruptedError, ConnectionAbortedError):
                return
            except OSError:
                self.loop.remove_reader(self.sock.fileno())
                self.loop.call_later(PAUSE, self.open)
                return
            self.taken(sock)


class NamedDoor(Door):
    """One whose socket has a file that this process made."""

    def __init__(self, path: str, mode: int | None, group: str | None, loop: asyncio.AbstractEventLoop,
                 taken: Callable[[socket.socket], None]) -> None:
        self.path = path
        self._lock = lock(path)
        super().__init__(unix_socket(path, mode, group), loop, taken)
        self._file = self._found()

    def is_found(self) -> bool:
        """Whether others find it by its name."""
        return self._found() == self._file

    def close(self) -> None:
        """Takes no more, and removes its own file."""
        super().close()
        if self.is_found():
            os.unlink(self.path)

    def _found(self) -> tuple[int, int] | None:
        try:
            found = os.stat(self.path)
        except OSError:
            return None
        return found.st_dev, found.st_ino
