"""A manager that a script starts, looks at from outside, and ends."""

from __future__ import annotations

import contextlib
import os
import resource
import signal
import socket
import subprocess
import sys
import time
from collections.abc import Iterator, Sequence

TOP = os.path.dirname(os.path.dirname(os.path.abspath(__file__)))
EXPRESSION = "*(any $v do($v))"
LIMIT = 60.0  # seconds behind which a wait has failed
SHOWN = 200  # letters of a long text that are told
# An unproved build holds what was freed for a while, to find a use of it. Here it gives it back.
KEEPS_NOTHING = "quarantine_size_mb=0:thread_local_quarantine_size_kb=0"


def program(name: str) -> str:
    """The program to be run: $IXM, or this repository's of this name."""
    return os.path.abspath(os.environ.get("IXM", f"{TOP}/{name}"))


def build(path: str) -> None:
    """Runs it without words, so that it is built before it is timed or run in the background."""
    subprocess.run([path], stdout=subprocess.DEVNULL, stderr=subprocess.DEVNULL, check=False)


def compare(what: str, got: object, wanted: object) -> list[str]:
    """What is wrong if this isn't what is wanted."""
    if got == wanted:
        return []
    return [f"{what} is {repr(got)[:SHOWN]}, where {repr(wanted)[:SHOWN]} is wanted"]


class Client:
    """A connection to a manager, on which each wait has a limit."""

    def __init__(self, path: str, limit: float = LIMIT) -> None:
        self.socket = socket.socket(socket.AF_UNIX)
        self.socket.connect(path)  # a connect with a limit would be refused where the queue is full
        self.socket.settimeout(limit)
        self.lines = self.socket.makefile("rb")

    def __enter__(self) -> Client:
        return self

    def __exit__(self, *_: object) -> None:
        self.close()

    def close(self) -> None:
        self.lines.close()
        self.socket.close()

    def send(self, *lines: str) -> None:
        self.socket.sendall("".join(f"{line}\n" for line in lines).encode())

    def reply(self) -> str:
        """The next line of the replies; what there is of it where the connection was closed."""
        return self.lines.readline().decode("ascii", "replace").removesuffix("\n")

    def request(self, line: str) -> str:
        self.send(line)
        return self.reply()

    def bring_about(self, action: str, lease: int = 10_000) -> str:
        """The reply to the confirm of the action, or to its ask where that isn't granted."""
        granted = self.request(f"ask {action} {lease}")
        return self.request(f"confirm {granted.split()[1]}") if granted.startswith("granted ") else granted


class Running:
    """A manager that serves in a folder, on the journal that lies there."""

    def __init__(self, path: str, folder: str, expression: str = EXPRESSION, open_files: int | None = None,
                 options: Sequence[str] = (), file_size: int | None = None) -> None:
        """With `file_size` no file may grow beyond so many bytes: a write behind it fails, as on a full disk. That doesn't end
        it, since it isn't given the signals of before Python."""
        self.path = f"{folder}/socket"
        if os.path.exists(self.path):
            os.remove(self.path)
        with open(f"{folder}/expression", "w") as file:
            file.write(expression)
        words = [path, "serve", f"{folder}/expression", f"{folder}/journal", self.path, *options]
        self.process = subprocess.Popen(words, stdout=subprocess.PIPE, env={**os.environ, "ASAN_OPTIONS": KEEPS_NOTHING},
                                        restore_signals=file_size is None)
        if file_size is not None:
            resource.prlimit(self.process.pid, resource.RLIMIT_FSIZE, (file_size, file_size))
        if open_files is not None:
            resource.prlimit(self.process.pid, resource.RLIMIT_NOFILE, (open_files, open_files))
        first = self.line()
        if not first.startswith("history "):
            sys.exit(f"{path} put {first!r} and ended with status {self.process.wait()}")
        self.history = int(first.split()[1])

    def line(self) -> str:
        """The next line that it puts."""
        assert self.process.stdout is not None
        return self.process.stdout.readline().decode()

    def rest(self) -> str:
        """What it puts until its end."""
        assert self.process.stdout is not None
        return self.process.stdout.read().decode()

    def connect(self, limit: float = LIMIT) -> Client:
        return Client(self.path, limit)

    def memory(self) -> int:
        """The bytes that it has in memory now."""
        with open(f"/proc/{self.process.pid}/statm") as file:
            return int(file.read().split()[1]) * resource.getpagesize()

    def open_files(self) -> int:
        return len(os.listdir(f"/proc/{self.process.pid}/fd"))

    def settled(self, open_files: int, limit: float = LIMIT) -> bool:
        """Whether it comes to have so many open files in this time: what its clients closed it reads to the end first."""
        end = time.monotonic() + limit
        while self.open_files() != open_files and time.monotonic() < end:
            time.sleep(0.02)
        return self.open_files() == open_files

    @contextlib.contextmanager
    def paused(self) -> Iterator[None]:
        """It does nothing meanwhile: what is sent to it lies there before it looks."""
        self.process.send_signal(signal.SIGSTOP)
        os.waitid(os.P_PID, self.process.pid, os.WSTOPPED)
        try:
            yield
        finally:
            self.process.send_signal(signal.SIGCONT)

    def stop(self) -> int:
        """Its status behind a `stop`."""
        with self.connect() as client:
            client.request("stop")
        return self.wait()

    def wait(self) -> int:
        assert self.process.stdout is not None
        status = self.process.wait(timeout=LIMIT)
        self.process.stdout.close()
        return status

    def end(self) -> None:
        """Ends it where it runs still."""
        if self.process.poll() is None:
            self.process.send_signal(signal.SIGKILL)
            self.wait()


def actions_of(journal: str) -> list[str]:
    """The actions of a journal, as docs/journal.md says."""
    with open(journal, "rb") as file:
        data = file.read()
    actions = []
    gate = 7 + int.from_bytes(data[5:7], "big")
    while data[gate] == 0xA5:
        begin, gate = gate + 3, gate + 3 + int.from_bytes(data[gate + 1:gate + 3], "big")
        words = data[begin:gate].decode().split(" ")
        if words[0] != "boot":
            actions.append(words[-1])
    return actions
