"""What the tests share: a manager and a front as processes, a client, and a place in which their files lie."""

from __future__ import annotations

import json
import os
import resource
import shutil
import signal
import socket
import subprocess
import tempfile
import time
import unittest
from collections.abc import Callable, Mapping
from typing import Any

HERE = os.path.dirname(os.path.abspath(__file__))
IXM = os.path.abspath(os.environ.get("IXM", f"{HERE}/../../ixm"))
IXC = os.environ.get("IXC", "")  # nothing where it isn't to be tried
FRONT = f"{HERE}/../ixm-front"
AUDIT = f"{HERE}/../audit"
TIMEOUT = 60.0  # seconds behind which a wait has failed
EXPRESSION = "*(any $v do($v))"

Record = dict[str, Any]


def wait_until(holds: Callable[[], bool], what: str) -> None:
    """Waits until this holds."""
    end = time.monotonic() + TIMEOUT
    while not holds():
        if time.monotonic() > end:
            raise AssertionError(f"waited in vain: {what}")
        time.sleep(0.005)


def listens(path: str) -> bool:
    """Whether a process listens on a socket."""
    with socket.socket(socket.AF_UNIX) as sock:
        return sock.connect_ex(path) == 0


def page(folder: str, name: str, method: str = "GET") -> str:
    """A page of the front's metrics or health, with the head of the reply."""
    with socket.socket(socket.AF_UNIX) as sock:
        sock.settimeout(TIMEOUT)
        sock.connect(f"{folder}/page")
        sock.sendall(f"{method} {name} HTTP/1.0\r\n\r\n".encode())
        try:
            return sock.makefile().read()
        except ConnectionError:
            return ""  # turned away


def metric(folder: str, name: str) -> float | None:
    """The value of a metric without labels or with these; None where it isn't told."""
    for line in page(folder, "/metrics").split("\n"):
        if line.startswith(f"{name} "):
            return float(line.rpartition(" ")[2])
    return None


def read_records(path: str) -> list[Record]:
    """The records of a log, torn lines left out."""
    with open(path, encoding="ascii") as file:
        return [json.loads(line) for line in file.read().split("\n")[:-1] if line.endswith("}")]


def last_record(path: str) -> Record:
    """The last record of a log; an empty one where there is none."""
    return (read_records(path) or [{}])[-1]


def records(folder: str, holds: Callable[[list[Record]], bool]) -> list[Record]:
    """The records of the log, as soon as this holds of them."""
    found: list[Record] = []

    def are_there() -> bool:
        found[:] = read_records(f"{folder}/log")
        return holds(found)

    wait_until(are_there, "the records")
    return found


def connect(sock: socket.socket, path: str) -> None:
    """Connects within the socket's time limit. One with a limit is refused at once where the queue of connections is
    full, and tries again after a pause."""
    end = time.monotonic() + (sock.gettimeout() or 0.0)
    while True:
        try:
            return sock.connect(path)
        except BlockingIOError:
            if time.monotonic() >= end:
                raise
            time.sleep(0.01)


class Client:
    """A connection that sends bytes and reads whole replies."""

    def __init__(self, path: str, timeout: float = TIMEOUT) -> None:
        self.sock = socket.socket(socket.AF_UNIX)
        self.sock.settimeout(timeout)
        try:
            connect(self.sock, path)
        except OSError:
            self.sock.close()
            raise
        self.file = self.sock.makefile("rb")

    def __enter__(self) -> Client:
        return self

    def __exit__(self, *_: object) -> None:
        self.close()

    def send(self, *lines: str) -> None:
        """Sends lines."""
        self.sock.sendall(b"".join(line.encode() + b"\n" for line in lines))

    def reply(self) -> str | None:
        """One reply without its last line end, or None where the connection is closed in front of its end."""
        try:
            first = self.file.readline()
            lines = [first]
            if first.startswith(b"changes "):
                lines += [self.file.readline() for _ in range(int(first.split()[1]))]
        except ConnectionError:
            return None
        if not all(line.endswith(b"\n") for line in lines):
            return None
        return b"".join(lines)[:-1].decode()

    def request(self, line: str) -> str | None:
        """Sends a line, and gives its reply."""
        self.send(line)
        return self.reply()

    def told(self, line: str) -> str:
        """The same, where a closed connection is an OSError."""
        reply = self.request(line)
        if reply is None:
            raise ConnectionError(f"closed behind {line}")
        return reply

    def ticket(self, action: str, lease: int = 60000) -> str:
        """The ticket under which an action is granted."""
        reply = self.told(f"ask {action} {lease}")
        if not reply.startswith("granted "):
            raise AssertionError(f"{action} -> {reply}")
        return reply.split()[1]

    def close(self) -> None:
        """Closes the connection."""
        self.file.close()
        self.sock.close()


class Manager:
    """`ixm serve` in a folder. `runs` holds for each start the journal as it was found."""

    def __init__(self, folder: str) -> None:
        self.folder = folder
        self.path = f"{folder}/manager"
        self.process: subprocess.Popen[bytes] | None = None
        self.runs: list[str] = []

    def start(self) -> Manager:
        """Starts it, and waits until it listens."""
        if os.path.exists(self.path):
            os.remove(self.path)
        kept = f"{self.folder}/journal.{len(self.runs)}"
        if os.path.exists(f"{self.folder}/journal"):
            shutil.copy(f"{self.folder}/journal", kept)
        self.runs.append(kept)
        words = [IXM, "serve", "expression", "journal", "manager"]
        self.process = subprocess.Popen(words, cwd=self.folder, stdout=subprocess.PIPE)
        assert self.process.stdout is not None
        first = self.process.stdout.readline()
        if not first.startswith(b"history "):
            raise AssertionError(f"the manager put {first!r}")
        return self

    @property
    def pid(self) -> int:
        """Its process."""
        assert self.process is not None
        return self.process.pid

    def wait(self) -> int:
        """Its status, once it has ended."""
        assert self.process is not None
        return self.process.wait(TIMEOUT)

    def kill(self) -> None:
        """Ends it with -9."""
        if self.process is not None:
            self.process.kill()
            self.process.wait()
            assert self.process.stdout is not None
            self.process.stdout.close()
            self.process = None


class Front:
    """The front in a folder, with its log in the file `log`."""

    def __init__(self, folder: str, manager: str, *options: str) -> None:
        self.folder = folder
        self.path = f"{folder}/front"
        self.words = [FRONT, manager, self.path, "--log", f"{folder}/log", *options]
        self.process: subprocess.Popen[bytes] | None = None
        self.environment: Mapping[str, str] = os.environ
        self.stderr: int | None = None

    def start(self) -> Front:
        """Starts it, and waits until it listens."""
        self.process = subprocess.Popen(self.words, env=self.environment, stderr=self.stderr)
        process = self.process
        wait_until(lambda: listens(self.path) or process.poll() is not None, "the front listens")
        if process.poll() is not None:
            raise AssertionError(f"the front ended with {process.returncode}")
        return self

    @property
    def pid(self) -> int:
        """Its process."""
        assert self.process is not None
        return self.process.pid

    def status(self) -> int | None:
        """Its status where it has ended."""
        assert self.process is not None
        return self.process.poll()

    def memory(self) -> int:
        """The most memory that it ever had, in bytes."""
        with open(f"/proc/{self.pid}/status") as file:
            return next(int(line.split()[1]) * 1024 for line in file if line.startswith("VmHWM"))

    def allow(self, what: int, soft: int) -> int:
        """Sets a limit of the running process, and gives the one before."""
        before, hard = resource.prlimit(self.pid, what)
        resource.prlimit(self.pid, what, (soft, hard))
        return before

    def stop(self, number: int = signal.SIGTERM) -> int | None:
        """Ends it, and gives its status."""
        if self.process is not None:
            self.process.send_signal(number)
            status = self.process.wait(TIMEOUT)
            self.process = None
            return status
        return None


class Place(unittest.TestCase):
    """A test with a folder of its own, in memory where that can be had."""

    expression = EXPRESSION

    def setUp(self) -> None:
        parent = "/dev/shm" if os.access("/dev/shm", os.W_OK) else None
        self.folder = tempfile.mkdtemp(prefix="front-", dir=parent)
        os.chmod(self.folder, 0o755)  # for clients of other users
        self.addCleanup(shutil.rmtree, self.folder, ignore_errors=True)
        with open(f"{self.folder}/expression", "w") as file:
            file.write(self.expression)

    def manager(self) -> Manager:
        """A manager that runs."""
        manager = Manager(self.folder)
        self.addCleanup(manager.kill)
        return manager.start()

    def front(self, manager: str, *options: str) -> Front:
        """A front that runs."""
        front = Front(self.folder, manager, *options)
        self.addCleanup(front.stop, signal.SIGKILL)
        return front.start()

    def paged(self, manager: str, *options: str) -> Front:
        """A front that runs, with a page."""
        return self.front(manager, "--page", f"{self.folder}/page", *options)

    def client(self, path: str) -> Client:
        """A client that is closed at the end."""
        client = Client(path)
        self.addCleanup(client.close)
        return client


class Managed(Place):
    """The same, with a manager that runs."""

    def setUp(self) -> None:
        super().setUp()
        self.run_of = self.manager()
