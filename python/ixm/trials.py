"""What trials of the real program share: where it is, a manager in a folder, and to say what
doesn't hold.

The programs are $IXM and $IXC, and those of this repository if they aren't set.
"""

import contextlib
import os
import resource
import shutil
import signal
import socket
import subprocess
import tempfile
import time
from collections.abc import Callable, Iterator, Sequence
from types import TracebackType
from typing import IO

from ixm.engine import Connection

ANYTHING = "*(any $v do($v))"  # rules that permit each `do(v)` at any time
WAIT = 60.0  # seconds after which a wait has failed


def program(name: str = "ixm") -> str:
    """The path of a program: that of $IXM for `ixm`, and else the one of this repository."""
    top = os.path.dirname(os.path.dirname(os.path.dirname(os.path.abspath(__file__))))
    return os.path.abspath(os.environ.get(name.upper(), f"{top}/{name}"))


def built(name: str = "ixm") -> str:
    """The path of a program that is built: so that it isn't built while it is waited for, or timed."""
    path = program(name)
    subprocess.run([path], stdin=subprocess.DEVNULL, stdout=subprocess.DEVNULL, stderr=subprocess.DEVNULL)
    return path


def check(holds: object, text: str) -> None:
    """Ends the process with the text if this doesn't hold."""
    if not holds:
        raise SystemExit(text)


def wait_until(holds: Callable[[], object], what: str, seconds: float = WAIT) -> None:
    """Waits until this holds, and fails with what was waited for."""
    end = time.monotonic() + seconds
    while not holds():
        check(time.monotonic() < end, f"waited in vain: {what}")
        time.sleep(0.005)


def listens(path: str) -> bool:
    """Whether a process listens at a Unix socket."""
    with socket.socket(socket.AF_UNIX) as connected:
        return connected.connect_ex(path) == 0


@contextlib.contextmanager
def folder(parent: str | None = None) -> Iterator[str]:
    """A new folder, removed at the end: in memory if that can be had and none is given."""
    memory = "/dev/shm" if os.access("/dev/shm", os.W_OK) else None
    made = tempfile.mkdtemp(prefix="ixm-", dir=parent or memory)
    try:
        yield made
    finally:
        shutil.rmtree(made)


def make_certificate(folder: str) -> str | None:
    """A file with a certificate of localhost that signs itself, and its key. None if openssl isn't
    here."""
    path = f"{folder}/certificate"
    words = ["openssl", "req", "-x509", "-newkey", "ec", "-pkeyopt", "ec_paramgen_curve:prime256v1"]
    words += ["-nodes", "-keyout", path, "-out", f"{path}.part", "-days", "2", "-subj", "/CN=localhost"]
    words += ["-addext", "subjectAltName=DNS:localhost"]
    try:
        subprocess.run(words, check=True, capture_output=True)
    except FileNotFoundError:
        return None
    with open(f"{path}.part") as made, open(path, "a") as file:
        file.write(made.read())
    return path


class Manager:
    """`ixm serve` in a folder, with the files `expression`, `journal` and `socket` there.

    `expression` are the rules; if they aren't given, the file is there. `history` is the number of
    actions that it began with. No file of it may grow beyond `largest_file` bytes: a write behind
    that fails, as on a full disk. At the end of a `with` block it is killed if it runs.
    """

    def __init__(
        self,
        folder: str,
        expression: str | None = None,
        options: Sequence[str] = (),
        largest_file: int | None = None,
    ) -> None:
        self.folder, self.options, self.largest_file = folder, list(options), largest_file
        self.path, self.journal = f"{folder}/socket", f"{folder}/journal"
        self.process: subprocess.Popen[str] | None = None
        self.history = 0
        if expression is not None:
            with open(f"{folder}/expression", "w") as file:
                file.write(expression)
        self.start()

    def __enter__(self) -> "Manager":
        return self

    def __exit__(
        self, kind: type[BaseException] | None, error: BaseException | None, trace: TracebackType | None
    ) -> None:
        self.kill()

    def start(self) -> None:
        """Starts it, on the journal that is there, and waits until it listens."""
        if os.path.exists(self.path):
            os.remove(self.path)
        words = [program(), "serve", *self.options, f"{self.folder}/expression", self.journal, self.path]
        self.process = subprocess.Popen(
            words, stdout=subprocess.PIPE, text=True, preexec_fn=lambda: _limit_files(self.largest_file)
        )
        put = self._stdout().readline().split()
        if put[:1] != ["history"]:
            raise SystemExit(f"a start put {' '.join(put)}, status {self.process.wait()}")
        self.history = int(put[1])

    def _stdout(self) -> IO[str]:
        assert self.process is not None and self.process.stdout is not None
        return self.process.stdout

    def connect(self, limit: float | None = WAIT) -> Connection:
        return Connection(self.path, limit)

    def request(self, line: str) -> list[str]:
        """One request on a connection of its own."""
        with self.connect() as connection:
            return connection.request(line)

    def kill(self) -> None:
        """Ends it with SIGKILL, if it runs."""
        if self.process is not None:
            self.process.kill()
            self.ended()

    def stop(self) -> None:
        """Stops it, and checks that it ends as after a stop."""
        self.request("stop")
        status, _ = self.ended()
        check(status == 0, f"a stop ended the manager with status {status}")

    def ended(self) -> tuple[int, str]:
        """Its status and what it put behind its first line, once it has ended."""
        assert self.process is not None
        put = self._stdout().read()
        self._stdout().close()
        status, self.process = self.process.wait(), None
        return status, put


def _limit_files(size: int | None) -> None:
    if size is not None:
        signal.signal(signal.SIGXFSZ, signal.SIG_IGN)
        resource.setrlimit(resource.RLIMIT_FSIZE, (size, size))
