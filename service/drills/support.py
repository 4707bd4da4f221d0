"""What the drills share: a folder that is removed, a manager in it, and an answer of one line.

The program is $IXM, and else this repository's ixm, or the installed one where this is no repository.
"""

import os
import resource
import shutil
import signal
import socket
import subprocess
import sys
import tempfile
import threading
import time
from collections.abc import Callable
from pathlib import Path

HERE = Path(__file__).resolve().parent
GUARD = HERE.parent / "guard"
FRONT = next(it for it in (HERE.parent / "front", HERE.parent.parent / "front") if it.is_dir())
REPOSITORY_IXM = HERE.parent.parent / "ixm"
FOUND = str(REPOSITORY_IXM) if REPOSITORY_IXM.is_file() else shutil.which("ixm") or "ixm"
IXM = os.path.abspath(os.environ.get("IXM", FOUND))
RULES = "*(any $v do($v))"
LIMIT = 60.0  # seconds for each reply
LEASE = 60000  # milliseconds


class Wrong(Exception):
    """The drill's answer is no, and this is why."""


def check(holds: bool, why: str) -> None:
    """Ends the drill with no, and why, where something doesn't hold."""
    if not holds:
        raise Wrong(why)


def answer(name: str, drill: Callable[[Path], str]) -> None:
    """Runs a drill in a folder of its own, and ends with 0 and `NAME: yes, WHAT`, or with 1 and `NAME: no, WHY`."""
    folder = Path(tempfile.mkdtemp(prefix="drill-"))
    try:
        (folder / "rules").write_text(RULES)
        print(f"{name}: yes, {drill(folder)}")
    except (Wrong, OSError, subprocess.SubprocessError) as error:
        sys.exit(f"{name}: no, {error}")
    finally:
        shutil.rmtree(folder, ignore_errors=True)


def replay(rules: Path, journal: Path, *lines: str) -> list[str]:
    """What a run of these requests puts, the first line without it being `history N`; its last line if it fails."""
    script = "".join(f"1 0 {line}\n" for line in lines)
    file = journal.with_name("script")
    file.write_text(script)
    ended = subprocess.run([IXM, "replay", rules, journal, file], stdout=subprocess.PIPE, text=True)
    put = ended.stdout.splitlines()
    check(ended.returncode == 0, f"a run on {journal.name} ended with {ended.returncode}: {put[-1:]}")
    return [put[0], *(line.removeprefix("0 ") for line in put[1:])]


def history(rules: Path, journal: Path) -> list[str]:
    """The actions of a journal in their order, as a run on a copy of it tells them."""
    copy = journal.with_name(f"{journal.name}.asked")
    shutil.copy(journal, copy)
    count = int(replay(rules, copy)[0].removeprefix("history "))
    entries = replay(rules, copy, *(f"log {number}" for number in range(1, count + 1)))[1:]
    return [entry.split(" ", 2)[2] for entry in entries]


def guard(journal: Path, kept: Path | None = None) -> str:
    """What the guard says against a journal, and nothing where it accepts it."""
    words = [GUARD, journal, *([] if kept is None else [kept])]
    ended = subprocess.run(words, stdout=subprocess.DEVNULL, stderr=subprocess.PIPE, text=True)
    check(ended.returncode in (0, 1), f"the guard ended with {ended.returncode}: {ended.stderr}")
    return ended.stderr.strip() if ended.returncode else ""


class Engine:
    """A connection to a manager or its front, over which actions are brought about."""

    def __init__(self, path: Path) -> None:
        self.socket = socket.socket(socket.AF_UNIX)
        self.socket.settimeout(LIMIT)
        self.socket.connect(str(path))
        self.replies = self.socket.makefile("r", newline="\n")

    def request(self, line: str) -> str:
        """The reply to a request."""
        self.socket.sendall(line.encode() + b"\n")
        return self.replies.readline().rstrip("\n")

    def ask(self, action: str) -> str:
        """The ticket of a grant."""
        reply = self.request(f"ask {action} {LEASE}")
        check(reply.startswith("granted "), f"ask {action} was answered {reply}")
        return reply.removeprefix("granted ")

    def confirm(self, ticket: str) -> int:
        """The number of the ticket's action in the history."""
        reply = self.request(f"confirm {ticket}")
        check(reply.startswith("confirmed "), f"confirm {ticket} was answered {reply}")
        return int(reply.removeprefix("confirmed "))

    def do(self, action: str) -> int:
        """Brings an action about, and gives its number."""
        return self.confirm(self.ask(action))

    def leave(self) -> None:
        """Closes the connection."""
        self.replies.close()
        self.socket.close()


class Manager(Engine):
    """A manager on a journal, and one connection to it. What it began with is `history`."""

    def __init__(self, rules: Path, journal: Path) -> None:
        self.path = journal.with_name("socket")
        self.path.unlink(missing_ok=True)
        # A write that passes a limit fails, and doesn't end it, since it isn't given the signals of before Python.
        self.process = subprocess.Popen([IXM, "serve", rules, journal, self.path], stdout=subprocess.PIPE, text=True,
                                        restore_signals=False)
        assert self.process.stdout is not None
        self.put = self.process.stdout
        first = self.put.readline().split()
        if first[:1] != ["history"]:
            raise Wrong(f"a start on {journal.name} put {' '.join(first)}, status {self.process.wait()}")
        self.history = int(first[1])
        super().__init__(self.path)

    def __enter__(self) -> "Manager":
        return self

    def __exit__(self, *_: object) -> None:
        self.kill()

    def wait(self) -> int:
        """The status with which it ends by itself."""
        return self.process.wait(LIMIT)

    def lose_disk(self) -> None:
        """From now on no file takes a byte of it."""
        resource.prlimit(self.process.pid, resource.RLIMIT_FSIZE, (0, 0))

    def kill(self) -> None:
        """Ends it as a loss of power would."""
        if self.process.poll() is None:
            self.process.send_signal(signal.SIGKILL)
        self.process.wait()
        self.leave()
        self.put.close()


class Front(Engine):
    """A front before a manager, whose one connection it takes over, and a connection to it. Its log goes on in `log`."""

    def __init__(self, manager: Manager, folder: Path) -> None:
        manager.leave()
        path, self.log = folder / "front", folder / "front.log"
        self.process = subprocess.Popen([FRONT / "ixm-front", manager.path, path, "--log", self.log])
        until = time.monotonic() + LIMIT
        while not path.exists():
            check(self.process.poll() is None and time.monotonic() < until, "the front doesn't start")
            time.sleep(0.01)
        super().__init__(path)

    def __enter__(self) -> "Front":
        return self

    def __exit__(self, *_: object) -> None:
        """Ends it when its log is written."""
        self.leave()
        self.process.terminate()
        check(self.process.wait(LIMIT) == 0, "the front didn't end with 0")


class Writer(threading.Thread):
    """Brings one action about after the other, until it is ended. `done` is the number of the last."""

    def __init__(self, manager: Manager) -> None:
        super().__init__()
        self.manager, self.done, self.is_over, self.fault = manager, manager.history, False, ""
        self.start()

    def run(self) -> None:
        try:
            while not self.is_over:
                self.done = self.manager.do(f"do(v{self.done + 1})")
        except (Wrong, OSError) as error:
            self.fault = str(error)

    def end(self) -> None:
        """Waits for the last action."""
        self.is_over = True
        self.join()
        check(not self.fault, self.fault)
