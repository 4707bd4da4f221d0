"""What the tests over etcd share: a network of their own, a node of etcd in it, and a manager with its journal there."""

from __future__ import annotations

import json
import os
import signal
import socket
import subprocess
import sys
import time
import urllib.request
from collections.abc import Callable
from pathlib import Path
from typing import Any

HERE = Path(__file__).resolve().parent
SERVICE = HERE.parent.parent / "service"
ALONE = "IXM_ALONE"
MEMBER = "127.0.0.1:2379"
LIMIT = 120  # seconds for whatever a busy machine does


def go_alone() -> None:
    """Begins this program again in a network of its own, with names of networks that no other sees. Ends it with 77 where
    there can't be one. Told to end, it ends what it began."""
    if ALONE in os.environ:
        signal.signal(signal.SIGTERM, lambda number, frame: sys.exit(128 + number))
        return
    way = ["unshare", "--net", "--mount", "--propagation", "private"]
    if subprocess.run([*way, "true"]).returncode:
        sys.exit(77)
    os.environ[ALONE] = "yes"
    script = 'mkdir -p /run/netns && mount -t tmpfs none /run/netns && ip link set lo up && exec "$@"'
    os.execvp(way[0], [*way, "sh", "-c", script, "alone", sys.executable, os.path.realpath(sys.argv[0]), *sys.argv[1:]])


def ask_etcd(member: str, path: str, limit: float, **body: object) -> Any:
    """What this member answers."""
    request = urllib.request.Request(f"http://{member}/v3/{path}", json.dumps(body).encode())
    with urllib.request.urlopen(request, timeout=limit) as reply:
        return json.load(reply)


def check(holds: bool, what: object) -> None:
    if not holds:
        sys.exit(f"{Path(sys.argv[0]).name}: {what}")


def wait_for(holds: Callable[[], bool], what: str) -> None:
    end = time.monotonic() + LIMIT
    while not holds():
        check(time.monotonic() < end, f"in vain: {what}")
        time.sleep(0.1)


class Node:
    """A node of etcd, which the programs of this process ask too."""

    def __init__(self, folder: Path) -> None:
        os.environ["ETCDCTL_ENDPOINTS"] = MEMBER
        with open(folder / "etcd.log", "wb") as log:
            words = ["etcd", "--data-dir", f"{folder}/etcd", "--logger", "zap", "--log-level", "error"]
            self.process = subprocess.Popen(words, stdout=log, stderr=log)
        wait_for(self.answers, "etcd answers")

    def answers(self) -> bool:
        check(self.process.poll() is None, "etcd ended")
        try:
            ask_etcd(MEMBER, "maintenance/status", 10)
        except (OSError, ValueError):
            return False
        return True

    def __enter__(self) -> Node:
        return self

    def __exit__(self, *why: object) -> None:
        self.process.kill()
        self.process.wait()


def says(status: int, line: str, *words: str | Path) -> None:
    """Runs a program of service/, which has to end with this and to say this."""
    ended = subprocess.run([SERVICE / words[0], *words[1:]], stdout=subprocess.PIPE, stderr=subprocess.STDOUT, text=True)
    what = f"{words} ended with {ended.returncode}, not {status}, or didn't say {line!r}: {ended.stdout}"
    check(ended.returncode == status and line in ended.stdout, what)


def make_journal(program: str, folder: Path, count: int) -> Path:
    """A file with so many actions, of one boot."""
    file, script = folder / "journal", folder / "script"
    script.write_text("".join(f"1 0 ask do(v{n}) 9\n1 0 confirm 1-{n}\n" for n in range(1, count + 1)))
    subprocess.run([program, "replay", folder / "rules", file, script], stdout=subprocess.DEVNULL, check=True)
    return file


class Manager:
    """A manager, and a connection to it."""

    def __init__(self, program: str, rules: Path, journal: str, path: Path) -> None:
        path.unlink(missing_ok=True)
        words = [program, "serve", "--nodes", "100000", str(rules), journal, str(path)]
        self.process = subprocess.Popen(words, stdout=subprocess.PIPE, text=True)
        assert self.process.stdout is not None
        self.history = self.process.stdout.readline().strip()
        self.socket = socket.socket(socket.AF_UNIX)
        self.socket.settimeout(LIMIT)
        wait_for(lambda: self.socket.connect_ex(str(path)) == 0, "the manager listens")
        self.replies = self.socket.makefile("r", newline="\n")

    def ask(self, *lines: str) -> list[str]:
        """A reply of one line to each."""
        replies = []
        for line in lines:
            self.socket.sendall(f"{line}\n".encode())
            replies.append(self.replies.readline().strip())
        return replies

    def last_words(self) -> list[str]:
        """What it still puts until it ends by itself."""
        return self.process.communicate(timeout=LIMIT)[0].splitlines()

    def __enter__(self) -> Manager:
        return self

    def __exit__(self, *why: object) -> None:
        """Ends it as a crash does, where it wasn't told to stop."""
        self.process.kill()
        self.process.wait()
        assert self.process.stdout is not None
        self.process.stdout.close()
        self.replies.close()
        self.socket.close()
