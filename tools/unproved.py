#!/usr/bin/env python3
"""Keeps a program of this repository that `rt try` compiled with checks, with nothing proved, and puts where it is kept.

    tools/unproved.py NAME

NAME is ixm, ixc or ixmd. The program is kept in the folder ixm of $XDG_CACHE_HOME, or of ~/.cache, under a checksum of the
kit and of all sources: of a changed source no program is there yet, so it is compiled. Of each name the four programs that
were used last are left. Where a program can't be kept nothing is put, with status 0; where it can't be compiled, the status
is that of `rt try`.
"""

from __future__ import annotations

import contextlib
import hashlib
import os
import re
import shutil
import signal
import socket
import subprocess
import sys
import tempfile
import time

TOP = os.path.dirname(os.path.dirname(os.path.realpath(__file__)))
KEPT = 4  # programs of one name
PAUSE = 0.05  # seconds between two looks at whether the program runs


class AtFile:
    """A run of ixm that waits until it is let go: its expression's file is a pipe."""

    def __init__(self, folder: str) -> None:
        self.pipe = f"{folder}/pipe"
        os.mkfifo(self.pipe)
        self.words = ["trace", self.pipe, os.devnull]

    def has_come(self) -> bool:
        """Whether the program runs, and waits."""
        try:
            self.end = os.open(self.pipe, os.O_WRONLY | os.O_NONBLOCK)
        except OSError:  # nobody reads it yet
            return False
        return True

    def let_go(self) -> None:
        os.close(self.end)


class AtSocket:
    """The same of ixc: nobody replies to it."""

    def __init__(self, folder: str) -> None:
        self.listener = socket.socket(socket.AF_UNIX)
        self.listener.setblocking(False)
        self.listener.bind(f"{folder}/socket")
        self.listener.listen()
        self.words = [f"{folder}/socket", "a", "1"]

    def has_come(self) -> bool:
        try:
            self.client, _ = self.listener.accept()
        except BlockingIOError:
            return False
        return True

    def let_go(self) -> None:
        self.listener.close()
        self.client.close()


def say(text: str) -> None:
    print(text, file=sys.stderr, flush=True)


def identify_kit() -> bytes:
    """What tells this kit from another."""
    rt = shutil.which("rt")
    if rt is None:
        sys.exit("unproved: there is no `rt` here: the Rattle toolchain is needed")
    with contextlib.suppress(OSError), open(f"{os.path.dirname(os.path.realpath(rt))}/../KIT-ID", "rb") as file:
        return file.read()
    return subprocess.run(["rt", "version"], stdout=subprocess.PIPE, check=True).stdout


def checksum() -> str:
    """The sum of the kit and of all that a program may be compiled of, which is no definition and no proof."""
    names = [f"{TOP}/crates.txt"]
    for folder, folders, files in os.walk(f"{TOP}/crates"):
        folders[:] = [it for it in folders if it not in ("out", "must-fail", "specs", "proofs")]
        names += [f"{folder}/{file}" for file in files]
    total = hashlib.sha256(identify_kit())
    for name in sorted(names):
        with open(name, "rb") as file:
            data = file.read()
        total.update(f"{name[len(TOP):]} {len(data)}\n".encode() + data)
    return total.hexdigest()[:32]


def program_below(folder: str) -> str | None:
    """The program in this folder."""
    for at, _, names in os.walk(folder):
        for path in (f"{at}/{name}" for name in names):
            if os.path.isfile(path) and os.access(path, os.X_OK):
                return path
    return None


def compile_to(part: str, name: str) -> tuple[int, str]:
    """Has `rt try` compile the program and run it, and copies it to `part` while it runs. Gives the status of `rt try` and
    what it said."""
    with tempfile.TemporaryDirectory(prefix="ixm-") as folder, open(f"{folder}/said", "w+", errors="replace") as said:
        waiting: AtFile | AtSocket = AtSocket(folder) if name == "ixc" else AtFile(folder)
        trying = subprocess.Popen(["rt", "try", "--", *waiting.words], cwd=f"{TOP}/crates/ix_{name}",
                                  env={**os.environ, "TMPDIR": folder}, stdin=subprocess.DEVNULL, stdout=said, stderr=said)
        try:
            while not (has_come := waiting.has_come()) and trying.poll() is None:
                time.sleep(PAUSE)
            if has_come:
                program = program_below(folder)
                if program is not None:
                    shutil.copyfile(program, part)
                waiting.let_go()
            trying.wait()
        finally:
            trying.terminate()
            trying.wait()
        said.seek(0)
        return trying.returncode, said.read()


def runs(program: str) -> bool:
    """Whether it runs here: without words each program says what it wants, and ends."""
    os.chmod(program, 0o755)
    return subprocess.run([program], stdin=subprocess.DEVNULL, stdout=subprocess.DEVNULL).returncode in (0, 2)


def remove_unused(folder: str, name: str) -> None:
    """Leaves the programs of this name that were used last."""
    kept = [entry for entry in os.scandir(folder) if entry.name.startswith(f"{name}-")]
    for entry in sorted(kept, key=lambda entry: entry.stat().st_mtime)[:-KEPT]:
        with contextlib.suppress(FileNotFoundError):
            os.remove(entry)


def compile_kept(name: str, kept: str, total: str) -> bool:
    """Compiles the program and keeps it, if the sources still have this sum then. Whether it can be kept at all; where it
    can't be compiled, this ends with the status of `rt try`."""
    descriptor, part = tempfile.mkstemp(dir=os.path.dirname(kept), prefix=f"{name}-")
    os.close(descriptor)
    try:
        status, said = compile_to(part, name)
        if not re.search("^run=ended ", said, re.M):
            say(said)
            sys.exit(status)
        if os.path.getsize(part) == 0 or not runs(part):
            return False
        if checksum() == total:
            os.rename(part, kept)
            remove_unused(os.path.dirname(kept), name)
        return True
    finally:
        with contextlib.suppress(FileNotFoundError):
            os.remove(part)


def find(name: str, folder: str) -> str | None:
    """Where the program is kept; it is compiled first where that is needed. None where it can't be kept."""
    while True:
        total = checksum()
        kept = f"{folder}/{name}-{total}"
        if os.path.exists(kept):
            os.utime(kept)
            return kept
        say(f"{name}: the program is compiled with checks first, which takes about two minutes")
        if not compile_kept(name, kept, total):
            return None


def main(name: str) -> None:
    for number in (signal.SIGINT, signal.SIGTERM):
        # So that what was begun is removed.
        signal.signal(number, lambda got, _: sys.exit(128 + got))
    folder = f"{os.environ.get('XDG_CACHE_HOME') or os.path.expanduser('~/.cache')}/ixm"
    try:
        os.makedirs(folder, mode=0o700, exist_ok=True)
        kept = find(name, folder)
    except OSError as error:
        say(f"{name}: {error}")
        return
    if kept is not None:
        say(f"{name}: NOTHING IS PROVED of this run; the program is kept as {kept}")
        print(kept)


main(*sys.argv[1:])
