#!/usr/bin/env python3
"""Has mypy and pyflakes look at every file of this repository in Python: one that ends in .py, or whose first line names it.

    tools/typed.py

mypy reads the files of a folder at once, and finds the modules of that folder before those of others, as Python does. Nothing
is kept for the next call: mypy may take for right what it kept where a module of the same name was another file. The lines that
are put name each file that isn't right. Ends with 0 where there are none, else with 1; with 77 where no file had to be named,
but one of the two programs isn't here."""

from __future__ import annotations

import os
import shutil
import subprocess
import sys
import tempfile
from collections.abc import Iterator

TOP = os.path.dirname(os.path.dirname(os.path.abspath(__file__)))
BUILT = ("out", "build", "__pycache__")  # folders of what was made from other files
MODULES = ("service", "etcd/tests", "python", "front", "tools", "bench")  # folders whose modules others import, the first first
ELSEWHERE = {"bench/etcd": "etcd/tests"}  # scripts that find the modules of another folder before those of their own
MYPY = ("mypy", "--strict", "--ignore-missing-imports", "--scripts-are-modules", "--no-error-summary",
        "--config-file", "python/pyproject.toml", "--python-version", "3.11")  # the file says how selenium is read


def is_python(path: str) -> bool:
    if path.endswith(".py"):
        return True
    with open(path, "rb") as file:
        first = file.readline(100)
    return first.startswith(b"#!") and b"python" in first


def is_source(folder: str) -> bool:
    """Whether a folder of this name may have files that people wrote."""
    return folder not in BUILT and not folder.startswith(".") and not folder.endswith(".egg-info")


def files() -> Iterator[str]:
    """The paths of all files in Python, from the top."""
    for folder, folders, names in os.walk(TOP):
        folders[:] = sorted(filter(is_source, folders))
        for name in sorted(names):
            path = os.path.join(folder, name)
            if os.path.isfile(path) and is_python(path):
                yield os.path.relpath(path, TOP)


def home_of(path: str) -> str:
    """The folder where a file finds modules first: its own, and for a module of a package the one that the package lies in."""
    folder = os.path.dirname(path)
    while os.path.exists(os.path.join(TOP, folder, "__init__.py")):
        folder = os.path.dirname(folder)
    return ELSEWHERE.get(path, folder)


def types_hold(paths: list[str], cache: str) -> bool:
    """Whether mypy names no file."""
    by_home: dict[str, list[str]] = {}
    for path in paths:
        by_home.setdefault(home_of(path), []).append(path)
    hold = True
    for home, group in by_home.items():
        places = [os.path.join(TOP, place) for place in dict.fromkeys((home, *MODULES))]
        known = {**os.environ, "MYPYPATH": ":".join(places)}
        hold &= subprocess.run([*MYPY, "--cache-dir", cache, *group], cwd=TOP, env=known).returncode == 0
    return hold


def main() -> int:
    missing = [program for program in ("mypy", "pyflakes3") if shutil.which(program) is None]
    paths = list(files())
    is_right = True
    if "mypy" not in missing:
        with tempfile.TemporaryDirectory() as cache:
            is_right &= types_hold(paths, cache)
    if "pyflakes3" not in missing:
        is_right &= subprocess.run(["pyflakes3", *paths], cwd=TOP).returncode == 0
    print(f"typed: {len(paths)} files in Python" + ("" if is_right else ", and those above are not right"))
    for program in missing:
        print(f"typed: {program} is not installed, so it looked at none of them")
    return 1 if not is_right else 77 if missing else 0


if __name__ == "__main__":
    sys.exit(main())
