"""The files that say what is claimed, by path: crates.txt, sources, specs and the pages that are compared with them."""

from __future__ import annotations

import glob
import os
import re
from typing import Mapping

PAGE = "docs/BELIEVE.md"
PROMISES = "docs/promises.md"
DIGESTS = "tools/claims/digests.txt"
LIST = "crates.txt"
READ = (LIST, PAGE, PROMISES, DIGESTS, "crates/*/src/**/*.rt", "crates/*/specs/**/*.antt")


class Tree:
    """Files by path, and the crates that crates.txt lists."""

    def __init__(self, files: Mapping[str, str]) -> None:
        self.files = dict(files)
        lines = [line.partition("#")[0].partition(":") for line in self.text(LIST).splitlines()]
        self.needs = {name.split()[0]: needed.split() for name, colon, needed in lines if colon}
        self.crates = set(self.needs) | {path.split("/")[1] for path in self.files if path.startswith("crates/")}

    def text(self, path: str) -> str:
        return self.files.get(path, "")

    def sources(self) -> list[str]:
        return sorted(path for path in self.files if re.match(r"crates/\w+/src/.*\.rt$", path))

    def specs(self) -> list[str]:
        return sorted(path for path in self.files if re.match(r"crates/\w+/specs/.*\.antt$", path))

    def at_or_below(self, crate: str) -> set[str]:
        """The crate and those of ours that it stands on."""
        found, ahead = set(), [crate]
        while ahead:
            name = ahead.pop()
            if name not in found and name in self.crates:
                found.add(name)
                ahead += self.needs.get(name, [])
        return found

    def with_edits(self, edits: Mapping[str, str]) -> Tree:
        """The tree with these texts in the place of those of the same paths."""
        return Tree({**self.files, **edits})


def read_tree(top: str) -> Tree:
    """The tree whose root is the folder `top`."""
    files = {}
    for pattern in READ:
        for path in glob.glob(os.path.join(glob.escape(top), pattern), recursive=True):
            with open(path, encoding="utf-8") as file:
                files[os.path.relpath(path, top)] = file.read()
    return Tree(files)
