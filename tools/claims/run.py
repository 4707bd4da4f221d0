"""The command: `believe.py [--write]`."""

from __future__ import annotations

import argparse
import os

from . import digests, faults, page, reading
from .tree import DIGESTS, PAGE, read_tree


def write(top: str) -> None:
    """Writes the computed parts of the page and the digests anew."""
    now = reading.read(read_tree(top))
    for path, text in ((PAGE, page.rewritten(now, now.tree.text(PAGE))), (DIGESTS, digests.written(now))):
        with open(os.path.join(top, path), "w", encoding="utf-8") as file:
            file.write(text)


def main(top: str, words: list[str]) -> int:
    parser = argparse.ArgumentParser(prog="believe.py")
    parser.add_argument("--write", action="store_true", help="write the lists and the digests anew")
    if parser.parse_args(words).write:
        try:
            write(top)
        except page.PageFault as why:
            print(why)
            return 1
    now = reading.read(read_tree(top))
    found = faults.faults(now)
    for fault in found:
        print(fault)
    internal = [module for module in now.names.modules.values() if module.is_internal]
    believed = "believed: %d definitions in %d modules, %d types and constants" % (
        len(now.believed), len(now.believed_modules), len(now.declared))
    rest = "internal: %d definitions in %d modules" % (sum(len(module.texts) for module in internal), len(internal))
    print("%s; %s; %s" % (believed, rest, "%d faults" % len(found) if found else "as %s says" % PAGE))
    return 1 if found else 0
