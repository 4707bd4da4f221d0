"""One reading of a tree: its names, its claims, and what they reach."""

from __future__ import annotations

import functools
from dataclasses import dataclass
from typing import Iterator

from . import antt
from .claims import Closure, Part, parts_of
from .names import Declared, Definition, Names
from .tree import Tree


@dataclass
class Reading:
    tree: Tree
    names: Names
    parts: list[Part]
    closure: Closure

    @functools.cached_property
    def believed(self) -> set[Definition]:
        """All definitions that a claim reaches."""
        return {definition for part in self.parts for definition in part.reached.definitions}

    @functools.cached_property
    def declared(self) -> list[Declared]:
        """All declared types and constants that a claim reaches."""
        return sorted({place for part in self.parts for place in part.reached.declared})

    @functools.cached_property
    def believed_modules(self) -> list[antt.Module]:
        return [self.names.modules[name] for name in sorted({place.module for place in self.believed})]

    def modules_by_part(self) -> list[list[str]]:
        """For each part the modules that it reaches, and none before it."""
        lists, before = [], set[str]()
        for part in self.parts:
            lists.append(sorted(part.reached.modules() - before))
            before |= part.reached.modules()
        return lists

    def claim_files(self) -> Iterator[str]:
        """The files in which claims stand."""
        yield from sorted({claim.path for part in self.parts for claim in part.claims})

    def lost(self) -> set[tuple[str, str]]:
        return {lost for part in self.parts for lost in part.reached.lost}


def read(tree: Tree) -> Reading:
    names = Names(tree)
    parts, closure = parts_of(names)
    return Reading(tree, names, parts, closure)
