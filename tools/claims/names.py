"""What each name stands for: a definition of specs/, a declared type or constant of src/, or something of a library."""

from __future__ import annotations

import functools
import os
import re
from dataclasses import dataclass
from typing import Iterable, Iterator

from . import antt, rust
from .tree import Tree

# The parts of a declared name that come behind its type, or in the place of one.
PARTS_OF_TYPES = ("TheVariants", "TheShapes", "TheDeep")
CONSTANTS = "TheConstants"


@dataclass(frozen=True, order=True)
class Definition:
    """A definition of specs/: its module and its name."""

    module: str
    name: str


@dataclass(frozen=True, order=True)
class Declared:
    """A type, constant, trait or function of src/: its file, its kind and its name."""

    path: str
    kind: str
    name: str

    @property
    def crate(self) -> str:
        return self.path.split("/")[1]

    @property
    def is_type(self) -> bool:
        return self.kind in ("struct", "enum", "type", "union")


@dataclass(frozen=True)
class Target:
    """What a full name stands for, by its own full name. A name of a library and that of a module have no place, and a
    name of ours that is nowhere is lost."""

    full: str
    place: Definition | Declared | None = None
    is_lost: bool = False
    is_module: bool = False


class Names:
    """All names of a tree."""

    def __init__(self, tree: Tree) -> None:
        self.tree = tree
        parsed = [antt.parse(path, tree.text(path)) for path in tree.specs()]
        self.lists = [module for module in parsed if module.is_list]
        self.modules = {module.name: module for module in parsed if not module.is_list}
        self.sources: dict[str, rust.Source] = {}
        for crate in sorted(tree.crates):
            self.read_sources(self.root_of(crate))
        self.models: dict[tuple[str, str], list[tuple[str, rust.Item]]] = {}
        for path, source in self.sources.items():
            for name, item in source.models:
                self.models.setdefault((source.crate, name), []).append((path, item))
        self.resolve = functools.lru_cache(maxsize=None)(self.resolve_now)
        self.item_at = functools.lru_cache(maxsize=None)(self.item_now)

    def root_of(self, crate: str) -> str:
        main = "crates/%s/src/main.rt" % crate
        return main if main in self.tree.files else "crates/%s/src/lib.rt" % crate

    def file_of(self, crate: str, modules: Iterable[str]) -> str | None:
        """The file of this module of a crate."""
        parts = list(modules)
        if not parts:
            return self.root_of(crate)
        stem = "crates/%s/src/%s" % (crate, "/".join(parts))
        return next((path for path in (stem + ".rt", stem + "/mod.rt") if path in self.tree.files), None)

    def read_sources(self, path: str) -> None:
        """Reads a file and those of the modules that it names."""
        if path in self.sources or path not in self.tree.files:
            return
        source = rust.parse(path, self.tree.text(path))
        self.sources[path] = source
        for item in source.items:
            below = self.file_of(source.crate, (*source.modules, item.name))
            if item.kind == "mod" and below:
                self.read_sources(below)

    def resolve_now(self, full: str) -> Target:
        """What a full name of specs stands for. Parts behind it that are fields are left out."""
        parts = full.split(".")
        if parts[0] != "Rattle" or len(parts) < 2 or parts[1] not in self.tree.crates:
            return Target(full)
        if parts[2:4] == ["specs", "declared"]:
            return self.declared(full, parts)
        for count in range(len(parts), 2, -1):
            module = self.modules.get(".".join(parts[:count]))
            if module is not None:
                return self.named(module, parts[count:]) if parts[count:] else Target(full, is_module=True)
        return Target(full, is_lost=True)

    def named(self, module: antt.Module, parts: list[str]) -> Target:
        """What these parts stand for in a module."""
        name = parts[0]
        if name in module.exports:
            return self.resolve(".".join([module.exports[name], *parts[1:]]))
        if name in module.texts or name in module.makers:
            # A constructor may stand behind its type.
            maker = next((part for part in reversed(parts[:2]) if part in module.makers), name)
            home = module.makers.get(maker, name)
            return Target("%s.%s" % (module.name, maker), Definition(module.name, home))
        return Target(".".join([module.name, *parts]), is_lost=True)

    def declared(self, full: str, parts: list[str]) -> Target:
        """The declared type or constant of this full name."""
        crate, rest = parts[1], parts[4:]
        modules: list[str] = []
        while rest and self.file_of(crate, [*modules, rest[0]]):
            modules.append(rest.pop(0))
        if not rest or rest[0] == CONSTANTS and len(rest) == 1:
            return Target(full, is_module=True)
        name = rest[1] if rest[0] == CONSTANTS else rest[0]
        source = self.sources.get(self.file_of(crate, modules) or "")
        found = source.named(name, "struct", "enum", "type", "union", "const", "static") if source else []
        if not source or not found:
            return Target(full, is_lost=True)
        if rest[0] == name and rest[-1] in PARTS_OF_TYPES:
            return Target(full, Declared(source.path, found[0].kind, name), is_module=True)
        return Target(full, Declared(source.path, found[0].kind, name))

    def item_now(self, path: str, name: str) -> Declared | str:
        """What a name of Rust stands for in this file: an item of ours, or the path of something else."""
        source = self.sources[path]
        kinds = ("struct", "enum", "type", "union", "const", "static", "trait", "fn")
        for item in source.named(name, *kinds):
            return Declared(path, item.kind, name)
        if name in source.uses:
            return self.item_of_path(source, source.uses[name])
        return name

    def item_of_path(self, source: rust.Source, path: str) -> Declared | str:
        """What a path of Rust stands for in this file."""
        parts = path.removeprefix("::").split("::")
        crate, modules = source.crate, list(source.modules)
        if parts[0] == "crate":
            modules, parts = [], parts[1:]
        elif parts[0] in self.tree.crates:
            crate, modules, parts = parts[0], [], parts[1:]
        elif not self.file_of(crate, [*modules, parts[0]]) and parts[0] not in ("self", "super"):
            return path
        while len(parts) > 1:
            if parts[0] == "super":
                modules = modules[:-1]
            elif parts[0] != "self":
                modules.append(parts[0])
            parts = parts[1:]
        below = self.file_of(crate, modules)
        if not parts or below is None or below not in self.sources:
            return path
        if below == source.path and source.uses.get(parts[0]) == path:
            return path
        return self.item_at(below, parts[0])

    def rust_names(self, source: rust.Source, text: str) -> Iterator[tuple[str, Declared | str]]:
        """The names of types, traits and constants in a text of Rust, with what they stand for."""
        for name in sorted(set(re.findall(r"(?<![\w'.])[A-Z]\w*", text))):
            yield name, self.item_at(source.path, name)

    def item(self, place: Declared) -> list[rust.Item]:
        return self.sources[place.path].named(place.name, place.kind)

    def is_exported(self, place: Declared) -> bool:
        """Whether other crates can name it: by a path of public modules, or by its own name at its crate's root."""
        root = self.sources[self.root_of(place.crate)]
        used = root.exports.get(place.name)
        if used is not None and self.item_of_path(root, used) == place:
            return True
        return self.has_public_path(place.path) and all(item.is_public for item in self.item(place))

    def has_public_path(self, path: str) -> bool:
        """Whether all modules on the way to this file are public."""
        source = self.sources[path]
        for count in range(len(source.modules)):
            above = self.sources.get(self.file_of(source.crate, source.modules[:count]) or "")
            named = above.named(source.modules[count], "mod") if above else []
            if not named or not all(item.is_public for item in named):
                return False
        return True


def short_path(path: str) -> str:
    """A file within its crate, as `src/lib.rt`."""
    return os.path.join(*path.split("/")[2:])
