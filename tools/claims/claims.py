"""The claims, and what they reach.

A claim is a contract: of each function of ours that a program's main names, of the traits that these functions range
over, of calls that are promised of a library alone, and of the laws, which are the public functions whose body is empty
or only calls others without arguments."""

from __future__ import annotations

import re
from dataclasses import dataclass, field
from typing import Iterable, Iterator

from . import antt, rust
from .names import Declared, Definition, Names, Target

Targets = list[tuple[str, Target]]
# The calls that docs/promises.md promises to whoever uses the libraries, and that no program makes.
LIBRARY = {("ix_lint", "lint")}
LAW = re.compile(r"\{\s*(?:\w+\(\);\s*)*\}$")


@dataclass
class Claim:
    """A contract: where it stands, its name, its text, and its names with what each stands for."""

    kind: str
    path: str
    name: str
    text: str
    stands_for: frozenset[tuple[str, str]] = frozenset()

    @property
    def crate(self) -> str:
        return self.path.split("/")[1]


@dataclass
class Reached:
    """Definitions, and declared types and constants, that something reaches; and names of ours that are nowhere, each
    with its place."""

    definitions: set[Definition] = field(default_factory=set)
    declared: set[Declared] = field(default_factory=set)
    lost: set[tuple[str, str]] = field(default_factory=set)

    def modules(self) -> set[str]:
        return {definition.module for definition in self.definitions}


@dataclass
class Part:
    """One list of the page: its claims, and what they reach."""

    heading: str
    claims: list[Claim]
    reached: Reached = field(default_factory=Reached)


class Closure:
    """Follows names as far as they go."""

    def __init__(self, names: Names) -> None:
        self.names = names
        self.stands_for: dict[Definition | Declared, frozenset[tuple[str, str]]] = {}

    def ghost_targets(self, text: str, scope: antt.Scope) -> Iterator[tuple[str, Target]]:
        for written, full in antt.mentioned(text, scope):
            yield written, self.names.resolve(full)

    def of_definition(self, place: Definition) -> Targets:
        module = self.names.modules[place.module]
        return [(written, self.names.resolve(full)) for written, full in module.mentions[place.name]]

    def of_rust(self, path: str, text: str, follows_types: bool) -> tuple[Targets, set[Declared]]:
        """What the names in a text of Rust stand for, those of its clauses and those of Rust; and its traits."""
        source = self.names.sources[path]
        targets = list(self.ghost_targets(text, source.scope))
        traits = set()
        for name, found in self.names.rust_names(source, text):
            if isinstance(found, str):
                targets.append((name, Target("::" + found)))
                continue
            full = "::".join([found.crate, found.path, found.name])
            if found.kind == "trait":
                traits.add(found)
            is_followed = follows_types and (found.is_type or found.kind in ("const", "static"))
            targets.append((name, Target(full, found if is_followed else None)))
        return targets, traits

    def text_of_declared(self, place: Declared) -> str:
        """The text of a declared type or constant, and what a proof sees of a type in place of it."""
        texts = [item.text for item in self.names.item(place)]
        return "\n".join(texts + [item.text for _, item in self.models_of(place)])

    def models_of(self, place: Declared) -> Iterator[tuple[str, rust.Item]]:
        """The impls of Model for a type, in its crate."""
        yield from self.names.models.get((place.crate, place.name), []) if place.is_type else []

    def of_declared(self, place: Declared) -> tuple[Targets, Targets]:
        """What the names of a declared type or constant stand for; and those of them that are followed. Where a type
        has a Model, its Value stands for it wherever a definition speaks of it, and what its fields are is code."""
        targets: Targets = []
        followed: Targets = []
        for item in self.names.item(place):
            targets += self.of_rust(place.path, item.text, True)[0]
        models = list(self.models_of(place))
        followed += [] if models else targets
        for path, item in models:
            targets += self.of_rust(path, item.text, True)[0]
            value = "".join(re.findall(r"\bghost Value = ([^;]*);", item.text))
            followed += self.of_rust(path, value, True)[0]
        return targets, followed

    def follow(self, start: Iterable[tuple[str, tuple[str, Target]]], reached: Reached) -> None:
        """Adds all that these names reach, each given with the place where it stands."""
        ahead = list(start)
        while ahead:
            where, (_, target) = ahead.pop()
            place = target.place
            if target.is_lost:
                reached.lost.add((where, target.full))
            if isinstance(place, Definition) and place not in reached.definitions:
                reached.definitions.add(place)
                targets = self.of_definition(place)
                self.stands_for[place] = told(targets)
                ahead += [(self.names.modules[place.module].path, target) for target in targets]
            elif isinstance(place, Declared) and place not in reached.declared:
                reached.declared.add(place)
                targets, followed = self.of_declared(place)
                self.stands_for[place] = told(targets)
                ahead += [(place.path, target) for target in followed]


def told(targets: Iterable[tuple[str, Target]]) -> frozenset[tuple[str, str]]:
    return frozenset((written, target.full) for written, target in targets)


def main_files(names: Names) -> list[rust.Source]:
    return [source for path, source in sorted(names.sources.items()) if path.endswith("/src/main.rt")]


def called_by(names: Names, main: rust.Source) -> tuple[list[Declared], list[tuple[Declared, str]]]:
    """What a main names of our crates: functions, and calls of types."""
    paths = {name: path for name, path in main.uses.items()}
    paths.update({found: found for found in re.findall(r"\b(?:%s)(?:::\w+)+" % "|".join(names.tree.crates), main.text)})
    functions, calls = [], []
    for written, path in sorted(paths.items()):
        found = names.item_of_path(main, path)
        if not isinstance(found, Declared):
            continue
        if found.kind == "fn" and found.crate != main.crate:
            functions.append(found)
        elif found.is_type and found.crate != main.crate:
            for method in sorted(set(re.findall(r"\b%s(?:::<[^;]*?>)?::([a-z]\w*)" % written, main.text))):
                calls.append((found, method))
    return sorted(set(functions)), sorted(set(calls))


def methods_of(names: Names, place: Declared, method: str) -> Iterator[Claim]:
    """The functions of this name in the impls of a type."""
    pattern = re.compile(r"^impl\b[^{]*\b%s\b" % place.name)
    for path, source in names.sources.items():
        for item in source.items:
            if source.crate == place.crate and item.kind == "impl" and pattern.search(item.text):
                found = re.search(r"(?s)\bpub fn %s\b.*" % method, item.text)
                if found:
                    end = rust.function_ends(rust.blanked(found.group(0))[1], len("pub fn "))[0]
                    yield Claim("call", path, "%s::%s" % (place.name, method), found.group(0)[:end])


def program_claims(names: Names) -> tuple[list[Claim], list[Claim]]:
    """The claims of programs, and their calls of types of ours, as of the real devices."""
    functions: dict[tuple[str, str], Claim] = {}
    calls: dict[tuple[str, str], Claim] = {}
    for main in main_files(names):
        named, methods = called_by(names, main)
        for place in named:
            for item in names.item(place):
                functions[place.path, place.name] = Claim("claim", place.path, place.name, item.text)
        for place, method in methods:
            for claim in methods_of(names, place, method):
                calls[claim.path, claim.name] = claim
    return list(functions.values()), list(calls.values())


def law_claims(names: Names) -> list[Claim]:
    return [Claim("law", path, item.name, item.text) for path, source in sorted(names.sources.items())
            for item in source.items if item.kind == "fn" and item.is_public and LAW.match(item.body.strip())]


def library_claims(names: Names) -> list[Claim]:
    return [Claim("claim", path, item.name, item.text) for path, source in sorted(names.sources.items())
            for item in source.items if item.kind == "fn" and (source.crate, item.name) in LIBRARY]


def parts_of(names: Names) -> tuple[list[Part], Closure]:
    """The three parts of the page, each with what it reaches."""
    closure = Closure(names)
    functions, calls = program_claims(names)
    traits: dict[Declared, Claim] = {}
    program = Part("The claim of the program", [*functions, *calls])
    devices = Part("The devices", [])
    ahead = follow_claims(closure, program, True)
    while ahead:
        place = ahead.pop()
        if place not in traits:
            items = names.item(place)
            traits[place] = Claim("trait", place.path, place.name, "\n".join(item.text for item in items))
            step = Part("", [traits[place]], devices.reached)
            # A bound of a trait stands in its head; those of its calls are of no other traits.
            ahead |= follow_claims(closure, step, True, re.compile(r"^[^{]*"))
    devices.claims = [traits[place] for place in sorted(traits)]
    laws = Part("The laws", [*library_claims(names), *law_claims(names)])
    follow_claims(closure, laws, True)
    return [program, devices, laws], closure


def follow_claims(closure: Closure, part: Part, follows_types: bool,
                  traits_in: re.Pattern[str] = re.compile(r"(?s)^.*")) -> set[Declared]:
    """Follows the names of a part's claims, and gives the traits that they range over."""
    traits: set[Declared] = set()
    for claim in part.claims:
        follows = follows_types and claim.kind != "call"
        targets, _ = closure.of_rust(claim.path, claim.text, follows)
        head = traits_in.match(claim.text)
        traits |= closure.of_rust(claim.path, head.group(0) if head else "", False)[1]
        claim.stands_for = told(targets)
        closure.follow([(claim.path, target) for target in targets], part.reached)
    return traits
