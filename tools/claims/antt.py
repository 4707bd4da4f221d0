"""Modules of definitions: what each of their names stands for, and which names a text has."""

from __future__ import annotations

import functools
import re
from dataclasses import dataclass, field
from typing import Iterator, Mapping

from .rust import ghost_pairs

NAME = r"[A-Za-z_][\w'-]*"
DOTTED = re.compile(r"(?<![\w'.-])(%s)((?:\.%s)*)" % (NAME, NAME))
KINDS = ("abbrev pub ", "unfoldable pub ", "pub data ", "pub record ", "pub ", "abbrev ", "unfoldable ", "data ",
         "record ")
LISTS = ("Lib", "inside", "lemmas")
# Letters that definitions may have beside those of ASCII. Others may look like these and be read as other names.
LETTERS = "λℕℤℚℝ𝓛"
Scope = Mapping[str, frozenset[str]]


@dataclass
class Module:
    """A module of specs: its imports and, by name, the text of each definition."""

    path: str
    crate: str
    short: str
    name: str
    is_list: bool
    imports: list[tuple[str, str]] = field(default_factory=list)
    exports: dict[str, str] = field(default_factory=dict)
    texts: dict[str, str] = field(default_factory=dict)
    makers: dict[str, str] = field(default_factory=dict)
    fields: set[str] = field(default_factory=set)
    faults: list[str] = field(default_factory=list)
    mentions: dict[str, frozenset[tuple[str, str]]] = field(default_factory=dict)

    @property
    def is_internal(self) -> bool:
        return self.short.split(".")[0] in ("inside", "lemmas")

    def lines(self) -> int:
        return sum(lines_of(text) for text in self.texts.values())


def lines_of(text: str) -> int:
    return sum(1 for line in text.split("\n") if line.strip())


def without_comments(text: str) -> str:
    """The text without its comments, which begin with two dashes at a line's begin or behind a space."""
    return re.sub(r"(?m)(^|(?<=\s))--(?=\s|-|!|/|$).*$", "", text)


def mentioned(text: str, scope: Scope) -> frozenset[tuple[str, str]]:
    """The names in a text that may stand for something outside of it: each as it is written, with a full name. A name
    that a pattern or a binder gives is among them too: one too many is better than one too few."""
    found = set()
    for first, rest in set(DOTTED.findall(text)):
        for full in ("Rattle",) if first == "Rattle" else scope.get(first, frozenset()):
            found.add((first + rest, full + rest))
    for written, fulls in scope.items():
        if not re.match(NAME + "$", written) and all(part in text for part in written.split("◌")):
            found |= {(written, full) for full in fulls}
    return frozenset(found)


def take_import(module: Module, statement: str, is_public: bool) -> None:
    pairs = ghost_pairs(re.sub(r"^(pub )?use ", "", statement))
    module.imports += pairs
    if is_public:
        module.exports.update(pairs)
    if not pairs:
        module.faults.append("an import that can't be read: %s" % statement)


def take(module: Module, statement: str) -> None:
    """Takes one statement: all lines up to the next one that isn't indented."""
    if not statement or re.match(r"unfolding |[)}\]]", statement):
        return
    if re.match(r"(pub )?mod ", statement):
        if not module.is_list:
            module.faults.append("a module within a module")
    elif re.match(r"mutual\b", statement):
        take_all(module, re.sub(r"(?m)^  ", "", statement.partition("\n")[2]))
    elif re.match(r"(pub )?use ", statement):
        take_import(module, statement, statement.startswith("pub "))
    elif module.is_list:
        module.faults.append("a list of modules that holds something else")
    else:
        take_definition(module, statement)


def take_definition(module: Module, statement: str) -> None:
    kind = next((kind for kind in KINDS if statement.startswith(kind)), "")
    named = re.match(r"[^\s{(:]+", statement[len(kind):])
    if named is None:
        module.faults.append("a statement that can't be read: %s" % statement.split("\n")[0])
        return
    name = named.group(0)
    module.texts[name] = module.texts.get(name, "") + statement + "\n"
    if "data" in kind:
        for names in re.findall(r"(?m)^  ((?:%s\s+)*%s)\s+:" % (NAME, NAME), statement):
            module.makers.update((maker, name) for maker in names.split())
    if "record" in kind:
        module.fields |= set(re.findall(r"(?m)^  pub (%s) :" % NAME, statement))


def take_all(module: Module, text: str) -> None:
    for statement in re.split(r"(?m)^(?=\S)", text):
        take(module, statement.rstrip())


def strange_letters(text: str) -> Iterator[str]:
    for letter in sorted(set(text)):
        if letter.isalpha() and not letter.isascii() and letter not in LETTERS:
            yield "a letter that is none of ours: %s" % letter


def scope_of(module: Module) -> Scope:
    scope: dict[str, set[str]] = {}
    for name in [*module.texts, *module.makers]:
        scope.setdefault(name, set()).add(module.name + "." + name)
    for name, full in module.imports:
        scope.setdefault(name, set()).add(full)
    return {name: frozenset(fulls) for name, fulls in scope.items()}


@functools.lru_cache(maxsize=None)
def parse(path: str, text: str) -> Module:
    """The module of this path with this text."""
    crate, _, rest = path[len("crates/"):].partition("/specs/")
    short = rest[: -len(".antt")].replace("/", ".")
    module = Module(path, crate, short, "Rattle.%s.specs.%s" % (crate, short), short.split(".")[-1] in LISTS)
    bare = without_comments(text)
    if "{-" in bare or "-}" in bare:
        module.faults.append("a block comment")
    if short.split(".")[0] == "declared":
        module.faults.append("a module that takes the place of declared types")
    module.faults += strange_letters(bare)
    take_all(module, bare)
    scope = scope_of(module)
    module.mentions = {name: mentioned(own, scope) for name, own in module.texts.items()}
    return module
