"""Sources of Rattle as far as claims go: the items of a file, what its names stand for, and what no claim may hide in.

Comments are left out, and nothing in a string counts as code."""

from __future__ import annotations

import functools
import re
from dataclasses import dataclass, field
from typing import Iterator

LITERAL = re.compile(
    r'//[^\n]*|/\*|\bb?r(#*)".*?"\1|\bb?"(?:[^"\\]|\\.)*"|"(?:[^"\\]|\\.)*"'
    r"|(?<![\w'])b?'(?:\\[^'\n]+|[^\\'\n])'", re.S)
HEAD = re.compile(
    r"(pub(?:\([^)]*\))?\s+)?((?:(?:unsafe|async|const)\s+)*fn|ghost\s+use|extern\s+crate|[a-z_]+!?)"
    r"\s*(\w+)?")
CLAUSE = re.compile(r"\b(?:requires|ensures)\*?(?:\s+\w+)?\s*$")
WITH_BODY = ("struct", "enum", "trait", "impl", "mod", "union")
# What could make code of other text than the one that is read here.
HIDING = {"macro_rules!": "a macro", "macro": "a macro", "include!": "an include", "extern crate": "an extern crate"}


@dataclass(frozen=True)
class Item:
    """One item: its text up to its body for a function, and whole for all else."""

    kind: str
    name: str
    is_public: bool
    text: str
    body: str
    attributes: str


@dataclass
class Source:
    """A file: its items, what its ghost names stand for, what it uses, and what is refused in it."""

    path: str
    items: tuple[Item, ...]
    scope: dict[str, frozenset[str]] = field(default_factory=dict)
    ghost_uses: tuple[tuple[str, str], ...] = ()
    uses: dict[str, str] = field(default_factory=dict)
    exports: dict[str, str] = field(default_factory=dict)
    faults: tuple[str, ...] = ()
    text: str = ""
    models: tuple[tuple[str, Item], ...] = ()

    @functools.cached_property
    def crate(self) -> str:
        return self.path.split("/")[1]

    @property
    def modules(self) -> tuple[str, ...]:
        """The path of its module within its crate."""
        parts = self.path[: -len(".rt")].split("/")[3:]
        return tuple(parts[:-1] if parts[-1] in ("lib", "main", "mod") else parts)

    def named(self, name: str, *kinds: str) -> list[Item]:
        return [item for item in self.items if item.name == name and item.kind in kinds]


def blanked(text: str) -> tuple[str, str, bool]:
    """The text with blanks for its comments, the same with blanks for its strings too, and whether it has a comment of
    a block, which isn't blanked."""
    bare, code, at, has_block = [], [], 0, False
    for found in LITERAL.finditer(text):
        literal, blank = found.group(0), re.sub(r"[^\n]", " ", found.group(0))
        before = text[at:found.start()]
        is_comment, at = literal.startswith("//"), found.end()
        has_block = has_block or literal == "/*"
        bare.append(before + (blank if is_comment else literal))
        code.append(before + (literal if literal == "/*" else blank))
    return "".join(bare) + text[at:], "".join(code) + text[at:], has_block


def behind(code: str, at: int) -> int:
    """The place behind the bracket that closes the one at this place, or the text's end."""
    depth = 0
    for found in re.compile(r"[][(){}]").finditer(code, at):
        depth += 1 if found.group(0) in "([{" else -1
        if depth == 0:
            return found.end()
    return len(code)


def next_of(code: str, at: int, wanted: str) -> int:
    """The place of the next of these characters outside of brackets, or the text's end."""
    while at < len(code):
        if code[at] in wanted:
            return at
        at = behind(code, at) if code[at] in "([{" else at + 1
    return len(code)


def function_ends(code: str, at: int) -> tuple[int, int]:
    """Where a function's signature with its clauses ends, and where its body does."""
    while True:
        place = next_of(code, at, "{;")
        if place >= len(code) or code[place] == ";":
            return place, min(place + 1, len(code))
        if not CLAUSE.search(code, at, place):
            return place, behind(code, place)
        at = behind(code, place)


def ends_of(kind: str, code: str, at: int) -> tuple[int, int]:
    """Where the text of an item that begins here ends, and where the item does."""
    if kind.endswith("fn"):
        return function_ends(code, at)
    if kind in WITH_BODY:
        place = next_of(code, at, "{;")
        end = behind(code, place) if code[place:place + 1] == "{" else place + 1
        return min(end, len(code)), min(end, len(code))
    end = min(next_of(code, at, ";") + 1, len(code))
    return end, end


def items_of(bare: str, code: str) -> Iterator[Item]:
    """The items at the top of a text, given without comments, and without its strings too."""
    at, attributes = 0, ""
    while at < len(code):
        if code[at].isspace() or code[at] in ";}":
            at += 1
        elif code[at] == "#":
            end = behind(code, code.index("[", at))
            attributes += " " + bare[at:end]
            at = end
        else:
            found = HEAD.match(code, at)
            if not found or found.end() == at:
                at += 1
                continue
            kind = " ".join(found.group(2).split())
            text_end, end = ends_of(kind, code, found.end(2))
            is_public = (found.group(1) or "").strip() == "pub"
            yield Item(kind.rpartition(" ")[2] if kind.endswith("fn") else kind, found.group(3) or "", is_public,
                       bare[at:text_end], bare[text_end:end], attributes)
            at, attributes = max(end, at + 1), ""


def ghost_pairs(path: str) -> list[tuple[str, str]]:
    """What an import of names of specs brings: each as it is written here, and its full name; nothing for another
    form."""
    found = re.match(r"([^\s{}*]+?)(?:\.\{([^{}]*)\})?(?: as (\S+))?$", " ".join(path.split()))
    if not found:
        return []
    module, names, alias = found.groups()
    if names is None:
        return [(alias or module.split(".")[-1], module)]
    pairs = [name.strip().split(" as ") for name in names.split(",") if name.strip()]
    return [(pair[-1].strip(), module + "." + pair[0].strip()) for pair in pairs]


def use_pairs(path: str) -> Iterator[tuple[str, str]]:
    """What a `use` of Rust brings: each name as it is written here, and its path."""
    path = " ".join(path.split())
    front, brace, rest = path.partition("{")
    if not brace:
        name, _, alias = path.partition(" as ")
        yield alias.strip() or name.split("::")[-1].strip(), name.strip()
        return
    depth, piece = 0, ""
    for sign in rest[: rest.rindex("}")] + ",":
        depth += (sign == "{") - (sign == "}")
        if sign == "," and depth == 0:
            if piece.strip():
                yield from use_pairs(front + re.sub(r"^self\b", "", piece.strip()).strip())
            piece = ""
        else:
            piece += sign


def models_in(items: list[Item]) -> Iterator[tuple[str, Item]]:
    """The impls of Model, each with the type that it is for."""
    for item in items:
        found = re.match(r"impl\b[^{]*\bModel\s+for\s+(\w+)", item.text) if item.kind == "impl" else None
        if found:
            yield found.group(1), item


def hidden_in(item: Item) -> Iterator[str]:
    """What no claim may hide in."""
    if item.kind in HIDING:
        yield HIDING[item.kind]
    if re.search(r"#!?\[\s*(cfg_attr|path|macro_use)\b", item.attributes):
        yield "an attribute that changes what is read"
    if re.search(r"#!?\[\s*cfg\b", item.attributes):
        yield "a cfg elsewhere than at a module of tests"
    if item.kind == "mod" and "{" in item.text:
        yield "a module within a file"


def is_of_tests(item: Item) -> bool:
    """Whether the item is a module that is there for tests alone."""
    return item.kind == "mod" and re.search(r"#\[\s*cfg\(test\)\s*\]", item.attributes) is not None


@functools.lru_cache(maxsize=None)
def parse(path: str, text: str) -> Source:
    """The file of this path with this text."""
    bare, code, has_block = blanked(text)
    items = [item for item in items_of(bare, code) if not is_of_tests(item)]
    faults = ["a block comment"] if has_block else []
    ghosts: list[tuple[str, str]] = []
    for found in re.finditer(r"\bghost\s+use\s+([^;]*);", code):
        pairs = ghost_pairs(found.group(1))
        ghosts += pairs
        faults += [] if pairs else ["an import that can't be read: %s" % found.group(1)]
    scope: dict[str, set[str]] = {}
    for name, full in ghosts:
        scope.setdefault(name, set()).add(full)
    uses: dict[str, str] = {}
    exports: dict[str, str] = {}
    for item in items:
        faults += hidden_in(item)
        if item.kind == "use":
            pairs = list(use_pairs(re.sub(r"^(pub(\([^)]*\))?\s+)?use\s+|;$", "", item.text)))
            uses.update(pairs)
            exports.update(pairs if item.is_public else [])
            faults += ["a use of all names"] if any("*" in path for _, path in pairs) else []
            if item.is_public and re.search(r"\bas\b", item.text):
                faults.append("a pub use that renames")
    return Source(path, tuple(items), {name: frozenset(fulls) for name, fulls in scope.items()}, tuple(ghosts), uses,
                  exports, tuple(faults), bare, tuple(models_in(items)))
