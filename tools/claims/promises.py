"""What the page of promises names, against what is there.

A promise is an item of a list: its sentence, after `*by*` the calls that carry it, each with its clauses in parentheses,
and after `*believe*` the modules, each with its definitions in parentheses. A paragraph may name either for all items of
its chapter."""

from __future__ import annotations

import re
from typing import Iterator

from . import rust
from .reading import Reading
from .tree import PROMISES

PARTS = re.compile(r"(\*by\*|\*believe\*)")
CALL = re.compile(r"`([\w:]+)` \(((?:`\w+`(?:, )?)+)\)")
CLAUSES = re.compile(r"\b(?:ensures|requires) (\w+)")
ITEM = r"(?:[-*+]|\d+\.) "
MODULE = re.compile(r"\b([A-Z]\w+)(?: \(([^)]*)\))?")


def known_names(reading: Reading) -> set[str]:
    """The names of functions, types, traits, clauses, definitions and fields."""
    known = set(reading.tree.crates)
    for source in reading.names.sources.values():
        known |= set(re.findall(r"\b(?:fn|enum|struct|trait|ensures|requires|ghost) (\w+)", source.text))
    for module in reading.names.modules.values():
        known |= set(module.texts) | module.fields
    return known


def functions_in(item: rust.Item) -> Iterator[tuple[str, set[str]]]:
    """The functions in the text of an item, each with its clauses."""
    code = rust.blanked(item.text)[1]
    for found in re.finditer(r"\bfn (\w+)", code):
        end = rust.function_ends(code, found.end())[0]
        yield found.group(1), set(CLAUSES.findall(code[found.end():end]))


def clauses(reading: Reading) -> dict[str, set[str]]:
    """The clauses of each function, trait and impl: `call`, `Type::call`, or `Type` with those of all its calls."""
    found: dict[str, set[str]] = {}
    for item in (item for source in reading.names.sources.values() for item in source.items):
        owners = [item.name] if item.kind == "trait" else re.findall(r"\b[A-Z]\w+", item.text.partition("{")[0])
        owners = owners if item.kind in ("trait", "impl") else []
        for name, own in functions_in(item) if owners or item.kind == "fn" else ():
            for key in [name, *owners, *("%s::%s" % (owner, name) for owner in owners)]:
                found.setdefault(key, set()).update(own)
    return found


def blocks(page: str) -> list[str]:
    """The items and the paragraphs of the page, in one line each."""
    return [" ".join(block.split()) for block in re.split(r"\n\s*\n|\n(?=%s|\|)" % ITEM, page) if block.strip()]


def part_of(block: str, mark: str) -> str:
    """What stands in a block after this mark, up to the next one."""
    pieces = PARTS.split(block)
    return " ".join(text for found, text in zip(pieces[1::2], pieces[2::2]) if found == mark)


def calls(reading: Reading, text: str, known: set[str], contracts: dict[str, set[str]]) -> Iterator[str]:
    """The calls and clauses that this text names and that aren't there."""
    for name in re.findall(r"`([\w:]+)`", text):
        if name.split("::")[-1] not in known or re.match("[A-Z].*::", name) and name not in contracts:
            yield "%s: nothing is called %s" % (PROMISES, name)
    for name, listed in CALL.findall(text):
        for clause in re.findall(r"\w+", listed):
            if clause not in contracts.get(name, set()):
                yield "%s: %s has no clause %s" % (PROMISES, name, clause)


def modules(reading: Reading, text: str) -> Iterator[str]:
    """The modules and definitions that this text names and that aren't there."""
    for crate, names in re.findall(r"`(ix_\w+)`([^`]*)", text):
        for name, listed in MODULE.findall(names):
            places = ("Rattle.%s.specs.%s%s" % (crate, inside, name) for inside in ("", "inside."))
            found = [reading.names.modules[place] for place in places if place in reading.names.modules]
            if not found:
                yield "%s: %s has no module %s" % (PROMISES, crate, name)
            for definition in re.findall(r"\w+", listed) if found else ():
                if not any(definition in {*module.texts, *module.makers, *module.exports} for module in found):
                    yield "%s: %s %s has no %s" % (PROMISES, crate, name, definition)


def faults(reading: Reading) -> Iterator[str]:
    """What the page names and isn't there, and promises that name nothing that carries them."""
    known, contracts = known_names(reading), clauses(reading)
    for block in blocks(reading.tree.text(PROMISES)):
        if block.startswith("|"):
            yield "%s: a table, whose names nothing looks at: %s" % (PROMISES, block[:60])
        if re.match(ITEM, block) and "*by*" not in block:
            yield "%s: nothing carries the promise: %s" % (PROMISES, block[:60])
        yield from calls(reading, part_of(block, "*by*"), known, contracts)
        yield from modules(reading, part_of(block, "*believe*"))
