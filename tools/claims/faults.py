"""What is wrong with the claims of a tree and with the pages that tell them, one line each."""

from __future__ import annotations

import re
from typing import Iterator

from . import digests, page, promises, rust
from .antt import Module
from .claims import called_by, main_files
from .names import Declared
from .reading import Reading
from .tree import PAGE


def refused_texts(reading: Reading) -> Iterator[str]:
    """Forms of text in which a claim could hide, or stand for another than it seems."""
    for path, source in reading.names.sources.items():
        for fault in source.faults:
            yield "%s: has %s, in which a claim could hide" % (path, fault)
    for module in [*reading.names.modules.values(), *reading.names.lists]:
        for fault in module.faults:
            yield "%s: has %s, in which a claim could hide" % (module.path, fault)


def names_of_ours(reading: Reading) -> dict[str, set[str]]:
    """By crate, the names of what is believed: definitions, constructors, fields, types, variants and constants."""
    found: dict[str, set[str]] = {}
    for module in reading.believed_modules:
        found.setdefault(module.crate, set()).update(module.texts, module.makers, module.fields)
    for place in reading.declared:
        own = found.setdefault(place.crate, set())
        own.add(place.name)
        for item in reading.names.item(place):
            own |= set(re.findall(r"(?m)^\s+([A-Z]\w*)\b", item.text) if item.kind == "enum" else [])
    return found


def imports(reading: Reading) -> list[tuple[str, str, str, str]]:
    """The imports of what is believed and of the files of claims: file, crate, written name and full name."""
    found = [(module.path, module.crate, *pair) for module in reading.believed_modules for pair in module.imports]
    for path in reading.claim_files():
        source = reading.names.sources[path]
        found += [(path, source.crate, *pair) for pair in source.ghost_uses]
    return found


def last_of(full: str) -> str:
    return full.rpartition(".")[2]


def renames(reading: Reading) -> Iterator[str]:
    """Imports that give a name of ours, or of a library, to something else, where the crate or one below it has that name."""
    ours, all_imports = names_of_ours(reading), imports(reading)
    of_libraries: dict[str, set[str]] = {}
    for _, crate, written, full in all_imports:
        if written == last_of(full) and (full.split(".") + [""])[1] not in reading.tree.crates:
            of_libraries.setdefault(crate, set()).add(written)
    for path, crate, written, full in all_imports:
        if written == last_of(full) or reading.names.resolve(full).is_module:
            continue
        below = set().union(*(ours.get(name, set()) | of_libraries.get(name, set())
                              for name in reading.tree.at_or_below(crate)))
        if written in below or "◌" in written + full:
            yield "%s: %s is imported as %s, which is the name of something else" % (path, full, written)


def rust_renames(reading: Reading) -> Iterator[str]:
    """In the files of claims, uses that give something of ours another name."""
    for path in [*reading.claim_files(), *(main.path for main in main_files(reading.names))]:
        source = reading.names.sources[path]
        for written, used in source.uses.items():
            found = reading.names.item_of_path(source, used)
            is_crate = used in reading.tree.crates
            if written != used.split("::")[-1] and (is_crate or isinstance(found, Declared)):
                yield "%s: %s is used as %s, so its name isn't what is called" % (path, used, written)


def programs(reading: Reading) -> Iterator[str]:
    """Programs that don't call what is claimed by its name alone."""
    mains = main_files(reading.names)
    if not mains:
        yield "no program calls a function of this repository"
    for main in mains:
        named, _ = called_by(reading.names, main)
        code = rust.blanked(main.text)[1]
        if not named:
            yield "%s: calls no function of this repository" % main.path
        for place in named:
            if not re.search(r"(?<![\w:.])%s\(" % place.name, code):
                yield "%s: doesn't call %s( by its name alone" % (main.path, place.name)
            if re.search(r"\b(?:fn|let|let mut) %s\b" % place.name, code):
                yield "%s: gives the name %s to something of its own" % (main.path, place.name)


def reached(reading: Reading) -> Iterator[str]:
    """Names that can't be followed, and definitions that stand on the wrong side of specs/inside/."""
    for path, full in reading.lost():
        yield "%s: a claim reaches %s, which is no definition of specs/ that can be followed" % (path, full)
    believed, modules = reading.believed, {module.name for module in reading.believed_modules}
    for name, module in reading.names.modules.items():
        of_module = {place.name for place in believed if place.module == name}
        for definition in module.texts:
            if definition in of_module and module.is_internal:
                yield "%s: a claim reaches %s, so it doesn't belong here" % (module.path, definition)
            if definition not in of_module and not module.is_internal:
                yield "%s: no claim reaches %s, so it belongs in specs/inside/" % (module.path, definition)
        if name in modules and not module.is_internal:
            yield from imports_from_inside(module)


def imports_from_inside(module: Module) -> Iterator[str]:
    for _, full in module.imports:
        if re.match(r"Rattle\.\w+\.(specs\.(inside|lemmas)|proofs)\b", full) and not full.startswith("Rattle.std."):
            yield "%s: imports %s, which isn't to be believed" % (module.path, full)


def laws_are_public(reading: Reading) -> Iterator[str]:
    for claim in (claim for part in reading.parts for claim in part.claims if claim.kind == "law"):
        if not reading.names.is_exported(Declared(claim.path, "fn", claim.name)):
            yield "%s: the law %s isn't public" % (claim.path, claim.name)


def models_of_devices(reading: Reading) -> Iterator[str]:
    """What a device is given or gives is read as it stands: with a Model a proof would see something else of it."""
    for claim in (claim for part in reading.parts for claim in part.claims if claim.kind == "trait"):
        for _, target in reading.closure.of_rust(claim.path, claim.text, True)[0]:
            if isinstance(target.place, Declared):
                for path, _ in reading.closure.models_of(target.place):
                    yield "%s: %s has a Model, and the trait %s speaks of it" % (path, target.place.name, claim.name)


def order(reading: Reading) -> Iterator[str]:
    text = reading.tree.text(PAGE)
    names = page.in_page_order(text, [module.name for module in reading.believed_modules])
    for place, name in enumerate(names):
        for other in page.imports_of(reading, name) & set(names[place + 1:]):
            yield "%s: %s stands above %s, which it imports" % (PAGE, name, other)


def told(reading: Reading) -> Iterator[str]:
    """Whether the page says what is computed."""
    text = reading.tree.text(PAGE)
    try:
        if page.rewritten(reading, text) != text:
            yield "%s: its lists aren't those of the claims; tools/believe.py --write writes them anew" % PAGE
    except page.PageFault as fault:
        yield str(fault)


LASTING = (refused_texts, renames, rust_renames, programs, reached, laws_are_public, models_of_devices, promises.faults)
WRITTEN = (order, digests.faults, told)


def lasting(reading: Reading) -> list[str]:
    """What is wrong, and is so after the page and the digests were written again too."""
    return sorted({fault for check in LASTING for fault in check(reading)})


def faults(reading: Reading) -> list[str]:
    """All that is wrong."""
    return sorted({fault for check in (*LASTING, *WRITTEN) for fault in check(reading)})
