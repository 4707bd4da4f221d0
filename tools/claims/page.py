"""The parts of docs/BELIEVE.md that are computed: lists between two marks each, in the order to read."""

from __future__ import annotations

import itertools
import re
import textwrap
from dataclasses import dataclass
from typing import Iterable

from .antt import lines_of
from .claims import Closure, Reached
from .digests import declared_kind
from .names import Definition, short_path
from .reading import Reading
from .tree import PAGE

END = "<!-- end -->"
WIDTH = 118
MODULES = re.compile(r"(?m)^- `(\w+)` ([A-Z].*(?:\n  .*)*)")
WAY = re.compile(r"- `(\w)`, ([^:]*): (.*?)\. \d+ modules")
FROM_MODULES = re.compile(r"`(\w+)` ((?:[A-Z][\w.]*(?: \([^)]*\))?(?:, )?)+)")
TRAITS_OF = re.compile(r"the traits of `(\w+)`")


class PageFault(Exception):
    """The page can't be written, and why."""


@dataclass
class Way:
    """A short way: what a reader wants, its mark, where it begins, and what it reaches."""

    wanted: str
    mark: str
    text: str
    reached: Reached


def between(page: str, mark: str) -> str:
    """What stands between a mark and the next end."""
    return page.partition("<!-- %s -->" % mark)[2].partition(END)[0]


def with_list(page: str, mark: str, text: str) -> str:
    begin = "<!-- %s -->" % mark
    front, found, rest = page.partition(begin)
    if not found:
        raise PageFault("%s: the mark %s is missing" % (PAGE, begin))
    return front + begin + "\n" + text + "\n" + END + rest.partition(END)[2]


def item(text: str) -> str:
    """An item of a list; what a no-break space joins stays in one line."""
    lines = textwrap.wrap(text, WIDTH, break_long_words=False, break_on_hyphens=False)
    return ("- " + "\n  ".join(lines)).replace("\u00a0", " ")


# The order to read.

def listed(page: str) -> dict[str, int]:
    """The places of the modules that the page lists."""
    rows = [(crate, short) for part in re.findall(r"(?s)<!-- [^>]* -->(.*?)%s" % END, page)
            for crate, names in MODULES.findall(part) for short in re.findall(r"\b[A-Z][\w.]*", names)]
    return {"Rattle.%s.specs.%s" % row: place for place, row in enumerate(rows)}


def imports_of(reading: Reading, name: str) -> set[str]:
    """The modules from which a module imports."""
    found = set()
    for _, full in reading.names.modules[name].imports:
        target = reading.names.resolve(full)
        found.add(target.place.module if isinstance(target.place, Definition) else full)
    return found - {name}


def in_page_order(page: str, names: Iterable[str]) -> list[str]:
    """The modules as the page lists them; those that it doesn't list come last."""
    place = listed(page)
    return sorted(names, key=lambda name: (place.get(name, len(place)), name))


def in_reading_order(reading: Reading, page: str, names: list[str]) -> list[str]:
    """The modules in the order of the page, each behind those from which it imports; one that the page doesn't list
    comes right behind the last of these."""
    order = in_page_order(page, names)
    known = listed(page)
    ahead = [name for name in order if name in known]
    for name in (name for name in order if name not in known):
        needed = [ahead.index(other) for other in imports_of(reading, name) if other in ahead]
        ahead.insert(max(needed, default=len(ahead) - 1) + 1, name)
    sorted_names: list[str] = []
    def put(name: str, above: tuple[str, ...]) -> None:
        if name in sorted_names or name in above:
            return
        for other in sorted(imports_of(reading, name) & set(ahead), key=ahead.index):
            put(other, (*above, name))
        sorted_names.append(name)
    for name in ahead:
        put(name, ())
    return sorted_names


# The short ways.

def begun(reading: Reading, text: str) -> Reached:
    """What the words of a way's row reach: modules with the definitions that it begins with, or all of a module's."""
    closure, reached = Closure(reading.names), Reached()
    for crate, modules in FROM_MODULES.findall(text):
        for short, _, wanted in re.findall(r"([A-Z][\w.]*)( \(([^)]*)\))?", modules):
            module = reading.names.modules.get("Rattle.%s.specs.%s" % (crate, short))
            names = re.findall(r"[^\s,]+", wanted) or list(module.texts if module else [])
            missing = [name for name in names if not module or name not in module.texts]
            if module is None or missing:
                raise PageFault("%s: `%s` %s has no %s" % (PAGE, crate, short, ", ".join(missing) or "module"))
            closure.follow([("", (name, reading.names.resolve(module.name + "." + name))) for name in names], reached)
    traits_of = TRAITS_OF.findall(text)
    for claim in (claim for part in reading.parts for claim in part.claims):
        if claim.kind == "trait" and claim.crate in traits_of:
            closure.follow([("", target) for target in closure.of_rust(claim.path, claim.text, True)[0]], reached)
    return reached


def ways(reading: Reading, page: str) -> list[Way]:
    return [Way(wanted, mark, text, begun(reading, text))
            for mark, wanted, text in WAY.findall(" ".join(between(page, "The ways").split()))]


def numbers_of(reading: Reading, definitions: set[Definition]) -> str:
    lines = sum(lines_of(reading.names.modules[place.module].texts[place.name]) for place in definitions)
    modules = len({place.module for place in definitions})
    return "%d modules, %d definitions, %s lines" % (modules, len(definitions), format(lines, ","))


def list_of_ways(reading: Reading, found: list[Way]) -> str:
    rows = [item("`%s`, %s: %s. %s" % (way.mark, way.wanted, way.text, numbers_of(reading, way.reached.definitions)))
            for way in found]
    return "\n".join([*rows, item("all claims: %s" % numbers_of(reading, reading.believed))])


# The lists.

def list_of_claims(reading: Reading) -> str:
    rows = []
    for claim in (claim for part in reading.parts for claim in part.claims if claim.kind in ("claim", "trait")):
        clauses = len(re.findall(r"\b(?:requires|ensures)\b", claim.text))
        plural = "" if clauses == 1 else "s"
        what = "`%s`" % claim.name if claim.kind == "claim" else "the trait `%s`" % claim.name
        rows.append("- %s: `%s` %s, %d clause%s" % (what, claim.crate, short_path(claim.path), clauses, plural))
    laws = [claim for part in reading.parts for claim in part.claims if claim.kind == "law"]
    rows = sorted(rows) + ["- %d laws, in %d crates" % (len(laws), len({claim.crate for claim in laws}))]
    return "\n".join(rows)


def list_of_modules(reading: Reading, page: str, found: list[Way], names: list[str]) -> str:
    """The modules in the order to read, those of one crate that come together in one item, each with its marks."""
    modules = [reading.names.modules[name] for name in in_reading_order(reading, page, names)]
    marks = [(way.mark, way.reached.modules()) for way in found]
    rows = []
    for crate, together in itertools.groupby(modules, key=lambda module: module.crate):
        marked = []
        for module in together:
            own = "".join(mark for mark, reached in marks if module.name in reached)
            marked.append(module.short + ("\u00a0`%s`" % own if own else ""))
        rows.append(item("`%s` %s" % (crate, ", ".join(marked))))
    total = "%d modules, %d definitions, %d lines." % (
        len(modules), sum(len(module.texts) for module in modules), sum(module.lines() for module in modules))
    return "\n".join(rows) + "\n\n" + total


def list_of_types(reading: Reading) -> str:
    """The types by their files: those that are read at their declaration, and then those that are read by a Value."""
    rows = []
    types = [place for place in reading.declared if declared_kind(place) == "type"]
    for path, of_file in itertools.groupby(types, key=lambda place: place.path):
        read: dict[bool, list[str]] = {False: [], True: []}
        for place in of_file:
            shown = place.name + ("" if reading.names.is_exported(place) else "\u00a0(private)")
            read[any(True for _ in reading.closure.models_of(place))].append(shown)
        parts = [", ".join(read[False]), "by Value " + ", ".join(read[True]) if read[True] else ""]
        rows.append(item("`%s` %s: %s" % (path.split("/")[1], short_path(path), "; ".join(filter(None, parts)))))
    return "\n".join(rows)


def list_of_constants(reading: Reading) -> str:
    rows = []
    for place in reading.declared:
        if declared_kind(place) == "constant":
            text = " ".join(reading.names.item(place)[0].text.split())
            value = text.partition(" = ")[2].rstrip(";")
            rows.append(item("`%s` %s: %s is `%s`" % (place.crate, short_path(place.path), place.name, value)))
    return "\n".join(rows)


def rewritten(reading: Reading, page: str) -> str:
    """The page with its lists as they must be."""
    found = ways(reading, page)
    lists = {"The claims": list_of_claims(reading), "The ways": list_of_ways(reading, found)}
    for part, names in zip(reading.parts, reading.modules_by_part()):
        lists[part.heading] = list_of_modules(reading, page, found, names)
    lists.update({"The types": list_of_types(reading), "The constants": list_of_constants(reading)})
    for mark, text in lists.items():
        page = with_list(page, mark, text)
    return page
