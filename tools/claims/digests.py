"""The digest of each text that is believed, as tools/claims/digests.txt keeps them.

A text is taken with what each of its names stands for, so it has another digest where a name is imported from
elsewhere, too. How it is laid out and what its comments say doesn't matter."""

from __future__ import annotations

import hashlib
import re
from typing import Iterable, Iterator

from .claims import main_files
from .names import Declared, Definition, short_path
from .reading import Reading
from .tree import DIGESTS, PROMISES

HEAD = "# What is believed, by `tools/believe.py --write`: a digest that changes is a meaning that changes.\n"


def digest(texts: Iterable[str]) -> str:
    return hashlib.sha256("\n".join(texts).encode()).hexdigest()[:16]


def plain(text: str) -> str:
    """The text in one line, however it is laid out."""
    return " ".join(text.split())


def plain_definition(text: str) -> str:
    """The text of a definition: what is further in than by two belongs to the line above."""
    lines = [line.rstrip() for line in text.split("\n") if line.strip()]
    return "".join((" " if line.startswith("   ") else "\n") + plain(line) for line in lines)


def legend(stands_for: Iterable[tuple[str, str]]) -> list[str]:
    return sorted("%s = %s" % pair for pair in stands_for)


def declared_kind(place: Declared) -> str:
    return "type" if place.is_type else "constant"


def promise_texts(page: str) -> Iterator[tuple[str, str]]:
    """The chapters of the page of promises, each whole."""
    for chapter in re.split(r"(?m)^##? ", page)[1:]:
        heading, _, rest = chapter.partition("\n")
        yield heading.strip(), plain(rest)


def lines(reading: Reading) -> Iterator[str]:
    """A line for each text: its kind, its crate, its name and its digest."""
    for main in main_files(reading.names):
        yield "program %s %s %s" % (main.crate, short_path(main.path), digest([plain(main.text)]))
    for part in reading.parts:
        for claim in part.claims:
            texts = [plain(claim.text), *legend(claim.stands_for)]
            yield "%s %s %s %s" % (claim.kind, claim.crate, claim.name, digest(texts))
    places: dict[str, list[Definition]] = {}
    for place in sorted(reading.believed):
        places.setdefault(place.module, []).append(place)
    for module in reading.believed_modules:
        texts = []
        for place in places[module.name]:
            texts += [plain_definition(module.texts[place.name]), *legend(reading.closure.stands_for[place])]
        yield "module %s %s %s" % (module.crate, module.short, digest(texts))
    for declared in reading.declared:
        texts = [plain(reading.closure.text_of_declared(declared)), *legend(reading.closure.stands_for[declared])]
        yield "%s %s %s %s" % (declared_kind(declared), declared.crate, declared.name, digest(texts))
    for heading, text in promise_texts(reading.tree.text(PROMISES)):
        yield "promises %s %s" % (re.sub(r"\W+", "_", heading), digest([text]))


def written(reading: Reading) -> str:
    return HEAD + "".join(line + "\n" for line in sorted(lines(reading)))


def faults(reading: Reading) -> Iterator[str]:
    """The texts that aren't the ones whose digests are kept."""
    kept = dict(line.rpartition(" ")[::2] for line in reading.tree.text(DIGESTS).splitlines() if line[:1] != "#")
    now = dict(line.rpartition(" ")[::2] for line in sorted(lines(reading)))
    for name in sorted(kept.keys() | now.keys()):
        if name not in now:
            yield "%s: nothing is %s any more" % (DIGESTS, name)
        elif name not in kept:
            yield "%s: %s is new" % (DIGESTS, name)
        elif kept[name] != now[name]:
            yield "%s: %s says something else" % (DIGESTS, name)
