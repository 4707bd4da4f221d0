"""What may come after a history, as the program's `next` says it, and the values that it tries."""

import re
from collections import defaultdict
from collections.abc import Iterator, Sequence
from dataclasses import dataclass

from ixm.desk import program
from ixm.desk.forms import Form
from ixm.desk.parts import Expanded

ARGUMENT = r"(?:\w+|\$[1-4])"
LINE = re.compile(rf"[A-Za-z]\w*(?:\({ARGUMENT}(?:,{ARGUMENT}){{0,3}}\))?", re.ASCII)
GIVEN = re.compile(r"(?:[A-Za-z]\w{0,31}=)?\w{1,32}", re.ASCII)
MOST = 16  # values that the program tries


class NoValue(Exception):
    """A word is no value that can be given, or they are too many."""


@dataclass(frozen=True)
class Menu:
    """The actions that may come, with `$1` to `$4` for values that are new, and `complete` or `partial`."""

    actions: list[str]
    state: str


def checked(given: Sequence[str], most: int = MOST) -> list[str]:
    """These values, each once, if the program takes them."""
    for value in given:
        if not GIVEN.fullmatch(value):
            raise NoValue(f"{value} is no value such as anna, and none of a parameter such as p=anna")
    found = list(dict.fromkeys(given))
    if len(found) > most:
        raise NoValue(f"these are {len(found)} values, and at most {most} can be given")
    return found


def read_menu(lines: Sequence[str]) -> Menu:
    """The menu that the program's lines tell."""
    for line, form in zip(lines, [LINE] * (len(lines) - 1) + [re.compile("complete|partial")]):
        if not form.fullmatch(line):
            raise program.Unusable(f"{program.path()} says what the desk doesn't know: {line}")
    return Menu(list(lines[:-1]), lines[-1])


def menu(expression: Expanded, history: str, given: Sequence[str]) -> Menu:
    """What may come after a history, where these values are tried."""
    return read_menu(program.after("next", expression, history, *checked(given)))


def arguments(text: str) -> tuple[str, list[str]]:
    """The name of an action or atom, and its arguments."""
    name, _, rest = text.partition("(")
    return name, rest[:-1].split(",") if rest else []


def atoms(form: Form) -> Iterator[str]:
    """The texts of the atoms, from the left to the right."""
    if form.operator == "atom":
        yield form.word
    for operand in form.operands:
        yield from atoms(operand)


def matched(atom: str, action: str) -> list[str]:
    """The values that the parameters of an atom have where it matches an action, as given values."""
    (own, places), (name, values) = arguments(atom), arguments(action)
    pairs = dict(zip(places, values))
    if own != name or [pairs.get(place) for place in places] != values:
        return []
    if any(place != value for place, value in pairs.items() if place[0] != "$"):
        return []
    return [f"{place[1:]}={value}" for place, value in pairs.items() if place[0] == "$"]


def met(form: Form, actions: Sequence[str]) -> list[str]:
    """The values that a history has for the parameters of the atoms that its actions match, each once."""
    named = defaultdict[str, list[str]](list)
    for atom in dict.fromkeys(atoms(form)):
        named[arguments(atom)[0]].append(atom)
    pairs = ((atom, action) for action in actions for atom in named[arguments(action)[0]])
    return list(dict.fromkeys(value for atom, action in pairs for value in matched(atom, action)))
