"""Interaction expressions for the second implementations: random ones, their texts, and those that are read from a text; their
alphabets; and the program that is asked of them."""

from __future__ import annotations

import itertools
import random
import re
import subprocess
import sys
from collections.abc import Iterator, Sequence
from dataclasses import dataclass

from running import program

BINARIES = "|&@+-"  # the weakest first
PREFIXES = "?*#"
QUANTIFIERS = ("any", "every", "sync", "all")
NAMES = ("a", "b", "go")
VALUES = ("p", "q", "r", "s", "7")
PARAMETERS = ("$p", "$q", "$r", "$s")
NEW = ("new1", "new2", "new3", "new4")  # values that no expression has
OUTSIDE = ""  # equals no value of an action


@dataclass(frozen=True, eq=False)
class Node:
    """A node of an expression. Its sign is `atom`, `times`, an operator's, or a quantifier's word."""

    sign: str
    operands: tuple[Node, ...] = ()
    name: str = ""  # an atom's name, or the parameter of a quantifier, with its `$`
    arguments: tuple[str, ...] = ()  # of an atom: parameters, with their `$`, and values
    number: int = 0  # of a `times`


@dataclass(frozen=True)
class Spot:
    """A node in an expression, and the nodes above it, the outermost first."""

    node: Node
    above: tuple[Node, ...] = ()

    def whole(self) -> Node:
        return self.above[0] if self.above else self.node


Environment = dict[str, str]
Action = tuple[str, tuple[str, ...]]  # a name and values


def spots(spot: Spot) -> Iterator[Spot]:
    """This node and those below it in pre-order: a node, then its left operand, then its right one."""
    yield spot
    for operand in spot.node.operands:
        yield from spots(Spot(operand, (*spot.above, spot.node)))


def nodes(node: Node) -> list[Node]:
    return [spot.node for spot in spots(Spot(node))]


def atoms(node: Node) -> list[Node]:
    return [one for one in nodes(node) if one.sign == "atom"]


class Maker:
    """Makes a random expression that is well formed."""

    def __init__(self, chance: random.Random, words: Sequence[str] = (*QUANTIFIERS, "all", "all")) -> None:
        """Each quantifier is one of these words."""
        self.chance = chance
        self.words = words
        self.made: list[tuple[str, int]] = []  # the name and the number of arguments of each atom

    def expression(self, depth: int, around: tuple[str, ...] = (), owed: tuple[str, ...] = ()) -> Node:
        """`around` are the parameters bound above it; its atoms have to name those of `owed`."""
        if depth <= 1 or self.chance.random() < 0.1:
            return self.atom(around, owed)
        kind = self.chance.choices(["binary", "prefix", "times", "quantifier"], [40, 15, 5, 40])[0]
        if kind == "quantifier" and len(around) < len(PARAMETERS):
            return self.quantifier(depth, around, owed)
        if kind == "prefix":
            return Node(self.chance.choice("??*#"), (self.expression(depth - 1, around, owed),))
        if kind == "times":
            return Node("times", (self.expression(depth - 1, around, owed),), number=self.chance.choice((2, 3)))
        return self.binary(depth, around, owed)

    def binary(self, depth: int, around: tuple[str, ...], owed: tuple[str, ...]) -> Node:
        pair = (self.expression(depth - 1, around, owed), self.expression(depth - 1, around, owed))
        return Node(self.chance.choice(BINARIES), pair)

    def quantifier(self, depth: int, around: tuple[str, ...], owed: tuple[str, ...]) -> Node:
        """Of an `all` the body has mostly two atoms at least, since one can't share an action with itself."""
        word = self.chance.choice(self.words)
        name = self.chance.choice([one for one in PARAMETERS if one not in around])
        inside = (*owed, name) if word == "all" else owed
        if word == "all" and self.chance.random() < 0.7:
            return Node(word, (self.binary(depth - 1, (*around, name), inside),), name)
        return Node(word, (self.expression(depth - 1, (*around, name), inside),), name)

    def atom(self, around: tuple[str, ...], owed: tuple[str, ...]) -> Node:
        """Often of a name and a number of arguments that stood before, as in rules that people write."""
        kinds = [kind for kind in self.made if kind[1] >= len(owed)]
        if not kinds or self.chance.random() < 0.3:
            kinds = [(self.chance.choice(NAMES), min(len(owed) + self.chance.choice((0, 1, 1, 2, 2)), 4))]
        name, number = self.chance.choice(kinds)
        self.made.append((name, number))
        arguments = list(owed)
        while len(arguments) < number:
            is_bound = around and self.chance.random() < 0.7
            arguments.append(self.chance.choice(around if is_bound else VALUES))
        self.chance.shuffle(arguments)
        return Node("atom", (), name, tuple(arguments))


class Writer:
    """Writes a text token by token, with random blanks before each, and notes the place of each node."""

    def __init__(self, chance: random.Random, bound: Environment | None = None) -> None:
        """A parameter that `bound` has is written as its value."""
        self.chance = chance
        self.bound = bound or {}
        self.text = ""
        self.places: dict[Node, int] = {}

    def token(self, token: str) -> int:
        """Writes a token, and gives its place. Two words have a blank between them."""
        blanks = self.chance.choice(("", "", " ", " ", "\n", " \n "))
        touches = self.text[-1:].isalnum() and token[0].isalnum()
        self.text += " " if touches and not blanks else blanks
        self.text += token
        return len(self.text) - len(token)

    def write(self, node: Node, binding: int = 0) -> None:
        """Writes a node, in parentheses if it binds weaker than this, and sometimes if it doesn't."""
        strength = BINARIES.index(node.sign) if node.sign in BINARIES else len(BINARIES)
        encloses = strength < binding or self.chance.random() < 0.1
        if encloses:
            self.token("(")
        if node.sign in BINARIES:
            self.write(node.operands[0], strength)
            self.places[node] = self.token(node.sign)
            self.write(node.operands[1], strength + 1)
        elif node.sign == "atom":
            self.write_atom(node)
        else:
            self.write_prefix(node)
        if encloses:
            self.token(")")

    def write_prefix(self, node: Node) -> None:
        self.places[node] = self.token(node.sign)
        if node.sign in QUANTIFIERS:
            self.token(node.name)
        elif node.sign == "times":
            self.token(str(node.number))
        self.write(node.operands[0], len(BINARIES))

    def write_atom(self, node: Node) -> None:
        self.places[node] = self.token(node.name)
        for place, argument in enumerate(node.arguments):
            self.token("," if place else "(")
            self.token(self.bound.get(argument, argument))
        if node.arguments:
            self.token(")")


class Reader:
    """Reads a text that is in the grammar, and notes the place of each node."""

    def __init__(self, text: str) -> None:
        self.tokens = [(one.group(), one.start()) for one in re.finditer(r"\$?\w+|\S", text)]
        self.places: dict[Node, int] = {}
        self.whole = self.binary(0)
        assert not self.tokens, f"{text!r} goes on behind its end"

    def take(self, *tokens: str) -> str:
        """The next token, if it is one of these; an empty one if it isn't."""
        return self.tokens.pop(0)[0] if self.tokens and self.tokens[0][0] in tokens else ""

    def binary(self, level: int) -> Node:
        """Operands joined by the sign of this level, grouped to the left."""
        if level == len(BINARIES):
            return self.prefix()
        left = self.binary(level + 1)
        while self.tokens and self.tokens[0][0] == BINARIES[level]:
            sign, place = self.tokens.pop(0)
            left = self.placed(place, Node(sign, (left, self.binary(level + 1))))
        return left

    def prefix(self) -> Node:
        if self.take("("):
            inside = self.binary(0)
            assert self.take(")"), "no `)`"
            return inside
        word, place = self.tokens.pop(0)
        if word in PREFIXES:
            return self.placed(place, Node(word, (self.prefix(),)))
        if word in QUANTIFIERS:
            name = self.tokens.pop(0)[0]
            return self.placed(place, Node(word, (self.prefix(),), name))
        if word == "times":
            number = int(self.tokens.pop(0)[0])
            return self.placed(place, Node(word, (self.prefix(),), number=number))
        return self.placed(place, Node("atom", (), word, self.arguments()))

    def arguments(self) -> tuple[str, ...]:
        arguments: list[str] = []
        while self.take("(" if not arguments else ","):
            arguments.append(self.tokens.pop(0)[0])
        assert not arguments or self.take(")"), "no `)`"
        return tuple(arguments)

    def placed(self, place: int, node: Node) -> Node:
        self.places[node] = place
        return node


def canonical(node: Node, binding: int = 0) -> str:
    """The one canonical text: a blank on each side of a binary operator, none behind `?`, `*` and `#`, one behind each word,
    and parentheses only if they are needed."""
    if node.sign == "atom":
        return node.name + (f"({','.join(node.arguments)})" if node.arguments else "")
    if node.sign in BINARIES:
        strength = BINARIES.index(node.sign)
        left, right = canonical(node.operands[0], strength), canonical(node.operands[1], strength + 1)
        text = f"{left} {node.sign} {right}"
        return f"({text})" if strength < binding else text
    words = {"times": f"times {node.number} ", **{one: f"{one} {node.name} " for one in QUANTIFIERS}}
    return words.get(node.sign, node.sign) + canonical(node.operands[0], len(BINARIES))


def written(action: Action) -> str:
    name, given = action
    return name + (f"({','.join(given)})" if given else "")


def actions_over(node: Node, values: list[str]) -> list[Action]:
    """The actions over these values that have the name and the number of values of some atom."""
    kinds = dict.fromkeys((atom.name, len(atom.arguments)) for atom in atoms(node))
    return [(name, given) for name, number in kinds for given in itertools.product(values, repeat=number)]


def values_of(node: Node) -> list[str]:
    """The values that occur."""
    return sorted({one for atom in atoms(node) for one in atom.arguments if one[0] != "$"})


def free(node: Node) -> list[str]:
    """The parameters that no node of the expression binds."""
    bound = {one.name for one in nodes(node) if one.sign in QUANTIFIERS}
    return sorted({one for atom in atoms(node) for one in atom.arguments if one[0] == "$"} - bound)


def knows(node: Node, bound: Environment, action: Action) -> bool:
    """Whether the action is in the alphabet: an atom's is what it matches, an operator's that of its operands, a
    quantifier's that of its body for all values."""
    if node.sign == "atom":
        return action == (node.name, tuple(bound.get(one, one) for one in node.arguments))
    if node.sign in QUANTIFIERS:
        return any(knows(node.operands[0], {**bound, node.name: one}, action) for one in {*action[1], OUTSIDE})
    return any(knows(operand, bound, action) for operand in node.operands)


class Program:
    """The program, run on files in a folder."""

    def __init__(self, folder: str) -> None:
        self.folder = folder
        self.path = program("ixm")

    def run(self, *words: str, **files: str) -> tuple[int, list[str]]:
        """Its status and the lines that it puts for these words, in a folder with files of these names and contents."""
        for name, content in files.items():
            with open(f"{self.folder}/{name}", "w", encoding="ascii") as file:
                file.write(content)
        done = subprocess.run([self.path, *words], cwd=self.folder, stdout=subprocess.PIPE, text=True, check=False)
        return done.returncode, done.stdout.splitlines()

    def lines(self, command: str, *words: str, **files: str) -> list[str]:
        """The lines that it puts for a command over such files, where it ends well."""
        status, lines = self.run(command, *files, *words, **files)
        if status:
            sys.exit(f"{command} of {files} {words} put {lines} and ended with status {status}")
        return lines
