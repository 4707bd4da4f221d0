"""What interaction expressions mean, from the definitions: whole words are cut, split and owned, and nothing is moved by an
action. docs/language.md has the table of complete and partial words, docs/trees.md that of trees and their Sizes."""

from __future__ import annotations

import itertools
from collections.abc import Callable, Iterable, Iterator
from dataclasses import dataclass

from expressions import OUTSIDE, QUANTIFIERS, Action, Environment, Node, free, knows

Word = tuple[Action, ...]
Key = tuple[object, ...]


def values_in(word: Word) -> list[str]:
    """The values of a word, ascending."""
    return sorted({value for _, given in word for value in given})


def cuts(word: Word) -> Iterator[tuple[Word, Word]]:
    """All ways to cut a word into a front and a back."""
    return ((word[:place], word[place:]) for place in range(len(word) + 1))


def owned(word: Word, owners: Iterable[object], owner: object) -> Word:
    """The actions of this owner."""
    return tuple(action for action, one in zip(word, owners) if one == owner)


def splits(word: Word) -> Iterator[tuple[Word, Word]]:
    """All ways to give each action to the left part or to the right one."""
    for marks in itertools.product((True, False), repeat=len(word)):
        yield owned(word, marks, True), owned(word, marks, False)


def divisions(word: Word, most: int) -> Iterator[list[Word]]:
    """The parts that aren't empty of all ways to give the actions owner numbers, of which at most so many are used. Which
    number an owner has makes no difference, so the first action is that of the first part."""
    if not word:
        yield []
    for marks in itertools.product((True, False), repeat=len(word) - 1) if word and most else ():
        rest = owned(word[1:], marks, False)
        for parts in divisions(rest, most - 1):
            yield [(word[0], *owned(word[1:], marks, True)), *parts]


@dataclass(frozen=True, eq=False)
class Tree:
    """A tree; equal trees of one meaning are one object. Its alternatives are lists of trees, with their values where these are
    entries; of a common tree there is one such list, and of an `all` one for each map."""

    form: str
    flag: bool
    trees: tuple[Tree, ...]
    alternatives: frozenset[tuple[tuple[str, Tree], ...]]
    number: int  # in the order in which they were made

    def size(self) -> int:
        """How many nodes it counts as."""
        if self.form in ("dead", "start", "done"):
            return 1
        counted = int(self.form in ("+", "#", "times", "all"))
        for_entry = int(self.form in QUANTIFIERS)
        inside = [counted + sum(for_entry + tree.size() for _, tree in one) for one in self.alternatives]
        return 1 + sum(tree.size() for tree in self.trees) + sum(inside)


class Meaning:
    """The words of one expression, their trees, and what is told about them. Answers are kept, because many parts of a word are
    looked at again. A parameter that has no value of the word is outside: both equal none of its values."""

    def __init__(self) -> None:
        self.known: dict[Key, bool] = {}
        self.words: dict[Key, bool] = {}
        self.trees: dict[Key, Tree] = {}
        self.made: dict[Key, Tree] = {}
        self.free: dict[Node, list[str]] = {}
        self.dead, self.start, self.done = (self.tree_with(form) for form in ("dead", "start", "done"))

    def key(self, node: Node, bound: Environment, word: Word) -> Key:
        if node not in self.free:
            self.free[node] = free(node)
        values = {value for _, given in word for value in given}
        return node, word, *(bound.get(name, OUTSIDE) if bound.get(name) in values else OUTSIDE for name in self.free[node])

    def knows(self, node: Node, bound: Environment, action: Action) -> bool:
        """Whether the action is in the alphabet."""
        key = self.key(node, bound, (action,))
        if key not in self.known:
            self.known[key] = knows(node, bound, action)
        return self.known[key]

    def complete(self, node: Node, bound: Environment, word: Word) -> bool:
        return self.holds(True, node, bound, word)

    def partial(self, node: Node, bound: Environment, word: Word) -> bool:
        return self.holds(False, node, bound, word)

    def holds(self, whole: bool, node: Node, bound: Environment, word: Word) -> bool:
        """Whether the word is complete, where it is looked at as a whole, or else partial."""
        key = (whole, *self.key(node, bound, word))
        if key not in self.words:
            relation = self.of_quantifier if node.sign in QUANTIFIERS else self.of_operator
            self.words[key] = relation(whole, node, bound, word)
        return self.words[key]

    def of_operator(self, whole: bool, node: Node, bound: Environment, word: Word) -> bool:
        """Whether it is so of an atom and an operator, by the rows of the table."""
        if node.sign == "atom":
            return len(word) == 1 and self.knows(node, bound, word[0]) or not whole and not word
        one, other = node.operands[0], node.operands[-1]

        def ends(operand: Node, part: Word) -> bool:
            return self.holds(whole, operand, bound, part)

        match node.sign:
            case "?":
                return ends(one, word) or whole and not word
            case "-":
                behind = any(self.complete(one, bound, front) and ends(other, back) for front, back in cuts(word))
                return behind or not whole and ends(one, word)
            case "*":
                return any(self.concatenation(one, bound, front) and ends(one, back) for front, back in cuts(word)) or not word
            case "+":
                return any(ends(one, left) and ends(other, right) for left, right in splits(word))
            case "#":
                return any(all(ends(one, part) for part in parts) for parts in divisions(word, len(word)))
            case "times":
                return any(
                    all(ends(one, part) for part in parts) and (len(parts) == node.number or ends(one, ()))
                    for parts in divisions(word, node.number))
            case "|":
                return ends(one, word) or ends(other, word)
            case "&":
                return ends(one, word) and ends(other, word)
        known = all(self.knows(one, bound, action) or self.knows(other, bound, action) for action in word)
        return known and all(ends(side, self.projection(side, bound, word)) for side in node.operands)

    def concatenation(self, node: Node, bound: Environment, word: Word) -> bool:
        """Whether it is a concatenation of complete words of this node; those that are empty make no difference."""
        key = ("*", *self.key(node, bound, word))
        if key not in self.words:
            self.words[key] = not word or any(
                self.complete(node, bound, front) and self.concatenation(node, bound, back)
                for front, back in cuts(word) if front)
        return self.words[key]

    def projection(self, node: Node, bound: Environment, word: Word) -> Word:
        """The actions that are in the alphabet of this node."""
        return tuple(action for action in word if self.knows(node, bound, action))

    def of_quantifier(self, whole: bool, node: Node, bound: Environment, word: Word) -> bool:
        """Whether it is so of a quantifier. The values that a word doesn't have all mean the same, which is what outside
        does."""
        body = node.operands[0]
        values = [{**bound, node.name: value} for value in (*values_in(word), OUTSIDE)]
        if node.sign == "any":
            return any(self.holds(whole, body, inside, word) for inside in values)
        if node.sign == "every":
            return all(self.holds(whole, body, inside, word) for inside in values)
        if node.sign == "sync":
            return all(any(self.knows(body, inside, action) for inside in values) for action in word) and all(
                self.holds(whole, body, inside, self.projection(body, inside, word)) for inside in values)
        return any(True for _ in self.owners(whole, node, bound, word))

    def owners(self, whole: bool, node: Node, bound: Environment, word: Word) -> Iterator[tuple[str, ...]]:
        """All owners of the actions, under an `all`, whose parts are as wanted for every value. Each atom of the body names the
        parameter, so only a value of an action, with which the action is in the alphabet, can own it."""
        body = node.operands[0]
        for owners in itertools.product(*(self.owners_of(node, bound, action) for action in word)):
            values = {*owners, OUTSIDE}
            if all(self.holds(whole, body, {**bound, node.name: v}, owned(word, owners, v)) for v in values):
                yield owners

    def owners_of(self, node: Node, bound: Environment, action: Action) -> list[str]:
        """The values of an action, each once, from the left, under which it is in the alphabet of this quantifier's body."""
        return [v for v in dict.fromkeys(action[1]) if self.knows(node.operands[0], {**bound, node.name: v}, action)]

    def tree_with(self, form: str, flag: bool = False, trees: Iterable[Tree] = (),
                  alternatives: Iterable[Iterable[tuple[str, Tree]]] = ()) -> Tree:
        """The tree with these parts."""
        parts = (form, flag, tuple(trees), frozenset(tuple(one) for one in alternatives))
        if parts not in self.made:
            self.made[parts] = Tree(*parts, len(self.made))
        return self.made[parts]

    def tree(self, node: Node, bound: Environment, word: Word) -> Tree:
        """The tree of a whole word, which is dead exactly if the word isn't partial."""
        key = self.key(node, bound, word)
        if key not in self.trees:
            rule: Callable[[Node, Environment, Word], Tree] = self.of_side_by_side
            if node.sign == "atom" or node.sign in "?-*":
                rule = self.of_sequence
            elif node.sign in QUANTIFIERS:
                rule = self.of_values
            elif node.sign in "|&@":
                rule = self.of_pair
            self.trees[key] = rule(node, bound, word) if self.partial(node, bound, word) else self.dead
        return self.trees[key]

    def of_sequence(self, node: Node, bound: Environment, word: Word) -> Tree:
        """Of an atom, `?`, `-` and `*`."""
        if node.sign == "atom":
            return self.done if word else self.start
        one, other = node.operands[0], node.operands[-1]
        first = self.tree(one, bound, word)
        if node.sign == "?":
            return self.done if first is self.done else self.tree_with("?", not word, [first])
        if node.sign == "*":
            backs = [back for front, back in cuts(word) if back and self.concatenation(one, bound, front)]
            live = {self.tree(one, bound, back) for back in backs} - {self.dead, self.done}
            return self.tree_with("*", self.concatenation(one, bound, word), (), ([("", tree)] for tree in live))
        first = self.dead if first is self.done else first
        behind = {self.tree(other, bound, back) for front, back in cuts(word) if self.complete(one, bound, front)}
        live = behind - {self.dead, self.done}
        if first is self.dead and not live:
            return self.done
        return self.tree_with("-", self.done in behind, [first], ([("", tree)] for tree in live))

    def of_pair(self, node: Node, bound: Environment, word: Word) -> Tree:
        """Of `|`, `&` and `@`."""
        words = [self.projection(one, bound, word) if node.sign == "@" else word for one in node.operands]
        trees = self.trees_of(node, bound, words)
        spent = {self.done, self.dead} if node.sign == "|" else {self.done}
        return self.done if spent.issuperset(trees) else self.tree_with(node.sign, False, trees)

    def of_side_by_side(self, node: Node, bound: Environment, word: Word) -> Tree:
        """Of `+`, `#` and `times`: all ways to split the word or to number its actions."""
        if node.sign == "+":
            places = 2
            lists = {self.trees_of(node, bound, pair) for pair in splits(word)}
        else:
            places = node.number
            lists = {self.bag(node, bound, parts) for parts in divisions(word, places or len(word))}
        live = {trees for trees in lists if self.dead not in trees}
        if live == {(self.done,) * places} and node.sign != "#":
            return self.done
        return self.tree_with(node.sign, False, (), ([("", tree) for tree in trees] for trees in live))

    def trees_of(self, node: Node, bound: Environment, words: Iterable[Word]) -> tuple[Tree, ...]:
        """The tree in each operand of its word."""
        return tuple(self.tree(one, bound, word) for one, word in zip(node.operands, words))

    def bag(self, node: Node, bound: Environment, parts: list[Word]) -> tuple[Tree, ...]:
        """The trees of the parts in one order; without those that are done, if there is no end of places."""
        trees = [self.tree(node.operands[0], bound, part) for part in parts]
        kept = [tree for tree in trees if tree is not self.done or node.sign == "times"]
        return tuple(sorted(kept, key=lambda one: one.number))

    def of_values(self, node: Node, bound: Environment, word: Word) -> Tree:
        """Of a quantifier."""
        if node.sign == "all":
            maps = {self.entries(node, bound, word, owners) for owners in self.owners(False, node, bound, word)}
            return self.tree_with("all", False, (), maps)
        common = self.at_value(node, bound, word, OUTSIDE)
        entries = self.entries(node, bound, word)
        spent = {self.done, self.dead} if node.sign == "any" else {self.done}
        if spent.issuperset({common, *(tree for _, tree in entries)}) and (node.sign == "any" or not entries):
            return self.done
        return self.tree_with(node.sign, False, [common], [entries])

    def at_value(self, node: Node, bound: Environment, word: Word, value: str) -> Tree:
        """The tree of an `any`, `every` or `sync` for one value of its parameter."""
        inside = {**bound, node.name: value}
        return self.tree(node.operands[0], inside, self.seen(node, inside, word))

    def seen(self, node: Node, inside: Environment, word: Word) -> Word:
        """What a value sees of a word: under `sync` only what is in its alphabet."""
        return self.projection(node.operands[0], inside, word) if node.sign == "sync" else word

    def entries(self, node: Node, bound: Environment, word: Word,
                owners: tuple[str, ...] | None = None) -> tuple[tuple[str, Tree], ...]:
        """The values, ascending, whose tree differs from that of a value which the word doesn't have."""
        other = self.at_value(node, bound, () if owners is not None else word, OUTSIDE)
        entries = []
        for value in values_in(word):
            if owners is None:
                tree = self.at_value(node, bound, word, value)
            else:
                tree = self.at_value(node, bound, owned(word, owners, value), value)
            if tree is not other:
                entries.append((value, tree))
        return tuple(entries)
