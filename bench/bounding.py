"""A second implementation of `ixm bound`, by the rules of docs/bound.md."""

from __future__ import annotations

from expressions import Node, atoms, nodes

MOST = 1_000_000  # the greatest number that is told
NAMES_ARE_SHARED, BEGINS_ANEW, HAS_NO_PLACE, COUNTS = 51, 52, 53, 54


def names(node: Node) -> set[str]:
    return {atom.name for atom in atoms(node)}


def accepts_nothing(node: Node) -> bool:
    """Whether the empty history is complete."""
    parts = [accepts_nothing(operand) for operand in node.operands]
    if node.sign in ("?", "*", "#"):
        return True
    return any(parts) if node.sign == "|" else node.sign != "atom" and all(parts)


def beginnings(node: Node) -> tuple[set[str], set[str]] | None:
    """The names that can come first and those that can come later, if the form tells."""
    if node.sign == "atom":
        return {node.name}, set()
    parts = [beginnings(operand) for operand in node.operands]
    first = parts[0]
    if node.sign in ("?", "any", "every"):
        return first
    if node.sign == "-":
        return None if first is None or accepts_nothing(node.operands[0]) else (first[0], first[1] | names(node.operands[1]))
    second = parts[-1]
    if node.sign not in ("|", "&") or first is None or second is None:
        return None
    return first[0] | second[0], first[1] | second[1]


def has_a_place(node: Node) -> bool:
    """Whether for each name and number of arguments one place has the parameter of this `all` in all its atoms."""
    kinds: dict[tuple[str, int], list[tuple[str, ...]]] = {}
    for atom in atoms(node):
        kinds.setdefault((atom.name, len(atom.arguments)), []).append(atom.arguments)
    return all(any(set(column) == {node.name} for column in zip(*arguments)) for arguments in kinds.values())


def reason(node: Node) -> int | None:
    """Why the node itself has no bound, if it has none."""
    if node.sign in ("-", "+"):
        return NAMES_ARE_SHARED if names(node.operands[0]) & names(node.operands[1]) else None
    if node.sign == "*":
        begins = beginnings(node.operands[0])
        return BEGINS_ANEW if begins is None or begins[0] & begins[1] else None
    if node.sign == "all":
        return None if has_a_place(node) else HAS_NO_PLACE
    return COUNTS if node.sign in ("#", "times") else None


def number(node: Node, values: int) -> int:
    """The bound over so many different values, where every node has one."""
    parts = [number(operand, values) for operand in node.operands]
    if node.sign == "all":
        return 2 + values * (1 + parts[0])
    if node.sign in ("any", "every", "sync"):
        return 1 + parts[0] + values * (1 + parts[0])
    return (2 if node.sign == "+" else 1) + sum(parts)


def told(whole: Node, places: dict[Node, int], values: int) -> list[str]:
    """The lines of `bound`."""
    reasons = [(reason(node), at, places[node]) for at, node in enumerate(nodes(whole))]
    found = [(f"{code} node {at}", place) for code, at, place in reasons if code is not None]
    if found:
        return [f"unbounded {found[0][0]}", *(f"{words} at {place}" for words, place in found)]
    bound = number(whole, values)
    return [f"bound {bound}" if bound <= MOST else f"above {MOST}"]
