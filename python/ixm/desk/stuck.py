"""Whether a history of some values can be stuck, as the program's `stuck` says it."""

import re
from collections.abc import Sequence
from dataclasses import dataclass

from ixm.desk import program
from ixm.desk.found import Finding, findings
from ixm.desk.menu import NoValue, checked
from ixm.desk.parts import Expanded

MOST = 64  # values that the program tries
# The first line that the program says, and the sentence for it.
SENTENCES = {
    r"never stuck (\d+)": "No history of these values is stuck: each can be completed. States: {0}.",
    r"stuck after (\d+)": "After these actions no others of these values complete the history. How many: {0}.",
    r"large": "A state is larger than the limit of nodes, so nothing is known.",
    r"more than (\d+) states": "There are more than {0} states, so nothing is known.",
    r"unconfirmed": "The answer didn't stand the program's own check, so nothing is known.",
}
GONE = re.compile(r"never again at (\d+): (.+)")


@dataclass(frozen=True)
class Search:
    """What was found: a sentence, a shortest history that is stuck if there is one, which actions it ends for good, and
    whether there are more states than were searched."""

    sentence: str
    history: list[str]
    gone: list[Finding]
    has_more: bool


def read_search(lines: Sequence[str], expression: Expanded) -> Search:
    """What the program's lines tell."""
    for pattern, sentence in SENTENCES.items():
        found = re.fullmatch(pattern, lines[0])
        if found:
            count = int(found.group(1)) if pattern.startswith("stuck") else 0
            gone = [GONE.fullmatch(line) for line in lines[count + 1 :]]
            if len(lines) > count and all(gone):
                told = [(int(one.group(1)), f"{one.group(2)} never comes again") for one in gone if one]
                has_more = pattern.startswith("more")
                history = list(lines[1 : count + 1])
                return Search(sentence.format(*found.groups()), history, findings(told, expression), has_more)
    raise program.Unusable(f"{program.path()} says what the desk doesn't know: {lines[0]}")


def search(expression: Expanded, given: Sequence[str], states: int) -> Search:
    """Whether a history of these values can be stuck, if there are at most so many states."""
    if not given:
        raise NoValue("give one value at least")
    values = program.lines(checked(given, MOST))
    return read_search(program.after("stuck", expression, values, f"--states={states}"), expression)
