"""The program `ixm`, asked about an expression and about actions."""

import os
import re
import shutil
import subprocess
import tempfile
from collections.abc import Sequence
from dataclasses import dataclass

from ixm.desk.parts import Expanded
from ixm.desk.texts import Fault

REFUSED = re.compile(r"refused expression (\d+) (?:at (\d+)|large (\d+))")
ACTIONS = re.compile(r"refused actions (\d+) at (\d+)")
HISTORY = re.compile(r"refused history (\d+) at (\d+)")
UNBOUNDED = re.compile(r"(\d+) node \d+ at (\d+)")
SENTENCES = {
    1: "the text is longer than the program reads",
    2: "nothing of the language begins with this",
    3: "this can't stand here",
    4: "the text ends here, and something is missing",
    5: "nothing binds a parameter of this action",
    6: "this binds a parameter that is bound around it already",
    7: "an all is around this action, and the action doesn't name its parameter",
    8: "this is one more than 512 actions, operators and quantifiers",
    9: "this is inside too many others",
    10: "an action has at most four values",
    11: "a name or a value has at most 32 characters",
    12: "after any, every, sync and all comes a parameter, and after times a number",
    13: "this quantifier is inside eight others",
    14: "before any action the state is larger than the limit of nodes",
    16: "after times comes a number from 2 to 64, without leading zeros",
}
UNBOUNDED_SENTENCES = {
    51: "both sides have an action of the same name, so such an action may belong to either",
    52: "the action that begins it can come again later in it, so each time may be a new beginning",
    53: "no one place of its actions tells the value, so an action may belong to several",
    54: "many of these may have begun, and each of them may be the one that goes on",
}
STOPS = {
    62: "isn't permitted here",
    63: "is one more than a history has",
    64: "makes the state larger than the limit of nodes",
}


class Unusable(Exception):
    """The program can't be run, or says what the desk doesn't know."""


class Stopped(Exception):
    """The history doesn't go on with one of its actions: its number, from 0, and what is to say of it."""

    def __init__(self, number: int, sentence: str) -> None:
        super().__init__(number, sentence)
        self.number, self.sentence = number, sentence


class TooMany(Exception):
    """The values that are given make more candidates than the program tries."""


def path() -> str:
    """The program: $IXM, or `ixm` on the path."""
    found = os.environ.get("IXM") or shutil.which("ixm")
    if not found:
        raise Unusable("there is no program ixm on the path, and IXM isn't set")
    return found


@dataclass(frozen=True)
class Said:
    """What a run of the program left: its status and its lines."""

    status: int
    lines: list[str]

    def last(self) -> str:
        return self.lines[-1] if self.lines else ""

    def failure(self, expression: Expanded, history: str = "") -> Exception:
        """Why the program gave no answer: a fault in the rules or in the history, if it says so."""
        refused = REFUSED.fullmatch(self.last())
        if refused and int(refused.group(1)) in SENTENCES:
            return Fault(expression.source(int(refused.group(2) or 0)), SENTENCES[int(refused.group(1))])
        none, stopped = ACTIONS.fullmatch(self.last()), HISTORY.fullmatch(self.last())
        if none:
            return Stopped(history.encode()[: int(none.group(2))].count(b"\n"), "is no action")
        if stopped and int(stopped.group(1)) in STOPS:
            return Stopped(int(stopped.group(2)) - 1, STOPS[int(stopped.group(1))])
        if self.last() == "refused candidates":
            return TooMany("these are more candidates than the program tries")
        return Unusable(f"{path()} ended with status {self.status} and the line: {self.last()}")


def started(*words: str) -> Said:
    """Runs the program with these words."""
    whole = [path(), *words]
    try:
        ended = subprocess.run(whole, stdin=subprocess.DEVNULL, stdout=subprocess.PIPE, encoding="utf-8")
    except OSError as error:
        raise Unusable(f"{whole[0]} can't be run: {error.strerror}") from None
    return Said(ended.returncode, ended.stdout.splitlines())


def commands() -> list[str]:
    """The commands that the program has, as it tells them itself."""
    named = (re.match(r"  ([a-z]+) ", line) for line in started().lines)
    return [found.group(1) for found in named if found]


def run(command: str, texts: Sequence[str], *words: str) -> Said:
    """Runs a command of the program over files with these texts, and with words after the files."""
    with tempfile.TemporaryDirectory() as folder:
        files = [f"{folder}/{number}" for number in range(len(texts))]
        for name, text in zip(files, texts):
            with open(name, "w", encoding="utf-8", newline="") as file:
                file.write(text)
        return started(command, *files, *words)


def lines(actions: Sequence[str]) -> str:
    return "".join(f"{action}\n" for action in actions)


def after(command: str, expression: Expanded, history: str, *words: str) -> list[str]:
    """What a command says of an expression and of a history, which is lines of actions."""
    said = run(command, [expression.text, history], *words)
    if said.status == 0 and said.lines:
        return said.lines
    raise said.failure(expression, history)


def trace(expression: Expanded, actions: Sequence[str]) -> list[str]:
    """What the program says of each action, and last `complete` or `partial`."""
    said = after("trace", expression, lines(actions))
    if len(said) != len(actions) + 1:
        raise Unusable(f"{path()} says {len(said)} lines of {len(actions)} actions")
    return said


def simplify(expression: Expanded) -> str:
    """The canonical text of what the program makes of an expression."""
    said = run("simplify", [expression.text])
    if said.status == 0 and len(said.lines) == 1:
        return said.last()
    raise said.failure(expression)


def unbounded(line: str) -> tuple[int, str]:
    """Where a node that has no bound begins in the expression's text, and a sentence that says why it has none."""
    refused = UNBOUNDED.fullmatch(line)
    if not refused or int(refused.group(1)) not in UNBOUNDED_SENTENCES:
        raise Unusable(f"{path()} says of a node without a bound: {line}")
    return int(refused.group(2)), UNBOUNDED_SENTENCES[int(refused.group(1))]


def bound(expression: Expanded, values: int) -> tuple[str, list[tuple[int, str]]]:
    """What the program says of the state's size with so many values: its first line, and each node that has no bound, by
    its place in the expression's text, with a sentence."""
    said = run("bound", [expression.text], str(values))
    if said.status or not said.lines:
        raise said.failure(expression)
    return said.lines[0], [unbounded(line) for line in said.lines[1:]]
