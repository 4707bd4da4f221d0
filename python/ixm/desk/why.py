"""What refuses an action after a history, as the program's `why` says it, in sentences for the author of the rules."""

import re
from dataclasses import dataclass

from ixm.desk import program
from ixm.desk.forms import parse
from ixm.desk.found import Finding, findings
from ixm.desk.parts import Expanded

LINE = re.compile(r"at (\d+)((?: \$[A-Za-z]\w*=(?:\w+|\*))*): (.+)", re.ASCII)
# What a part says of an action, if it is one that only knows no action of this kind.
UNKNOWN = {"@": "neither side of this @ knows {action}", "sync": "for no value this sync knows {action}"}
REFUSES = "this refuses {action}"


@dataclass(frozen=True)
class Part:
    """A part that refuses: where it begins in the expression's text, its parameters with the value of each or with None for
    one that is neither in the action nor in the state, and its canonical text."""

    at: int
    bound: tuple[tuple[str, str | None], ...]
    text: str

    def sentence(self, action: str) -> str:
        """What it has against the action."""
        told = UNKNOWN.get(parse(self.text).operator, REFUSES).format(action=action)
        values = [f"{parameter} being {value or 'some other value'}" for parameter, value in self.bound]
        return ", ".join([told, *values])


def read_part(line: str) -> Part:
    """The part that a line of the program tells."""
    found = LINE.fullmatch(line)
    if not found:
        raise program.Unusable(f"{program.path()} says what the desk doesn't know: {line}")
    pairs = [pair.split("=") for pair in found.group(2).split()]
    bound = tuple((parameter, None if value == "*" else value) for parameter, value in pairs)
    return Part(int(found.group(1)), bound, found.group(3))


def refusing(expression: Expanded, history: str, action: str) -> list[Finding]:
    """The parts that refuse an action after a history; none if it may come."""
    said = program.after("why", expression, history, action)
    parts = [] if said == ["permitted"] else [read_part(line) for line in said]
    return findings([(part.at, part.sentence(action)) for part in parts], expression)
