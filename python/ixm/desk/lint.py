"""What looks wrong in rules, as the program's `lint` says it, in sentences for their author."""

import re

from ixm.desk import program
from ixm.desk.found import Finding, findings
from ixm.desk.parts import Expanded
from ixm.desk.texts import place

# What the program says of a place, and the sentence for it. `first` and `other` are places too.
SENTENCES = {
    r"counts (?P<name>\w+) (?P<number>\d+) (?P<most>\d+) at (?P<other>\d+)":
        "the number of values of {name} is {number} here and mostly {most}, as at {other}: these are different actions",
    r"never": "nothing completes this: something is always open",
    r"owners (?P<first>\d+) (?P<other>\d+)":
        "one action may belong to two values of this all, as at {first} and {other}: it may come twice",
    r"unused (?P<parameter>\$\w+)": "nothing in this names {parameter}",
    r"value (?P<name>\w+)": "{name} is one value here, and a parameter around it has the same name: is ${name} meant?",
    r"apart (?P<name>\w+) (?P<number>\d+)":
        "only one side of this & knows {name} (number of values: {number}), so it never comes here: is @ meant?",
    r"keeps": "each value that had an action here is remembered for ever, because this can't begin again",
}
PLACES = ("at", "first", "other")


def told(line: str, source: str, expression: Expanded) -> tuple[int, str]:
    """What a line of the program says: where its node begins in the expression's text, and a sentence."""
    for pattern, sentence in SENTENCES.items():
        if found := re.fullmatch(r"at (?P<at>\d+): " + pattern, line):
            words = found.groupdict()
            places = {name: place(source, expression.source(int(words[name]))) for name in PLACES if name in words}
            return int(words["at"]), sentence.format(**(words | {name: "%d:%d" % at for name, at in places.items()}))
    raise program.Unusable(f"{program.path()} finds what the desk doesn't know: {line}")


def looks_wrong(source: str, expression: Expanded) -> list[Finding]:
    """What looks wrong in an expression, in the program's order."""
    said = program.run("lint", [expression.text])
    if said.status:
        raise said.failure(expression)
    return findings((told(line, source, expression) for line in said.lines), expression)
