"""Suites of cases: words that must pass, be complete, or end in an action that is refused.

    complete a day of one patient
        call(anna,xray)
        perform(anna,xray)
    refused a second call
        call(anna,xray)
        call(anna,ultrasound)
"""

from dataclasses import dataclass, field

from ixm.desk import program
from ixm.desk.parts import Expanded
from ixm.desk.texts import Fault

KINDS = ("pass", "complete", "refused")


@dataclass
class Case:
    kind: str
    name: str
    line: int
    actions: list[str] = field(default_factory=list)
    lines: list[int] = field(default_factory=list)  # those of its actions


def offset(text: str, line: int) -> int:
    """Where a line's text begins: lines count from 1."""
    lines = text.split("\n")
    return sum(len(before) + 1 for before in lines[: line - 1]) + len(lines[line - 1]) - len(lines[line - 1].lstrip())


def read_cases(text: str) -> list[Case]:
    """The cases of a suite."""
    cases = list[Case]()
    for number, line in enumerate(text.split("\n"), 1):
        content = line.strip()
        if not content or content.startswith("//"):
            continue
        if not line[0].isspace():
            kind, _, name = content.partition(" ")
            if kind not in KINDS or not name.strip():
                raise Fault(offset(text, number), "a case begins with pass, complete or refused, and its name")
            if any(case.name == name.strip() for case in cases):
                raise Fault(offset(text, number), f"there is a case {name.strip()} already")
            cases.append(Case(kind, name.strip(), number))
        elif not cases:
            raise Fault(offset(text, number), "this action is before the first case")
        else:
            cases[-1].actions.append(content)
            cases[-1].lines.append(number)
    for case in cases:
        if case.kind != "complete" and not case.actions:
            raise Fault(offset(text, case.line), f"a case of the kind {case.kind} has at least one action")
    if not cases:
        raise Fault(0, "there is no case")
    return cases


def wrong(case: Case, said: list[str]) -> str | None:
    """What isn't as the case says, given what the program says of its actions, and None if all is."""
    wanted = ["yes"] * len(case.actions)
    if case.kind == "refused":
        wanted[-1] = "no"
    for action, line, came, right in zip(case.actions, case.lines, said, wanted):
        if came != right:
            return f"{action} in line {line} came as {came}, and not as {right}"
    if case.kind == "complete" and said[-1] != "complete":
        return "after its actions something is still open"
    return None


def results(expression: Expanded, text: str) -> list[tuple[Case, str | None]]:
    """Each case of the suite, and what isn't as it says."""
    found = list[tuple[Case, str | None]]()
    for case in read_cases(text):
        try:
            found.append((case, wrong(case, program.trace(expression, case.actions))))
        except program.Stopped as stopped:
            at = offset(text, case.lines[stopped.number])
            raise Fault(at, f"{case.actions[stopped.number]} {stopped.sentence}") from None
    return found


def counts(found: list[tuple[Case, str | None]]) -> str:
    right = sum(sentence is None for _, sentence in found)
    return f"cases {len(found)}, right {right}, wrong {len(found) - right}"


def run(expression: Expanded, text: str, path: str) -> tuple[list[str], str]:
    """A line for each case of the suite that isn't as it says, and the counts."""
    found = results(expression, text)
    wrongs = [(case, sentence) for case, sentence in found if sentence]
    return [f"{path}:{case.line}: {case.kind} {case.name}: {sentence}" for case, sentence in wrongs], counts(found)
