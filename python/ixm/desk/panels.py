"""What each panel of the page shows, as the program says it. A panel is a function in PANELS here, a `show` in PANELS of
page/desk.js, and a section of page/desk.html, of one name."""

from collections import defaultdict
from collections.abc import Callable, Iterable
from dataclasses import dataclass

from ixm.desk import cases, menu, program, stuck, why
from ixm.desk.drawing import draw
from ixm.desk.forms import Mark, marked, parse
from ixm.desk.found import Finding, findings
from ixm.desk.lint import looks_wrong
from ixm.desk.parts import Expanded, expand
from ixm.desk.texts import Fault, place

Answer = dict[str, object]
SHOWN = 200  # actions that the page shows of those that may come


@dataclass(frozen=True)
class Question:
    """What the page has: the texts as typed, the history's actions and the number of the one that is explained, how many
    values `bound` is asked for, the values that are given, and how many states are searched."""

    rules: str
    cases: str
    actions: list[str]
    explained: int
    values: int
    given: list[str]
    states: int


def placed(text: str, at: int, sentence: str) -> Answer:
    line, column = place(text, at)
    return {"line": line, "column": column, "sentence": sentence}


def all_placed(text: str, found: Iterable[Finding]) -> list[Answer]:
    return [placed(text, one.at, one.sentence) for one in found]


def rules(question: Question, expression: Expanded) -> Answer:
    """Whether the program takes the rules."""
    program.trace(expression, [])
    return {"expression": expression.text}


def letters(number: int) -> str:
    """The sign of the part with this number, from 1, as a list with letters has it: A to Z, and then AA."""
    before, last = divmod(number - 1, 26)
    return (letters(before) if before else "") + chr(ord("A") + last)


def put(marks: defaultdict[int, list[Mark]], kind: str, found: Iterable[Finding], sign: Callable[[int], str]) -> None:
    """Adds the marks of this kind, with the signs of their numbers from 1, by the places of the nodes."""
    for number, one in enumerate(found, 1):
        for node in one.nodes:
            marks[node].append(Mark(kind, sign(number), one.sentence))


def drawing(question: Question, expression: Expanded) -> Answer:
    """The drawing, with the nodes that `bound` refuses, those that `lint` finds and those that refuse the action that is
    explained, what `bound` says, and what `simplify` makes of the rules if it differs."""
    form, marks = parse(expression.text), defaultdict[int, list[Mark]](list)
    put(marks, "found", looks_wrong(question.rules, expression), str)
    put(marks, "refusing", refusing(question, expression)[1], letters)
    line, unbounded = program.bound(expression, question.values)
    refused = findings(unbounded, expression)
    put(marks, "refused", refused, lambda _: "!")
    simple = program.simplify(expression)
    other: Answer = {} if simple == form.text() else {"text": simple, "svg": draw(parse(simple))}
    return {"svg": draw(form), "shown": draw(marked(form, marks)), "bound": line,
            "refused": all_placed(question.rules, refused), "simple": other}


def lint(question: Question, expression: Expanded) -> Answer:
    """What looks wrong, which is advice. The drawing has its numbers."""
    return {"found": all_placed(question.rules, looks_wrong(question.rules, expression))}


def history(question: Question, expression: Expanded) -> Answer:
    """What the program says of each action of the history, and of its end."""
    lines = program.trace(expression, question.actions)
    return {"lines": lines[:-1], "state": lines[-1]}


def permitted(actions: list[str], lines: list[str]) -> list[str]:
    """The actions of which the program says yes: those that are in the history."""
    return [action for action, line in zip(actions, lines) if line == "yes"]


def coming(question: Question, expression: Expanded) -> Answer:
    """What may come after the history, with the values that are given and, as far as there is room, the last that the history
    has itself."""
    try:
        given = menu.checked(question.given)
    except menu.NoValue as error:
        return {"faulty": str(error)}
    actions = permitted(question.actions, program.trace(expression, question.actions))
    own = [value for value in menu.met(parse(expression.text), actions) if value not in given]
    room = menu.MOST - len(given)
    tried, left = own[max(len(own) - room, 0) :], max(len(own) - room, 0)
    try:
        found = menu.menu(expression, program.lines(actions), [*given, *tried])
    except program.TooMany as error:
        return {"faulty": str(error)}
    return {"actions": found.actions[:SHOWN], "count": len(found.actions), "tried": tried, "left": left}


def refusing(question: Question, expression: Expanded) -> tuple[str | None, list[Finding]]:
    """The action that is explained if it is refused, and the parts that refuse it."""
    number, actions = question.explained, question.actions
    lines = program.trace(expression, actions)
    if number >= len(actions) or lines[number] != "no":
        return None, []
    past = program.lines(permitted(actions[:number], lines))
    return actions[number], why.refusing(expression, past, actions[number])


def explained(question: Question, expression: Expanded) -> Answer:
    """Why an action of the history is refused. The drawing has the letters of the parts."""
    action, parts = refusing(question, expression)
    return {"action": action, "parts": all_placed(question.rules, parts)}


def search(question: Question, expression: Expanded) -> Answer:
    """Whether a history of the given values can be stuck."""
    try:
        found = stuck.search(expression, question.given, question.states)
    except (menu.NoValue, program.TooMany) as error:
        return {"faulty": str(error)}
    told: Answer = {"sentence": found.sentence, "history": found.history, "more": found.has_more}
    return {**told, "gone": all_placed(question.rules, found.gone)}


def suite(question: Question, expression: Expanded) -> Answer:
    """The cases that aren't as they say, and the actions that cases have."""
    program.trace(expression, [])
    try:
        found = cases.results(expression, question.cases)
    except Fault as fault:
        return {"faulty": placed(question.cases, fault.at, fault.sentence)}
    wrong = [{"line": case.line, "column": 1, "sentence": f"{case.kind} {case.name}: {sentence}"}
             for case, sentence in found if sentence]
    used = dict.fromkeys(action for case, _ in found for action in case.actions)
    return {"counts": cases.counts(found), "wrong": wrong, "actions": list(used)}


PANELS: dict[str, Callable[[Question, Expanded], Answer]] = {
    "rules": rules,
    "lint": lint,
    "drawing": drawing,
    "history": history,
    "next": coming,
    "why": explained,
    "stuck": search,
    "suite": suite,
}


def answer(name: str, question: Question) -> Answer:
    """The answer of a panel. If the rules have a fault it is this fault alone, and if the history has, the number of its
    action."""
    try:
        return PANELS[name](question, expand(question.rules))
    except Fault as fault:
        return {"fault": placed(question.rules, fault.at, fault.sentence)}
    except program.Stopped as stopped:
        return {"stopped": stopped.number, "sentence": stopped.sentence}
