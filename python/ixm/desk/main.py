"""The command `ixm-desk` (docs/desk.md)."""

import argparse
import sys
import webbrowser
from collections.abc import Callable, Iterator, Sequence
from contextlib import contextmanager, suppress
from dataclasses import dataclass
from functools import partial

from ixm.desk import cases, lint, menu, program, why
from ixm.desk.drawing import draw
from ixm.desk.forms import parse
from ixm.desk.found import Finding
from ixm.desk.parts import Expanded, expand
from ixm.desk.server import Desk
from ixm.desk.texts import Fault, Undecoded, place, read

WELL, WRONG, FAULTY = 0, 1, 2


class Told(Exception):
    """The run ends with this status and this line."""

    def __init__(self, status: int, line: str) -> None:
        super().__init__(line)
        self.status, self.line = status, line


@contextmanager
def placed(path: str, text: str, status: int) -> Iterator[None]:
    """Tells a fault by its place in the file, and ends with the status."""
    try:
        yield
    except Fault as fault:
        line, column = place(text, fault.at)
        raise Told(status, f"{path}:{line}:{column}: {fault.sentence}") from None


def expanded(path: str, status: int) -> tuple[str, Expanded]:
    source = read(path)
    with placed(path, source, status):
        return source, expand(source)


def run_expand(rules: str) -> int:
    print(expanded(rules, WRONG)[1].text)
    return WELL


def run_check(rules: str) -> int:
    source, expression = expanded(rules, WRONG)
    with placed(rules, source, WRONG):
        program.trace(expression, [])
    return WELL


def run_test(rules: str, suite: str) -> int:
    source, expression = expanded(rules, FAULTY)
    text = read(suite)
    with placed(rules, source, FAULTY):
        program.trace(expression, [])
    with placed(suite, text, FAULTY):
        lines, counts = cases.run(expression, text, suite)
    print("\n".join([*lines, counts]))
    return WRONG if lines else WELL


def tell(found: Sequence[Finding], rules: str, source: str) -> int:
    """Prints a line for each finding."""
    for one in found:
        print(one.line(rules, source))
    return WRONG if found else WELL


def run_lint(rules: str) -> int:
    source, expression = expanded(rules, FAULTY)
    with placed(rules, source, FAULTY):
        return tell(lint.looks_wrong(source, expression), rules, source)


@contextmanager
def history(path: str) -> Iterator[str]:
    """The lines of a file of actions. One at which the program stops is told by its place."""
    text = read(path)
    try:
        yield text
    except program.Stopped as stopped:
        action = text.split("\n")[stopped.number]
        raise Told(FAULTY, f"{path}:{stopped.number + 1}:1: {action} {stopped.sentence}") from None


def run_next(rules: str, actions: str, *given: str) -> int:
    source, expression = expanded(rules, FAULTY)
    with placed(rules, source, FAULTY), history(actions) as text:
        found = menu.menu(expression, text, given)
    print("\n".join([*found.actions, found.state]))
    return WELL


def run_why(rules: str, actions: str, action: str) -> int:
    source, expression = expanded(rules, FAULTY)
    with placed(rules, source, FAULTY):
        try:
            program.trace(expression, [action])
        except program.Stopped as stopped:
            raise Told(FAULTY, f"ixm-desk: {action} {stopped.sentence}") from None
        with history(actions) as text:
            found = why.refusing(expression, text, action)
    if not found:
        print("permitted")
    return tell(found, rules, source)


def run_draw(rules: str) -> int:
    source, expression = expanded(rules, WRONG)
    with placed(rules, source, WRONG):
        try:
            form = parse(expression.text)
        except Fault as fault:
            raise Fault(expression.origin(fault.at), fault.sentence) from None
    print(draw(form), end="")
    return WELL


def run_open(*rules: str, shows: bool = False) -> int:
    """Serves the page until it is interrupted."""
    for path in rules:
        read(path)
    program.path()
    with Desk(rules) as desk, suppress(KeyboardInterrupt):
        print(desk.address, flush=True)
        if shows:
            webbrowser.open(desk.address)
        desk.serve_forever()
    return WELL


@dataclass(frozen=True)
class Command:
    """A command with the words behind its name, and how many it takes."""

    run: Callable[..., int]
    words: str
    least: int
    most: int


COMMANDS = {
    "expand": Command(run_expand, "RULES", 1, 1),
    "check": Command(run_check, "RULES", 1, 1),
    "test": Command(run_test, "RULES CASES", 2, 2),
    "lint": Command(run_lint, "RULES", 1, 1),
    "next": Command(run_next, "RULES ACTIONS [VALUE..]", 2, 2 + menu.MOST),
    "why": Command(run_why, "RULES ACTIONS ACTION", 3, 3),
    "draw": Command(run_draw, "RULES", 1, 1),
}


def command_of(words: list[str] | None) -> Callable[[], int]:
    """What these words ask for. Without a command they are files of rules for the page."""
    usage = " | ".join(["ixm-desk [--open] RULES..", *(f"{name} {command.words}" for name, command in COMMANDS.items())])
    parser = argparse.ArgumentParser(prog="ixm-desk", usage=usage)
    parser.add_argument("--open", action="store_true", help="opens the page in the browser")
    parser.add_argument("words", nargs="+")
    read_words = parser.parse_args(words)
    name, *rest = read_words.words
    if name not in COMMANDS:
        rules = rest if name == "open" else [name, *rest]
        if not rules:
            parser.error("open takes files of rules")
        return partial(run_open, *rules, shows=read_words.open)
    command = COMMANDS[name]
    if not command.least <= len(rest) <= command.most or read_words.open:
        parser.error(f"{name} takes {command.words}")
    return partial(command.run, *rest)


def main(words: list[str] | None = None) -> int:
    """Runs the command of these words, or of the process, and returns its status."""
    command = command_of(words)
    try:
        return command()
    except Told as told:
        print(told.line, file=sys.stderr)
        return told.status
    except OSError as error:
        print(f"ixm-desk: {error.filename}: {error.strerror}", file=sys.stderr)
    except (Undecoded, menu.NoValue, program.TooMany, program.Unusable) as error:
        print(f"ixm-desk: {error}", file=sys.stderr)
    return FAULTY
