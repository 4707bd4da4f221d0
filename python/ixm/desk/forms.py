"""Expressions as forms, for drawings only: what isn't right here may be right for the program, which alone decides."""

from collections.abc import Mapping, Sequence
from dataclasses import dataclass, replace

from ixm.desk.texts import LEVELS, QUANTIFIERS, Fault, Token, tokens

BINARY = "|&@+-"  # from the weakest binding to the strongest
PREFIXES = ("?", "*", "#")


@dataclass(frozen=True)
class Mark:
    """A frame around a form in the drawing: its kind, a short sign, and a sentence."""

    kind: str
    sign: str
    sentence: str


@dataclass(frozen=True)
class Form:
    """An atom with its text as `word`, or an operator and what it is put on.

    `word` of an operator is its sign or word, with its parameter or number. Operands of one binary operator that group
    to the left are in one form. `at` has the places of its signs in the text, or of its word. `marks` are what the
    drawing shows around it.
    """

    operator: str
    word: str
    operands: tuple["Form", ...] = ()
    at: tuple[int, ...] = ()
    marks: tuple[Mark, ...] = ()

    def text(self, binding: int = 0) -> str:
        """Its canonical text, as an operand that has to bind at least so strongly."""
        if self.operator == "atom":
            return self.word
        if self.operator not in BINARY:
            blank = "" if self.operator in PREFIXES else " "
            return self.word + blank + self.operands[0].text(len(BINARY))
        own = BINARY.index(self.operator)
        inner = [operand.text(own + (number > 0)) for number, operand in enumerate(self.operands)]
        text = f" {self.operator} ".join(inner)
        return f"({text})" if own < binding else text


class Parser:
    def __init__(self, text: str) -> None:
        self.rest, self.end, self.level = tokens(text), len(text), 0

    def fault(self) -> Fault:
        return Fault(self.rest[0].at if self.rest else self.end, "the drawing can't read on here")

    def next_is(self, text: str) -> bool:
        return bool(self.rest) and self.rest[0].text == text

    def take(self, wanted: bool) -> Token:
        if not self.rest or not wanted:
            raise self.fault()
        return self.rest.pop(0)

    def binary(self, own: int = 0) -> Form:
        """Operands of the operator with this number, and of those that bind more strongly."""
        if own == len(BINARY):
            return self.prefix()
        sign, found = BINARY[own], self.binary(own + 1)
        while self.next_is(sign):
            at = self.rest.pop(0).at
            before, places = (found.operands, found.at) if found.operator == sign else ((found,), ())
            found = Form(sign, sign, (*before, self.binary(own + 1)), (*places, at))
        return found

    def prefix(self) -> Form:
        """An operand: a prefix and what it is put on, a group, or an atom."""
        token = self.take(True)
        self.level += 1
        if self.level > LEVELS + 1:
            raise Fault(token.at, "the drawing can't read on here")
        if token.text in PREFIXES:
            found = Form(token.text, token.text, (self.prefix(),), (token.at,))
        elif token.text in QUANTIFIERS:
            parameter = self.take(self.rest[:1] != [] and self.rest[0].kind == "parameter")
            found = Form(token.text, f"{token.text} {parameter.text}", (self.prefix(),), (token.at,))
        elif token.text == "times":
            number = self.take(self.rest[:1] != [] and self.rest[0].text.isdigit())
            found = Form("times", f"times {number.text}", (self.prefix(),), (token.at,))
        elif token.text == "(":
            found = self.binary()
            self.take(self.next_is(")"))
        else:
            self.rest.insert(0, token)
            found = self.atom()
        self.level -= 1
        return found

    def atom(self) -> Form:
        name = self.take(self.rest[0].names())
        if not self.next_is("("):
            return Form("atom", name.text, at=(name.at,))
        inner = list[str]()
        while self.next_is("," if inner else "("):
            self.rest.pop(0)
            inner.append(self.take(self.rest[:1] != [] and self.rest[0].kind in ("word", "parameter")).text)
        self.take(self.next_is(")"))
        return Form("atom", f"{name.text}({','.join(inner)})", at=(name.at,))


def parse(text: str) -> Form:
    """The form of an expanded text."""
    parser = Parser(text)
    found = parser.binary()
    if parser.rest:
        raise parser.fault()
    return found


def marked(form: Form, marks: Mapping[int, Sequence[Mark]]) -> Form:
    """The form with these marks, which are given by the places of the nodes that have them."""
    own = tuple(mark for at in reversed(form.at) for mark in marks.get(at, ()))
    return replace(form, marks=own, operands=tuple(marked(operand, marks) for operand in form.operands))
