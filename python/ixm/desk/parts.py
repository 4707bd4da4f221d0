"""Named parts of rules: `let visit($p,$s) = begin($p,$s) - finish($p,$s);` before the expression, used as
`visit($p,xray)`. They are put in place of their uses before the text goes to the program."""

from collections.abc import Iterator, Sequence
from dataclasses import dataclass, field

from ixm.desk.texts import LARGEST_NAME, LARGEST_TEXT, LEVELS, QUANTIFIERS, RESERVED, Fault, Token, tokens


@dataclass(frozen=True)
class Part:
    name: str
    parameters: list[str]
    body: list[Token]
    end: int  # the place of its `;`

    def binds(self) -> set[str]:
        """The parameters that its own quantifiers bind."""
        pairs = zip(self.body, self.body[1:])
        return {after.text for before, after in pairs if before.text in QUANTIFIERS and after.kind == "parameter"}


@dataclass
class Expanded:
    """The expression for the program. `places` has the offset into the source of each of its bytes, and of its end."""

    text: str = ""
    places: list[int] = field(default_factory=list)

    def put(self, text: str, at: int, spaced: bool = False, copied: bool = True) -> None:
        """Adds a token, and a blank before it if it needs one. If it isn't copied it has one place as a whole."""
        joined = self.text[-1:].isalnum() or self.text[-1:] == "_"
        if self.text and (spaced or joined and (text[0].isalnum() or text[0] == "_")):
            self.text += " "
            self.places.append(at)
        self.text += text
        for index, sign in enumerate(text):
            self.places += [at + index if copied else at] * len(sign.encode())
        if len(self.places) > LARGEST_TEXT:
            raise Fault(at, f"with this the expanded text has more than {LARGEST_TEXT} bytes")

    def source(self, byte: int) -> int:
        """The offset into the source for a byte of the text."""
        return self.places[min(byte, len(self.places) - 1)]

    def origin(self, at: int) -> int:
        """The offset into the source for an offset into the text."""
        return self.source(len(self.text[:at].encode()))


class Reader:
    """The parts of a source that were read so far, and the rest of its tokens."""

    def __init__(self, source: str) -> None:
        self.rest, self.parts = tokens(source), dict[str, Part]()
        self.end = self.rest[-1].at + len(self.rest[-1].text) if self.rest else 0
        pairs = zip(self.rest, self.rest[1:])
        self.named = {after.text for before, after in pairs if before.text == "let"}

    def take(self, wanted: bool, sentence: str) -> Token:
        """The next token, if it is as wanted."""
        if not wanted:
            raise Fault(self.rest[0].at if self.rest else self.end, sentence)
        return self.rest.pop(0)

    def next_is(self, text: str) -> bool:
        return bool(self.rest) and self.rest[0].text == text

    def part(self) -> Part:
        """Reads a part, of which `let` is next."""
        begin = self.rest.pop(0)
        if self.rest and self.rest[0].text in RESERVED:
            raise Fault(self.rest[0].at, f"{self.rest[0].text} is a word of the language, so no part has this name")
        named = bool(self.rest) and self.rest[0].names()
        name = self.take(named, "after let comes the name of a part, which begins with a letter")
        if len(name.text) > LARGEST_NAME:
            raise Fault(name.at, f"a name has at most {LARGEST_NAME} characters")
        if name.text in self.parts:
            raise Fault(name.at, f"there is a part {name.text} already")
        parameters = self.parameters()
        self.take(self.next_is("="), f"here = has to come, and then the text of {name.text}")
        body = list[Token]()
        while self.rest and not self.next_is(";"):
            body.append(self.rest.pop(0))
        another = any(token.text in ("let", "=") and not inside for _, token, inside in self.uses(body))
        if another or not self.rest:
            raise Fault(begin.at, f"the part {name.text} isn't ended by ;")
        if not body:
            raise Fault(self.rest[0].at, f"the part {name.text} is empty")
        return Part(name.text, parameters, body, self.rest.pop(0).at)

    def parameters(self) -> list[str]:
        """The parameters of a part, if there are any."""
        found = list[str]()
        if not self.next_is("("):
            return found
        while self.next_is("(" if not found else ","):
            self.rest.pop(0)
            parameter = bool(self.rest) and self.rest[0].kind == "parameter"
            token = self.take(parameter, "here a parameter has to come, such as $p")
            if token.text in found:
                raise Fault(token.at, f"{token.text} is named twice")
            found.append(token.text)
        self.take(self.next_is(")"), "the parameters of a part are written as ($p,$q)")
        return found

    def uses(self, body: Sequence[Token]) -> Iterator[tuple[int, Token, bool]]:
        """The tokens with their numbers, and whether each is among the values of an action or of a part."""
        inside = False
        for number, token in enumerate(body):
            inside = inside and token.text != ")"
            yield number, token, inside
            inside = inside or token.text == "(" and number > 0 and body[number - 1].names()

    def check_uses(self, body: Sequence[Token], end: int) -> None:
        """Each use of a part is one of a part above, with as many values as it has parameters."""
        for number, token, inside in self.uses(body):
            if inside or not token.names() or token.text not in self.named:
                continue
            if token.text not in self.parts:
                raise Fault(token.at, f"a part uses only parts above it, and {token.text} isn't above")
            wanted, given = len(self.parts[token.text].parameters), len(values(body, number, end)[0])
            if wanted != given:
                plural = "" if wanted == 1 else "s"
                raise Fault(token.at, f"the part {token.text} has {wanted} parameter{plural}, and here it is given {given}")

    def check_part(self, part: Part) -> None:
        """The body of a part is one thing, and each parameter in it is the part's or bound by one of its quantifiers."""
        check_parentheses(part.body)
        binds = part.binds()
        for number, token, inside in self.uses(part.body):
            before = part.body[number - 1].text if number else ""
            if token.kind != "parameter":
                continue
            if not inside and before in QUANTIFIERS:
                if token.text in part.parameters:
                    raise Fault(token.at, f"{token.text} is a parameter of {part.name}, so {before} can't bind it")
            elif not inside and before != "times":
                raise Fault(token.at, f"{token.text} can't stand here: only among values, or after times")
            elif token.text not in binds and token.text not in part.parameters:
                raise Fault(token.at, f"{token.text} is no parameter of {part.name}, and nothing in it binds it")
        self.check_uses(part.body, part.end)

    def expression(self) -> list[Token]:
        """What is left, after all parts."""
        for _, token, inside in self.uses(self.rest):
            if token.text == "let" and not inside:
                raise Fault(token.at, "parts come before the expression")
            if token.text in ("=", ";"):
                raise Fault(token.at, f"this {token.text} belongs to no part")
        self.check_uses(self.rest, self.end)
        return self.rest


def check_parentheses(body: Sequence[Token]) -> None:
    opened = list[Token]()
    for token in body:
        if token.text == "(":
            opened.append(token)
        elif token.text == ")" and not opened:
            raise Fault(token.at, "this ) closes nothing")
        elif token.text == ")":
            opened.pop()
    if opened:
        raise Fault(opened[-1].at, "this ( is never closed")


def values(body: Sequence[Token], number: int, end: int) -> tuple[list[Token], int]:
    """The values given to the part that is used at this number, and the number after the use."""
    given, after = list[Token](), number + 1
    if after == len(body) or body[after].text != "(":
        return given, after
    while after < len(body) and body[after].text == ("," if given else "("):
        after += 1
        if after == len(body) or body[after].kind not in ("word", "parameter"):
            raise Fault(body[after].at if after < len(body) else end, "here a value or a parameter has to come")
        given.append(body[after])
        after += 1
    if after == len(body) or body[after].text != ")":
        raise Fault(body[after].at if after < len(body) else end, f"the values of {body[number].text} are written as (xray,$p)")
    return given, after + 1


def put_all(out: Expanded, parts: dict[str, Part], body: Sequence[Token], given: dict[str, Token], depth: int = 0) -> None:
    """Adds tokens, with the parts put in place of their uses and these values in place of parameters."""
    number, inside, first = 0, False, True
    while number < len(body):
        token = body[number]
        spaced, number = token.spaced and not first, number + 1
        if token.names() and token.text in parts and not inside:
            part = parts[token.text]
            found, number = values(body, number - 1, token.at)
            put_part(out, parts, (part, token, spaced), [given.get(value.text, value) for value in found], depth + 1)
        else:
            value = given.get(token.text, token)
            out.put(value.text, value.at, spaced)
            opens = token.names() and number < len(body) and body[number].text == "("
            inside = opens or inside and token.text != ")"
        first = False


def put_part(
    out: Expanded, parts: dict[str, Part], use: tuple[Part, Token, bool], found: Sequence[Token], depth: int
) -> None:
    part, token, spaced = use
    if depth > LEVELS:
        raise Fault(token.at, f"this part is used inside {LEVELS} others")
    for value in found:
        if value.text in part.binds():
            raise Fault(value.at, f"the part {part.name} binds {value.text} itself, so it can't be given {value.text}")
    out.put("(", token.at, spaced, copied=False)
    put_all(out, parts, part.body, dict(zip(part.parameters, found)), depth)
    out.put(")", part.end, copied=False)


def expand(source: str) -> Expanded:
    """The expression of a source, with its parts in their places. Each run of blanks and comments is one blank."""
    reader = Reader(source)
    while reader.next_is("let"):
        part = reader.part()
        reader.check_part(part)
        reader.parts[part.name] = part
    out = Expanded()
    put_all(out, reader.parts, reader.expression(), {})
    out.places.append(reader.end)
    return out
