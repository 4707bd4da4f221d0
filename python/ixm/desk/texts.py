"""Texts of rules, cut into tokens, and faults at a place of a text."""

import re
from dataclasses import dataclass

QUANTIFIERS = ("any", "every", "sync", "all")
RESERVED = (*QUANTIFIERS, "times", "let")
LARGEST_TEXT = 16384  # bytes that the program reads
LARGEST_NAME = 32
LEVELS = 64
WORDS = r"(?P<word>[A-Za-z0-9_]+)|(?P<parameter>\$[A-Za-z][A-Za-z0-9_]*)"
TOKEN = re.compile(WORDS + r"|(?P<sign>[(),?*#+|&@=;-])|(?P<other>.)", re.S)
BLANK = re.compile(r"(?:[ \n]|//[^\n]*|/\*.*?\*/)+", re.S)


class Fault(Exception):
    """A text isn't right: a sentence, and the place as an offset into the text."""

    def __init__(self, at: int, sentence: str) -> None:
        super().__init__(sentence)
        self.at, self.sentence = at, sentence


@dataclass(frozen=True)
class Token:
    """A piece of a text: a word, a parameter, a sign, or another character. `spaced` if blanks or a comment come before."""

    kind: str
    text: str
    at: int
    spaced: bool = False

    def names(self) -> bool:
        """Whether an action or a part can have it as its name."""
        return self.kind == "word" and self.text[0].isalpha() and self.text not in RESERVED


def tokens(text: str) -> list[Token]:
    """The tokens of a text. Comments count as blanks."""
    found, at = list[Token](), 0
    while at < len(text):
        blank = BLANK.match(text, at)
        if blank:
            at = blank.end()
        if text.startswith("/*", at):
            raise Fault(at, "this comment is never closed")
        token = TOKEN.match(text, at)
        if token:
            found.append(Token(str(token.lastgroup), token.group(), at, blank is not None))
            at = token.end()
    return found


def place(text: str, at: int) -> tuple[int, int]:
    """The line and the column of an offset, both from 1."""
    return text.count("\n", 0, at) + 1, at - text.rfind("\n", 0, at)


def read(path: str) -> str:
    """The text of a file."""
    with open(path, "rb") as file:
        data = file.read()
    try:
        return data.decode()
    except UnicodeDecodeError as error:
        front = data[: error.start].decode()
        raise Undecoded(*place(front, len(front)), path) from None


class Undecoded(Exception):
    """A file isn't UTF-8 from this place on."""

    def __init__(self, line: int, column: int, path: str) -> None:
        super().__init__(f"{path}:{line}:{column}: from here on this is no UTF-8")
