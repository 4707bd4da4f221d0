"""What the program says of places of an expression, as the author of its rules finds them in the text and in the drawing."""

from collections.abc import Iterable
from dataclasses import dataclass

from ixm.desk.parts import Expanded
from ixm.desk.texts import place


@dataclass(frozen=True)
class Finding:
    """A sentence at an offset into the source, and where its nodes begin in the expression's text, which are several if it
    is in a part that is used several times."""

    at: int
    sentence: str
    nodes: list[int]

    def line(self, path: str, source: str) -> str:
        """A line for the command: the file, the line and the column, and the sentence."""
        line, column = place(source, self.at)
        return f"{path}:{line}:{column}: {self.sentence}"


def findings(told: Iterable[tuple[int, str]], expression: Expanded) -> list[Finding]:
    """These sentences, each with the place of its node in the expression's text, in their order."""
    nodes = dict[tuple[int, str], list[int]]()
    for node, sentence in told:
        nodes.setdefault((expression.source(node), sentence), []).append(node)
    return [Finding(*key, found) for key, found in nodes.items()]
