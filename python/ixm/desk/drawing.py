"""The interaction graph of an expression as SVG: one line from the left to the right, through all that happens."""

from collections.abc import Callable, Sequence
from dataclasses import dataclass
from xml.sax.saxutils import escape

from ixm.desk.forms import Form, Mark

LETTER, GAP, HALF = 9, 24, 18  # the width of a letter, the space between two figures, half the height of an atom
TITLES = {
    "-": "first one, and after it the next",
    "|": "one of these",
    "&": "all of these must permit each action",
    "@": "each of these watches its own actions",
    "+": "all of these, side by side",
    "?": "this, or nothing",
    "*": "this any number of times, one after the other",
    "#": "any number of these side by side",
    "any": "for some value",
    "every": "each value must permit each action",
    "sync": "for each value, which watches its own actions",
    "all": "side by side for all values",
    "times": "so many of these side by side",
}
STYLE = "text { font: 15px monospace; fill: #111111; stroke: none } polyline { fill: none }"
FRAMES = {"any": "#fff7e0", "every": "#eaf6ea", "sync": "#e8f3fa", "all": "#f6edf8"}
# The frame around what is marked, by the kind of the mark, from the inside to the outside. What refuses an action is lit.
MARKS = {
    "found": 'fill="none" rx="9" stroke="#4b3ba8" stroke-width="4" stroke-linecap="round" stroke-dasharray="0 8"',
    "refused": 'fill="none" stroke="#b00020" stroke-width="3" stroke-dasharray="7 4"',
    "refusing": 'fill="#ffe9a8" rx="4" stroke="#8a4b00" stroke-width="4"',
}


@dataclass(frozen=True)
class Figure:
    """A drawing beside a line: its width, how far it goes above and below the line, and its elements at a place."""

    width: int
    above: int
    below: int
    put: Callable[[int, int], list[str]]


def line(*points: tuple[int, int], arrow: bool = False) -> str:
    """A line through these points."""
    way = " ".join(f"{x},{y}" for x, y in points)
    end = ' marker-end="url(#arrow)"' if arrow else ""
    return f'<polyline points="{way}"{end}/>'


def label(x: int, y: int, text: str) -> str:
    return f'<text x="{x}" y="{y}">{escape(text)}</text>'


def box(x: int, y: int, width: int, height: int, rest: str) -> str:
    return f'<rect x="{x}" y="{y}" width="{width}" height="{height}" {rest}/>'


def titled(title: str, inner: list[str]) -> list[str]:
    return ["<g>", f"<title>{escape(title)}</title>", *inner, "</g>"]


def atom(form: Form) -> Figure:
    width = LETTER * len(form.word) + 2 * LETTER

    def put(x: int, y: int) -> list[str]:
        shape = box(x, y - HALF, width, 2 * HALF, 'rx="6" fill="#ffffff"')
        return titled(form.word, [shape, label(x + LETTER, y + 5, form.word)])

    return Figure(width, HALF, HALF, put)


def sequence(form: Form) -> Figure:
    inner = [figure(operand) for operand in form.operands]
    width = sum(one.width for one in inner) + GAP * (len(inner) - 1)

    def put(x: int, y: int) -> list[str]:
        found, at = list[str](), x
        for number, one in enumerate(inner):
            if number:
                found.append(line((at, y), (at + GAP, y), arrow=True))
                at += GAP
            found += one.put(at, y)
            at += one.width
        return titled(TITLES["-"], found)

    return Figure(width, max(one.above for one in inner), max(one.below for one in inner), put)


def stack(form: Form) -> Figure:
    """Operands below one another: between a fork and a join if one of them is chosen, and else between two bars."""
    inner = [figure(operand) for operand in form.operands]
    widest = max(one.width for one in inner)
    width = widest + 4 * GAP
    height = sum(one.above + one.below for one in inner) + HALF * (len(inner) - 1)
    above = height // 2 + GAP

    def put(x: int, y: int) -> list[str]:
        left, right, at = x + GAP, x + width - GAP, y - above + GAP
        found = [line((x, y), (left, y)), line((right, y), (x + width, y))]
        for one in inner:
            at += one.above
            begin = left + GAP + (widest - one.width) // 2
            found += ways(form.operator, (left, right), y, at, (begin, begin + one.width))
            found += one.put(begin, at)
            at += one.below + HALF
        for end in (left, right):
            found += ending(form.operator, end, y, (y - above + GAP, height))
        return titled(TITLES[form.operator], found)

    return Figure(width, above, height - height // 2, put)


def ways(operator: str, ends: tuple[int, int], y: int, at: int, inner: tuple[int, int]) -> list[str]:
    """The lines to an operand and from it."""
    (left, right), (begin, end) = ends, inner
    if operator == "|":
        return [line((left, y), (left + 12, at), (begin, at), arrow=True), line((end, at), (right - 12, at), (right, y))]
    return [line((left, at), (begin, at), arrow=True), line((end, at), (right, at))]


def ending(operator: str, x: int, y: int, bar: tuple[int, int]) -> list[str]:
    """A fork or join, or a bar with its sign above."""
    if operator == "|":
        return [f'<circle cx="{x}" cy="{y}" r="9" fill="#ffffff"/>', label(x - 4, y + 5, operator)]
    return [box(x - 3, bar[0], 6, bar[1], 'fill="#1d2733"'), label(x - 4, bar[0] - 6, operator)]


def repeated(form: Form) -> Figure:
    """A way past the operand, and for an iteration one back."""
    inner = figure(form.operands[0])
    width, above = inner.width + 4 * GAP, inner.above + HALF
    below = inner.below + (HALF if form.operator == "*" else 0)

    def put(x: int, y: int) -> list[str]:
        left, right, end = x + GAP, x + width - GAP, x + width
        found = [line((x, y), (left + GAP, y), arrow=True), line((right - GAP, y), (end, y))]
        near, far = left - 12, right + 12
        found.append(line((near, y), (near, y - above + 6), (far, y - above + 6), (far, y), arrow=True))
        if form.operator == "*":
            found.append(line((right, y), (right, y + below - 6), (left, y + below - 6), (left, y), arrow=True))
        return titled(TITLES[form.operator], found + inner.put(left + GAP, y))

    return Figure(width, above, below, put)


def framed(form: Form) -> Figure:
    """A frame with its word above; two more edges show that there are many side by side."""
    inner = figure(form.operands[0])
    width = max(inner.width + 2 * GAP, LETTER * len(form.word) + 3 * LETTER)
    above, below = inner.above + 2 * HALF, inner.below + HALF
    many = form.operator in ("#", "times")
    fill = FRAMES.get(form.operator, "#f4f4f4")

    def put(x: int, y: int) -> list[str]:
        top, height = y - above + 4, above + below - 12
        shapes = [box(x + 6, top + 6, width - 6, height, f'rx="3" fill="{fill}"')] * many
        shapes.append(box(x, top, width - 6 * many, height, f'rx="3" fill="{fill}"'))
        shapes.append(label(x + LETTER, top + 17, form.word))
        begin = x + (width - inner.width) // 2
        shapes += [line((x, y), (begin, y), arrow=True), line((begin + inner.width, y), (x + width, y))]
        return titled(f"{form.word}: {TITLES[form.operator]}", shapes + inner.put(begin, y))

    return Figure(width, above, below, put)


KINDS: dict[str, Callable[[Form], Figure]] = {
    "atom": atom,
    "-": sequence,
    **dict.fromkeys("|&@+", stack),
    **dict.fromkeys("?*", repeated),
    **dict.fromkeys(("#", "times", *FRAMES), framed),
}


def figure(form: Form) -> Figure:
    """The figure of a form, in a frame for each kind of its marks. One that isn't known is an error."""
    found = KINDS[form.operator](form)
    for kind in MARKS:
        marks = [mark for mark in form.marks if mark.kind == kind]
        found = marked(found, MARKS[kind], marks) if marks else found
    return found


def marked(inner: Figure, edge: str, marks: Sequence[Mark]) -> Figure:
    """A figure in a frame with this line and the signs of its marks, and their sentences as its title."""
    sign = " ".join(mark.sign for mark in marks)
    width = max(inner.width, LETTER * len(sign)) + HALF

    def put(x: int, y: int) -> list[str]:
        top, height = y - inner.above - GAP, inner.above + inner.below + GAP + 6
        begin, end = x + (width - inner.width) // 2, x + width
        shapes = [box(x, top, width, height, edge)]
        shapes.append(f'<text x="{x + 8}" y="{top + 17}" font-weight="bold">{sign}</text>')
        shapes += [line((x, y), (begin, y)), line((begin + inner.width, y), (end, y))]
        return titled("; ".join(mark.sentence for mark in marks), shapes + inner.put(begin, y))

    return Figure(width, inner.above + GAP + 4, inner.below + HALF, put)


def draw(form: Form) -> str:
    """The drawing of an expression, a whole SVG."""
    whole = figure(form)
    width, height = whole.width + 4 * GAP, whole.above + whole.below + 2 * GAP
    x, y = 2 * GAP, whole.above + GAP
    inner = [line((GAP, y), (x, y), arrow=True), *whole.put(x, y), line((x + whole.width, y), (width - GAP, y), arrow=True)]
    return "\n".join([*head(width, height, form.text()), *inner, "</g>", "</svg>"]) + "\n"


def head(width: int, height: int, text: str) -> Sequence[str]:
    return [
        f'<svg xmlns="http://www.w3.org/2000/svg" viewBox="0 0 {width} {height}" width="{width}" height="{height}">',
        f"<title>{escape(text)}</title>",
        f"<style>{STYLE}</style>",
        '<defs><marker id="arrow" viewBox="0 0 8 8" refX="8" refY="4" markerWidth="7" markerHeight="7" orient="auto">',
        '<path d="M0,0 L8,4 L0,8 z" fill="#1d2733"/></marker></defs>',
        f'<rect width="{width}" height="{height}" fill="#ffffff"/>',
        '<g stroke="#1d2733" stroke-width="1.5">',
    ]
