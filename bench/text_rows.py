"""The rows of bench/commands on texts: which are read, the first fault of each other one, and how
they are written.

What is wanted comes from docs/language.md, and not from what the program puts."""

from __future__ import annotations

from collections.abc import Iterator

from rows import REPLAY, TRACE, Row, on

SIMPLIFY = "simplify expression"

# A quantifier inside eight others.
NINE = "any $a any $b any $c any $d any $e any $f any $g any $h any $i j"

# The longest name, value and action, and a byte more.
LONGEST_NAME = "abcdefghijklmnopqrstuvwxyzABCDEF"
LONGEST_VALUE = "0123456789_abcdefghijklmnopqrstu"
LONGEST_ACTION = f"{LONGEST_NAME}({','.join([LONGEST_VALUE] * 4)})"
TOO_LONG = LONGEST_NAME + "G"

# A text, and the code and the place of its first fault.
FAULTS = (
    ("a | - b", 3, 4),
    ("", 4, 0),
    ("all $p (a($p) - b)", 7, 16),
    ("a -", 4, 3),
    ("a ! b", 2, 2),
    ("a b", 3, 2),
    ("any $p a($q)", 5, 7),
    ("any $p any $p a($p)", 6, 7),
    ("all(x)", 12, 0),
    ("times", 12, 0),
    ("times (a)", 12, 0),
    ("times 1 a", 16, 6),
    ("times a", 16, 6),
    ("a(p,q,r,s,t)", 10, 9),
    (TOO_LONG, 11, 0),
    ("! a", 2, 0),
    ("a ! b c", 2, 2),
    ("a - b!", 2, 5),
    ("a\t- b", 2, 1),
    ("$1", 2, 0),
    ("any $x$ a", 2, 6),
    (")a", 3, 0),
    ("a b !", 3, 2),
    ("a - b c", 3, 6),
    ("9a", 3, 0),
    ("(a", 4, 2),
    ("a($q) | b", 5, 0),
    ("b | a($q) | c", 5, 4),
    ("b | c | a($q)", 5, 8),
    (" a - b(x,$p) - c | ?((d)) ", 5, 5),
    ("any $p a($q) !", 2, 13),
    ("any $p any $p a($q)", 6, 7),
    ("b | any $p every $p a", 6, 11),
    ("all $p b", 7, 7),
    ("all $p (a($p) - b - c($p))", 7, 16),
    ("b - a(p,q,r,s,t,", 10, 13),
    (NINE, 13, 56),
    # Behind reserved words.
    ("b - times - c", 12, 4),
    ("times $p a", 12, 0),
    ("times ! 2", 12, 0),
    ("times 02 a", 16, 6),
    ("times 65 a", 16, 6),
    (f"times {'n' * 32} a", 16, 6),
    ("times 2", 4, 7),
    ("times 2 - a", 3, 8),
    ("b | any !", 12, 4),
    # Levels, lengths and nodes.
    ("times 2 " * 65 + "a", 9, 512),
    ("(" * 65 + "a" + ")" * 65, 9, 64),
    ("any $p " * 65 + "a", 9, 448),
    ("a|" * 8192, 8, 512),
    (" " * 16382 + "a|b", 1, 16384),
    (f"b - {TOO_LONG}", 11, 4),
    (f"any ${TOO_LONG} a", 11, 4),
)

# Form faults: each code at the first node where it can stand, a middle one and the last; two faults
# at one node; and the nearest texts without a fault.
EIGHT = "any $b any $c any $d any $e any $f any $g any $h any $i "
FORMS = (
    ("a($p)", "refused expression 5 at 0\n"),
    ("a - a($p) - c", "refused expression 5 at 4\n"),
    ("a - a($p)", "refused expression 5 at 4\n"),
    ("any $p any $p a", "refused expression 6 at 7\n"),
    ("any $p (any $p a - b)", "refused expression 6 at 8\n"),
    ("any $p (a - any $p b)", "refused expression 6 at 12\n"),
    ("all $p a", "refused expression 7 at 7\n"),
    ("all $p (a - a($p))", "refused expression 7 at 8\n"),
    ("all $p (a($p) - a(p))", "refused expression 7 at 16\n"),
    ("all $p a($q)", "refused expression 5 at 7\n"),
    (EIGHT + "any $a x", "refused expression 13 at 56\n"),
    (EIGHT + "any $i x", "refused expression 13 at 56\n"),
    (EIGHT + "(any $a x - y)", "refused expression 13 at 57\n"),
    (EIGHT + "(x - any $a y)", "refused expression 13 at 61\n"),
    # The first operand is the deepest: an option is 1, and so is each choice.
    ("?" * 60 + "(" + "a|" * 196 + "a)", "refused expression 9 at 61\n"),
    ("?" * 60 + "(" + "a|" * 200 + "a)", "refused expression 9 at 68\n"),
)
WELL_FORMED = (
    (EIGHT + "x", "partial\n"),
    ("all $p a($p)", "partial\n"),
    ("any $p a - any $p b", "partial\n"),
    ("?" * 60 + "(" + "a|" * 195 + "a)", "complete\n"),
)

# A text that no law applies to, and its canonical text.
PRINTED = (
    ("a", "a"),
    (" (a)-( b-c ) ", "a - (b - c)"),
    ("(a-b)-c", "a - b - c"),
    (" a - b(x) - c | ?((d)) ", "a - b(x) - c | ?d"),
    ("all $p *(any $x (call($p,$x)-perform($p,$x)))"
     "@all $x *(any $p (call($p,$x)-perform($p,$x)))",
     "all $p *any $x (call($p,$x) - perform($p,$x)) "
     "@ all $x *any $p (call($p,$x) - perform($p,$x))"),
    ("(a|b)&((?(c-d))@((#e)+(every $p (sync $q (f($p,$q,v))))))",
     "(a | b) & ?(c - d) @ #e + every $p sync $q f($p,$q,v)"),
    ("times 2((times 64(a))-?(times 10 b))", "times 2 (times 64 a - ?times 10 b)"),
    ("times 64 (a - b)", "times 64 (a - b)"),
    # A value and a parameter may be a reserved word.
    ("any $times a($times) | b(times)", "any $times a($times) | b(times)"),
    ("any $p2 a($p2)\n| b", "any $p2 a($p2) | b"),
    ("times 2 " * 64 + "a", "times 2 " * 64 + "a"),
    ("(" * 64 + "a" + ")" * 64, "a"),
    (" " * 16381 + "a|b", "a | b"),
    (LONGEST_NAME, LONGEST_NAME),
    (LONGEST_ACTION, LONGEST_ACTION),
)


def expressions() -> Iterator[Row]:
    """Texts of expressions."""
    for text, code, at in FAULTS:
        yield on(SIMPLIFY, text, "", f"refused expression {code} at {at}\n", 3)
    for text, wanted in FORMS:
        yield on(TRACE, text, "a", wanted, 3)
    for text, wanted in WELL_FORMED:
        yield on(TRACE, text, "", wanted)
    # The longest texts, and the most nodes.
    yield on(TRACE, " " * 16383 + "a", "", "partial\n")
    yield on(TRACE, " " * 16383 + "a ", "", "refused expression 1 at 16384\n", 3)
    yield on(TRACE, "a-" * 255 + "a", "a", "yes\npartial\n")
    yield on(TRACE, "a-" * 255 + "a-a", "a", "refused expression 8 at 512\n", 3)
    for text, wanted in PRINTED:
        yield on(SIMPLIFY, text, "", f"{wanted}\n")
    for sign in "|&@+-":
        yield on(SIMPLIFY, f"(a{sign}b){sign}c", "", f"a {sign} b {sign} c\n")
        yield on(SIMPLIFY, f"a{sign}(b{sign}c)", "", f"a {sign} (b {sign} c)\n")
    # The root is the last operator, whose place is told.
    yield on("why expression actions d", "a @ b @ c", "", "at 6: a @ b @ c\n")
    yield on("bound expression 3", "a - a - a", "",
             "unbounded 51 node 0\n51 node 0 at 6\n51 node 1 at 2\n")


# A text, and the code and the place of its first fault.
FAULTS_OF_ACTIONS = (
    ("\n", 1, 0),
    ("a\n9", 1, 2),
    ("a(x,y,z,w,v)", 3, 9),
    ("a(x)\nb(\n9\n", 2, 7),
    ("a\n\na c\n", 1, 2),
    ("1a", 1, 0),
    ("_", 1, 0),
    ("a(", 2, 2),
    ("a()", 2, 2),
    ("a(x", 2, 3),
    ("a(x,", 2, 4),
    ("a(x y)", 2, 3),
    ("a b", 5, 1),
    ("a,", 5, 1),
    ("a(x)y", 5, 4),
    ("a(x,y,z,w", 2, 9),
    ("a(x,y,z,w(", 2, 9),
    (TOO_LONG, 4, 32),
    (f"a({LONGEST_VALUE}v)", 4, 34),
)

ACTIONS = ("a", LONGEST_NAME, "call(p1,x1)", "Z_9(_)", "a(x,y,z,w)", LONGEST_ACTION)

# What is a name, and what is none.
NAMES = (("a", "changes 0"), ("Z_9", "changes 0"), (LONGEST_NAME, "changes 0"),
         ("", "refused 16 name"), ("9Z", "refused 16 name"), ("_", "refused 16 name"),
         ("a.b", "refused 16 name"), (TOO_LONG, "refused 16 name"))

VALUES = (("a", True), ("Z_9", True), ("9Z", True), ("_", True), (LONGEST_VALUE, True),
          ("a.b", False), (TOO_LONG, False))


def written() -> Row:
    """Each action is read of an ask, and written into the journal and an entry of the log."""
    script, wanted, text = "", "history 0\n", f"*({' | '.join(ACTIONS)})".encode()
    journal = b"\xA5IXJ2" + len(text).to_bytes(2, "big") + text + b"\xA5\x00\x06boot 1"
    for number, action in enumerate(ACTIONS, 1):
        script += f"1 0 ask {action} 9\n1 0 confirm 1-{number}\n1 0 log {number}\n"
        wanted += f"0 granted 1-{number}\n0 confirmed {number}\n0 entry {number} {action}\n"
        record = f"1-{number} {action}".encode()
        journal += b"\xA5" + len(record).to_bytes(2, "big") + record
    files = {"expression": text, "actions": script.encode()}
    return Row(REPLAY, files, wanted, then={"journal": journal + b"\x00"})


def actions() -> Iterator[Row]:
    """Texts of actions, names and values."""
    for text, code, at in FAULTS_OF_ACTIONS:
        yield on(TRACE, "a", text, f"refused actions {code} at {at}\n", 3)
    yield written()
    polls = "".join(f"1 0 poll {name}\n" for name, _ in NAMES)
    yield on(REPLAY, "a", polls, "history 0\n" + "".join(f"0 {reply}\n" for _, reply in NAMES))
    for value, is_value in VALUES:
        wanted, status = ("a\npartial\n", 0) if is_value else ("refused words\n", 2)
        yield on(f"next expression actions {value}", "a", "", wanted, status)


# What an expression may do with values: it knows an action by a value of its parameter.
ALPHABETS = (
    ("(any $p (b - a($p))) @ a(m)", "a(m)\nb\na(m)\nb(m)", "no\nyes\nyes\nno\ncomplete\n"),
    ("any $p ?a($p)", "b(m)\na(m)\na(m)", "no\nyes\nno\ncomplete\n"),
)


def rows() -> list[Row]:
    """All rows of this file."""
    alphabets = [on(TRACE, *row) for row in ALPHABETS]
    return [*expressions(), *actions(), *alphabets]
