"""The rows of bench/commands on the words of a command line.

The numbers of options are seen by what the limits refuse. What is wanted comes from docs/, and not
from what the program puts; of a text of `clap` it is the beginning."""

from __future__ import annotations

from collections.abc import Iterator

from rows import Row, on

# What is told where the words begin with no command's name, and such words.
COMMANDS = """Usage: ixm COMMAND WORDS

Commands:
  trace EXPR ACTIONS [--nodes N]
  replay EXPR JOURNAL SCRIPT [--nodes N] [--turns N]
  serve EXPR JOURNAL SOCKET [--nodes N] [--turns N]
  work N SEED [--nodes N]
  simplify EXPR
  bound EXPR K
  follow EXPR LINES [--nodes N]
  lint EXPR
  why EXPR ACTIONS ACTION [--nodes N]
  next EXPR ACTIONS [VALUE..] [--nodes N]
  stuck EXPR VALUES [--nodes N] [--states N]
  renew EXPR JOURNAL NEW [--nodes N]

For more information on a command, put '--help' behind its name.
"""
OF_NO_COMMAND = ("", "fly", "''", "Trace expression actions", "--help", "help", "x trace")

# Words that begin with a command's name and are refused, and how the text begins that is told.
MISSING = "error: the following required arguments were not provided:\n"
INVALID = "error: invalid value "
REFUSED = (
    ("trace x", f"{MISSING}  <ACTIONS>\n"),
    ("replay x j", f"{MISSING}  <SCRIPT>\n"),
    ("serve x j", f"{MISSING}  <SOCKET>\n"),
    ("why x a", f"{MISSING}  <ACTION>\n"),
    ("renew x j", f"{MISSING}  <NEW>\n"),
    ("trace expression actions b", "error: unexpected argument 'b' found\n"),
    ("replay x j s t", "error: unexpected argument 't' found\n"),
    ("serve x j s t", "error: unexpected argument 't' found\n"),
    ("work 5 -1", "error: unexpected argument '-1' found\n"),
    ("trace expression actions --node 8", "error: unexpected argument '--node' found\n"),
    ("trace expression actions --turns 8", "error: unexpected argument '--turns' found\n"),
    ("simplify expression --nodes 8", "error: unexpected argument '--nodes' found\n"),
    ("next expression actions 1 2 3 4 5 6 7 8 9 10 11 12 13 14 15 16 17",
     "error: unexpected value '17' for '[VALUE]...' found; no more were expected\n"),
    ("replay --turns 1 --turns 1 x j s",
     "error: the argument '--turns <turns>' cannot be used multiple times\n"),
    ("trace expression actions --nodes",
     "error: a value is required for '--nodes <nodes>' but none was supplied\n"),
    ("trace --nodes 0 expression actions", f"{INVALID}'0' for '--nodes <nodes>': "),
    ("trace expression actions --nodes 0", f"{INVALID}'0' for '--nodes <nodes>': "),
    ("trace expression actions --nodes 1000001", f"{INVALID}'1000001' for '--nodes <nodes>': "),
    ("trace expression actions --nodes eight", f"{INVALID}'eight' for '--nodes <nodes>': "),
    ("replay x j s --turns 0", f"{INVALID}'0' for '--turns <turns>': "),
    ("replay x j s --turns 1000000001", f"{INVALID}'1000000001' for '--turns <turns>': "),
    ("stuck expression actions --states 0", f"{INVALID}'0' for '--states <states>': "),
    ("work 1000001 1", f"{INVALID}'1000001' for '<N>': "),
    ("work 5 18446744073709551616", f"{INVALID}'18446744073709551616' for '<SEED>': "),
    ("work 5 1 --nodes 0", f"{INVALID}'0' for '--nodes <nodes>': "),
    ("bound expression 1000001", f"{INVALID}'1000001' for '<K>': "),
    ("trace --help",
     "Says of each action of a file whether the expression lets it be next\n\nUsage: ixm "),
)


def refusals() -> Iterator[Row]:
    """Words that name no job."""
    files = {"expression": b"a", "actions": b"a"}
    for words in OF_NO_COMMAND:
        yield Row(words, files, COMMANDS, 2)
    for words, front in REFUSED:
        yield Row(words, files, front, 2, begins=True)


# Behind two actions its state has 8 nodes, and behind three it has more.
GROWING, ACTIONS = "#(a - b)", "a\na\na\nb"
AT_8, AT_MOST = "yes\nyes\nlarge\nyes\npartial\n", "yes\nyes\nyes\nyes\npartial\n"

# An option with its number anywhere, and words behind `--`, which are none.
PLACED = (
    ("trace expression actions", AT_MOST),
    ("trace expression actions --nodes 8", AT_8),
    ("trace expression --nodes 8 actions", AT_8),
    ("trace --nodes=8 expression actions", AT_8),
    ("trace expression --nodes +8 actions", AT_8),
    ("trace expression actions --nodes 0000000008", AT_8),
    ("trace expression actions --nodes 0001000000", AT_MOST),
    ("trace --nodes 8 -- expression actions", AT_8),
    ("trace -- --nodes 8", AT_MOST),
    ("trace --nodes=8 -- --nodes 8", AT_8),
)

SCRIPT = "1 0 ask a 5\n1 0 confirm 1-1\n1 0 ask a 5\n1 0 confirm 1-2\n1 0 ask a 5\n1 0 status"
GRANTED = "history 0\n0 granted 1-1\n0 confirmed 1\n0 granted 1-2\n0 confirmed 2\n"

# Words, the expression, the other file, the status, and what is put.
NUMBERS = (
    # Two options, in either order.
    ("replay --turns 5 expression journal --nodes 8 actions", GROWING, SCRIPT, 7,
     f"{GRANTED}0 refused 22 large 8\nrefused turns\n"),
    ("replay expression journal actions --nodes=8 --turns=4", GROWING, SCRIPT, 7,
     f"{GRANTED}refused turns\n"),
    ("stuck expression actions --states 1 --nodes 9", "*(a - b)", "u", 0, "more than 1 states\n"),
    ("stuck --states 9 expression --nodes 1 actions", "*(a - b)", "u", 0, "large\n"),
    # The greatest numbers.
    ("replay --nodes 1000000 --turns 1000000000 expression journal actions", "a", "1 0 status", 0,
     "history 0\n0 status partial 0 nodes 1\n"),
    ("work 1000000 18446744073709551615 --nodes 4", "", "", 3, "refused expression 14 large 4\n"),
    ("bound expression 1000000", "all $p a($p)", "", 0, "above 1000000\n"),
    # An option behind the words, and behind some of them.
    ("serve expression journal socket --nodes=1", "a - b", "", 3,
     "refused expression 14 large 1\n"),
    ("why expression --nodes 6 actions a", GROWING, ACTIONS, 11, "refused history 64 at 2\n"),
    ("next expression actions p=u v --nodes 6", GROWING, ACTIONS, 11, "refused history 64 at 2\n"),
    # None and some values, and the most.
    ("next expression actions", "any $p a($p)", "", 0, "a($1)\npartial\n"),
    ("next expression actions p=u v --nodes 9", "any $p a($p)", "", 0,
     "a(u)\na(v)\na($1)\npartial\n"),
    ("next expression actions 1 2 3 4 5 6 7 8 9 10 11 12 13 14 15 16", "any $p a($p)", "", 0,
     "".join(f"a({value})\n" for value in range(1, 17)) + "a($1)\npartial\n"),
)


def jobs() -> Iterator[Row]:
    """Words whose numbers, options and values are seen in what is put."""
    text, actions = GROWING.encode(), ACTIONS.encode()
    files = {"expression": text, "actions": actions, "--nodes": text, "8": actions}
    for words, wanted in PLACED:
        yield Row(words, files, wanted)
    for words, expression, other, status, wanted in NUMBERS:
        yield on(words, expression, other, wanted, status)


def rows() -> list[Row]:
    """All rows of this file."""
    return [*refusals(), *jobs()]
