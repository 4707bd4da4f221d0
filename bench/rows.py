"""The rows of bench/commands whose runs begin without a journal.

What is wanted comes from docs/, and not from what the program puts."""

from __future__ import annotations

from collections.abc import Iterator
from dataclasses import dataclass, field


@dataclass(frozen=True)
class Row:
    """A run in a new folder: its words, the files that are there before it, what it puts, and its
    status. Behind it each file of `then` has these bytes; an absent one counts as empty. Where
    `begins` is so, more may follow of what is put, up to the end of a line. Standard output takes
    `room` bytes, and no file grows beyond `largest`, if these are given."""

    words: str
    files: dict[str, bytes]
    wanted: str
    status: int = 0
    then: dict[str, bytes] = field(default_factory=dict)
    begins: bool = False
    room: int | None = None
    largest: int | None = None


def on(words: str, expression: str, actions: str, wanted: str, status: int = 0) -> Row:
    """A run over two files; `actions` may have a script, lines or values too."""
    files = {"expression": expression.encode(), "actions": actions.encode()}
    return Row(words, files, wanted, status)


PATIENTS = "all $p *(any $x (call($p,$x) - perform($p,$x)))"

# Each patient has one examination at a time, and each examination one patient.
BOTH = f"{PATIENTS} @ all $x *(any $p (call($p,$x) - perform($p,$x)))"

# The same in three lines.
HOSPITAL = """all $p *(any $x (call($p,$x) - perform($p,$x)))
@
all $x *(any $p (call($p,$x) - perform($p,$x)))"""

TRACE = "trace expression actions"


def refusals() -> Iterator[Row]:
    """Why a run ends before it has its answer."""
    yield on("trace x actions", "a - b", "a\nb", "refused file expression\n", 4)
    yield on("trace expression x", "a - b", "a\nb", "refused file actions\n", 4)


TEXTS = (
    ("a - b | c", "a\nb\n", "yes\nyes\ncomplete\n"),
    ("(a - b) | c", "c", "yes\ncomplete\n"),
    ("a - b", "", "partial\n"),
    (" a\n-b ", "b\na\na\nb\n", "no\nyes\nno\nyes\ncomplete\n"),
    ("a(x)", "a\na(y)\na(x)\n", "no\nno\nyes\ncomplete\n"),
    ("a", "any", "no\npartial\n"),
)

OPERATORS = (
    ("(a - b) @ (b - c)", "b\na\nb\nc", "no\nyes\nyes\nyes\ncomplete\n"),
    ("*(?a - ?b)", "b\na\nb\nb", "yes\nyes\nyes\nyes\ncomplete\n"),
    ("(a - b) + (a - c)", "a\nc\na\nb", "yes\nyes\nyes\nyes\ncomplete\n"),
    ("#(a - b)", "a\na\nb\nb\nb", "yes\nyes\nyes\nyes\nno\ncomplete\n"),
    ("(a - b) & (a - ?b)", "b\na\nb", "no\nyes\nyes\ncomplete\n"),
    ("(a | b) - c", "a\nb\nc", "yes\nno\nyes\ncomplete\n"),
    ("a & b", "a\nb", "no\nno\npartial\n"),
    ("?(a - b)", "", "complete\n"),
    ("times 2 (a - b)", "a\na\na\nb\nb", "yes\nyes\nno\nyes\nyes\ncomplete\n"),
    ("times 2 a", "a", "yes\npartial\n"),
    ("times 2 ?a", "", "complete\n"),
)

QUANTIFIERS = (
    ("any $p any $q (a($p,$q) - b($q,$p))", "a(u,u)\nb(u,u)", "yes\nyes\ncomplete\n"),
    ("any $p (a - b($p))", "a\nb(u)\nb(v)", "yes\nyes\nno\ncomplete\n"),
    ("every $p *(a | b($p))", "a\nb(u)", "yes\nno\ncomplete\n"),
    ("sync $p *(s($p) - e($p))", "s(u)\ns(v)\ns(u)\ne(u)", "yes\nyes\nno\nyes\npartial\n"),
    ("all $p ?a($p)", "", "complete\n"),
    ("all $p a($p)", "", "partial\n"),
    ("all $p a($p)", "a(u)", "yes\npartial\n"),
    ("all $p (a($p,v) | a(u,$p))", "a(u,v)\na(u,v)\na(u,v)", "yes\nyes\nno\npartial\n"),
)

# Trees above the limit are large.
LIMITED = (
    ("3", "a - b | c", "9", 3, "refused expression 14 large 3\n"),
    ("3", "a + b", "a", 3, "refused expression 14 large 3\n"),
    ("4", "*(a - b)", "a\nb\na", 0, "yes\nyes\nyes\npartial\n"),
    ("3", "*(a - b)", "a", 0, "large\ncomplete\n"),
    ("13", "(a - b) + (a - c)", "a", 0, "yes\npartial\n"),
    ("12", "(a - b) + (a - c)", "a", 0, "large\npartial\n"),
    ("8", "#(a - b)", "a\na\na\nb", 0, "yes\nyes\nlarge\nyes\npartial\n"),
    ("5", "any $p (a - b($p))", "a\nb(u)", 0, "yes\nyes\ncomplete\n"),
    ("1000000", "a", "b\na", 0, "no\nyes\ncomplete\n"),
    ("1", "times 2 a", "", 3, "refused expression 14 large 1\n"),
    ("8", "#(a - b)", "a\na\nb\na", 0, "yes\nyes\nyes\nyes\npartial\n"),
    ("4", "all $p *(a($p) - b($p))", "a(u)", 0, "large\ncomplete\n"),
    ("8", "all $p *(a($p) - b($p))", "a(u)\nb(u)\na(v)\nb(v)", 0, "yes\nyes\nyes\nyes\ncomplete\n"),
)


def traces() -> Iterator[Row]:
    """What a trace puts."""
    for expression, actions, wanted in (*TEXTS, *OPERATORS, *QUANTIFIERS):
        yield on(TRACE, expression, actions, wanted)
    for limit, expression, actions, status, wanted in LIMITED:
        yield on(f"trace --nodes {limit} expression actions", expression, actions, wanted, status)
    # Longer than one put, which takes at most 4096 bytes.
    yield on(TRACE, "*a", "a\n" * 1100, "yes\n" * 1100 + "complete\n")


# A number, one that is too great, each reason for none with its place in the text, several nodes in
# pre-order, and a text with a fault.
BOUNDS = (
    (BOTH, "0", 0, "bound 5\n"),
    (BOTH, "2", 0, "bound 61\n"),
    (BOTH, "50", 0, "bound 20605\n"),
    (BOTH, "1000", 0, "above 1000000\n"),
    ("a - a", "3", 0, "unbounded 51 node 0\n51 node 0 at 2\n"),
    ("*(a - b | b)", "3", 0, "unbounded 52 node 0\n52 node 0 at 0\n"),
    ("all $p (a($p,x) | a(x,$p))", "3", 0, "unbounded 53 node 0\n53 node 0 at 0\n"),
    ("?#a", "3", 0, "unbounded 54 node 1\n54 node 1 at 1\n"),
    ("(a - times 2 a) @\n (#b + *(b - #b))", "3", 0, """unbounded 51 node 1
51 node 1 at 3
54 node 3 at 5
51 node 5 at 23
54 node 6 at 20
52 node 8 at 25
51 node 9 at 29
54 node 11 at 31
"""),
    ("a | - b", "3", 3, "refused expression 3 at 4\n"),
)


def bounds() -> Iterator[Row]:
    """What a bound puts."""
    for expression, count, status, wanted in BOUNDS:
        yield on(f"bound expression {count}", expression, "", wanted, status)


# Each kind of finding with its places in the text, several of one text, none, and a text with a
# fault.
FINDINGS = (
    (" a(x) -\n a(x,y)", 0, "at 9: counts a 2 1 at 1\n"),
    ("b | every $p a($p)", 0, "at 4: never\n"),
    ("b - (every $p a($p))", 0, "at 2: never\n"),
    ("all $p *any $x (a($p,$x) | a($x,$p))", 0, "at 0: owners 16 27\n"),
    ("any $pp a(pp)", 0, "at 0: unused $pp\nat 8: value pp\n"),
    ("(a - bb(x)) & a", 0, "at 12: apart bb 1\n"),
    ("all $p a($p)", 0, "at 0: never\nat 0: keeps\n"),
    ("*(sync $p ?a($p))", 0, ""),
    ("sync $p ?a($p)", 0, "at 0: keeps\n"),
    ("*(a - b)", 0, ""),
    ("a | - b", 3, "refused expression 3 at 4\n"),
    ("any $p a($q)", 3, "refused expression 5 at 7\n"),
)


def lints() -> Iterator[Row]:
    """What a lint puts."""
    for expression, status, wanted in FINDINGS:
        yield on("lint expression", expression, "", wanted, status)


# Values for every parameter and for one alone, given twice, fixed, and none; a complete history.
MENUS = (
    (HOSPITAL, "call(anna,xray)", "anna xray", """call(xray,anna)
call(xray,$1)
call($1,anna)
call($1,$1)
call($1,$2)
perform(anna,xray)
partial
"""),
    (HOSPITAL, "call(anna,xray)\n", "p=anna x=xray",
     "call($1,$1)\ncall($1,$2)\nperform(anna,xray)\npartial\n"),
    ("any $p (a($p,w) | b($p,v,$p))", "", "u u", """a(u,w)
a(v,w)
a(w,w)
a($1,w)
b(u,v,u)
b(v,v,v)
b(w,v,w)
b($1,v,$1)
partial
"""),
    ("*(a - b)", "a\nb\n", "u v", "a\ncomplete\n"),
    ("a - b", "a\nb\n", "u v", "complete\n"),
    ("any $p a($p) | a(u)", "", "q=v p=v", "a(v)\na(u)\na($1)\npartial\n"),
)

# A value that is none, before a text that is none, and an action that isn't allowed.
REFUSED_MENUS = (
    ("a |", "", "p=", 2, "refused words\n"),
    ("a |", "", "1=u", 2, "refused words\n"),
    ("a |", "", "p=u", 3, "refused expression 4 at 3\n"),
    ("a", "b", "u", 11, "refused history 62 at 1\n"),
)


def menus() -> Iterator[Row]:
    """What a next puts."""
    for expression, actions, values, wanted in MENUS:
        yield on(f"next expression actions {values}", expression, actions, wanted)
    for expression, actions, value, status, wanted in REFUSED_MENUS:
        yield on(f"next expression actions {value}", expression, actions, wanted, status)


# One part or two, the `@` itself, an action that may come, and an `all` of two maps.
REASONS = (
    (HOSPITAL, "call(anna,xray)", "call(ben,xray)",
     "at 57 $x=xray: *any $p (call($p,$x) - perform($p,$x))\n"),
    (HOSPITAL, "call(anna,xray)", "call(anna,ct)",
     "at 7 $p=anna: *any $x (call($p,$x) - perform($p,$x))\n"),
    (HOSPITAL, "call(anna,xray)", "perform(ben,ct)",
     "at 7 $p=ben: *any $x (call($p,$x) - perform($p,$x))\n"
     "at 57 $x=ct: *any $p (call($p,$x) - perform($p,$x))\n"),
    ("a @ b", "", "c", "at 2: a @ b\n"),
    (HOSPITAL, "call(anna,xray)\n", "perform(anna,xray)", "permitted\n"),
    ("all $p any $q (a($p,$q) - b($p) | a($q,$p) - c($p))", "a(u,v)\n", "b(v)",
     "at 0: all $p any $q (a($p,$q) - b($p) | a($q,$p) - c($p))\n"),
    ("every $p ?a($p)", "", "a(b)", "at 10 $p=*: a($p)\n"),
)

# Words come before the text, the initial tree before the actions, and these before the history.
REFUSED_REASONS = (
    ("a |", "A!", "a b", "1", 2, "refused words\n"),
    ("a |", "A!", "a", "1", 3, "refused expression 4 at 3\n"),
    ("a - b", "a b", "a", "1", 3, "refused expression 14 large 1\n"),
    ("a - b", "a\na b", "a", "9", 3, "refused actions 5 at 3\n"),
    ("a - b", "a\na", "a", "9", 11, "refused history 62 at 2\n"),
    ("#(a - b)", "a\na\na\na\na", "a", "6", 11, "refused history 64 at 2\n"),
)


def reasons() -> Iterator[Row]:
    """What a why puts."""
    for expression, actions, action, wanted in REASONS:
        yield on(f"why expression actions '{action}'", expression, actions, wanted)
    for expression, actions, action, nodes, status, wanted in REFUSED_REASONS:
        words = f"why --nodes {nodes} expression actions '{action}'"
        yield on(words, expression, actions, wanted, status)


# Stuck at once and behind an action, never stuck, and each limit.
SEARCHES = (
    ("(a - b) & (a - c)", "9", "9", "stuck after 0\nnever again at 5: b\nnever again at 15: c\n"),
    ("?(a - b) & ?(a - c)", "9", "9", """stuck after 1
a
never again at 2: a
never again at 6: b
never again at 13: a
never again at 17: c
"""),
    ("*(a - b)", "9", "9", "never stuck 2\n"),
    ("*(a - b)", "9", "1", "more than 1 states\n"),
    ("*(a - b)", "1", "9", "large\n"),
)

# Each fault of a file of given values, and too many moves.
REFUSED_VALUES = (
    ("a |", "", "refused expression 4 at 3\n"),
    ("a", "", "refused values 75 at 0\n"),
    ("a", "u\n\n", "refused values 72 at 2\n"),
    ("a", "u\np=u\np=u", "refused values 73 at 6\n"),
    ("a", "".join(f"{number:02x}\n" for number in range(64)) + "p=40\n",
     "refused values 74 at 192\n"),
    ("a", "p=u=v", "refused values 72 at 0\n"),
    ("any $p any $q any $r any $s (a($p,$q,$r,$s) | b($p,$q,$r,$s))",
     "a\nb\nc\nd\ne\nf\ng\nh\ni\nj\nk\nl\nm\nn\no\np\n", "refused candidates\n"),
)


def searches() -> Iterator[Row]:
    """What a stuck puts."""
    for expression, nodes, states, wanted in SEARCHES:
        words = f"stuck --nodes {nodes} --states {states} expression actions"
        yield on(words, expression, "u\nv", wanted)
    for expression, values, wanted in REFUSED_VALUES:
        yield on("stuck expression actions", expression, values, wanted, 3)


# Each law, one behind another, some that don't apply, and a text with a fault.
SIMPLIFIED = (
    ("**?a", 0, "*a\n"),
    ("??*a - ?#b", 0, "*a - #b\n"),
    ("*#a + ##b", 0, "#a + #b\n"),
    ("#*?a - #*?a", 0, "#a - #a\n"),
    ("any $p (b @ b)", 0, "b\n"),
    ("every $p a(p) | sync $p a(p)", 0, "a(p)\n"),
    ("(??a | ?a) & ?(a & a)", 0, "?a\n"),
    ("any $p ??a($p) | b", 0, "any $p ?a($p) | b\n"),
    ("all $p (a($p) | a($p))", 0, "all $p a($p)\n"),
    ("a - a | a", 0, "a - a | a\n"),
    ("(a + a) | (a @ b)", 0, "a + a | a @ b\n"),
    ("times 3 ??a | times 3 *?b", 0, "times 3 ?a | times 3 *b\n"),
    ("times 2 ?a & times 2 ??a | times 3 ?a", 0, "times 2 ?a | times 3 ?a\n"),
    ("a | - b", 3, "refused expression 3 at 4\n"),
)


def simplifies() -> Iterator[Row]:
    """What a simplify puts."""
    for expression, status, wanted in SIMPLIFIED:
        yield on("simplify expression", expression, "", wanted, status)


FOLLOW = "follow expression actions"

# The lines of the rows, a last line that isn't ended, a tree above the limit, and a lost file.
FOLLOWED = (
    (FOLLOW, "a - b",
     "entry 2 b\nentry 1 a\nentry 1 a\nyes\nrefused 33 left out\nrefused 32 left out\nentry 2 b", 0,
     "early 2\ntaken 1\nold 1\nother\nleft out\nother\ntaken 2\ncomplete\n"),
    (FOLLOW, "a - b", "entry 0 b\nentry 1\nentry 1 a(\nentry 1 a \nentry 01 a\nENTRY 1 a", 0,
     "other\n" * 6 + "partial\n"),
    (FOLLOW, "a - b", "entry 1 a\nentry 1 b\n", 11, "taken 1\nrefused follow 61 at 1\n"),
    (FOLLOW, "a - b", "entry 1 b\n", 11, "refused follow 62 at 1\n"),
    (FOLLOW, "a - b", "", 0, "partial\n"),
    ("follow --nodes 6 expression actions", "#(a - b)", "entry 1 a\nentry 2 a\n", 11,
     "taken 1\nrefused follow 64 at 2\n"),
    ("follow --nodes 3 expression actions", "*(a - b)", "entry 1 a", 11,
     "refused follow 64 at 1\n"),
    ("follow expression x", "a - b", "", 4, "refused file lines\n"),
)


def follows() -> Iterator[Row]:
    """What a follow puts."""
    for words, expression, lines, status, wanted in FOLLOWED:
        yield on(words, expression, lines, wanted, status)
    # A byte more than a file of lines may have.
    yield on(FOLLOW, "a", "x" * (67_108_864 + 1), "refused lines 7 at 67108864\n", 3)


# The numbers behind the second row were computed by a script that follows PCG's reference code, XSH
# RR with the stream 1, and holds of each patient and each examination whether it is called.
WORKS = (
    ("work 0 7", 0, "asked 0 granted 0 refused 0 nodes 5\n"),
    ("work 1 7", 0, "asked 1 granted 1 refused 0 nodes 21\n"),
    ("work 16 7", 0, "asked 16 granted 9 refused 7 nodes 85\n"),
    ("work 100 18446744073709551615", 0, "asked 100 granted 46 refused 54 nodes 101\n"),
    ("work 500 0", 0, "asked 500 granted 197 refused 303 nodes 149\n"),
    ("work 0 7 --nodes 4", 3, "refused expression 14 large 4\n"),
    ("work 20000 7", 0, "asked 20000 granted 7755 refused 12245 nodes 149\n"),
    ("work 200000 7", 0, "asked 200000 granted 77212 refused 122788 nodes 165\n"),
)


def works() -> Iterator[Row]:
    """What a work puts."""
    for words, status, wanted in WORKS:
        yield Row(words, {}, wanted, status)


REPLAY = "replay expression journal actions"

# Expressions, scripts, and what a replay puts.
REQUESTS = (
    (PATIENTS,
     "10 0 ask call(p1,x1) 1000\n20 0 confirm 1-1\n25 0 status\n30 1 ask call(p1,x2) 1000\n"
     "40 1 ask call(p2,x1) 1000",
     "history 0\n0 granted 1-1\n0 confirmed 1\n0 status partial 1 nodes 10\n"
     "1 refused 21 not permitted\n1 granted 1-2\n"),
    (BOTH,
     "10 0 ask call(p1,x1) 1000\n20 0 confirm 1-1\n25 0 status\n30 1 ask call(p2,x1) 1000\n"
     "40 1 ask call(p2,x2) 1000",
     "history 0\n0 granted 1-1\n0 confirmed 1\n0 status partial 1 nodes 21\n"
     "1 refused 21 not permitted\n1 granted 1-2\n"),
    ("a - b",
     "100 0 ask a 50\n149 0 confirm 1-1",
     "history 0\n0 granted 1-1\n0 confirmed 1\n"),
    ("a - b",
     "100 0 ask a 50\n150 0 confirm 1-1\n150 0 confirm 1-1\n150 0 confirm 1-2",
     "history 0\n0 granted 1-1\n0 refused 31 expired\n0 refused 31 expired\n"
     "0 refused 30 no such ticket\n"),
    ("a - b",
     "200 0 status\n100 0 ask a 10\n50 1 ask a 10\n210 0 confirm 1-1\n210 1 ask a 10\n"
     "210 0 confirm 1-1",
     "history 0\n0 status partial 0 nodes 2\n0 granted 1-1\n1 refused 20 busy until 210\n"
     "0 refused 31 expired\n1 granted 1-2\n0 refused 30 no such ticket\n"),
    ("a - b",
     "10 0 ask \\\n11 1 may\\\n12 0 a 1000\n13 1  b",
     "history 0\n0 granted 1-1\n1 no\n"),
    (BOTH,
     "1 0 watch w call(p1,x1)\n1 0 watch w call(p1,x1)\n2 0 ask call(p1,x1) 9\n"
     "3 0 confirm 1-1\n4 1 poll w\n5 1 poll w\n6 1 drop w call(p1,x1)\n"
     "7 1 drop w call(p1,x1)\n8 1 poll w",
     "history 0\n0 watching yes\n0 watching yes\n0 granted 1-1\n0 confirmed 1\n1 changes 1\n"
     "1 no call(p1,x1)\n1 changes 0\n1 dropped\n1 refused 41 no such watch\n"
     "1 changes 0\n"),
    ("a",
     "1 0 ask a 5\n1 1 cancel 1-1\n1 0 confirm 1-1\n1 0 stop\n2 0 status",
     "history 0\n0 granted 1-1\n1 cancelled 1-1\n0 refused 30 no such ticket\n0 stopping\n"),
    ("a",
     "1 0 ask a 0\n1 0 ask  a 5\n1 0 confirm 01\n1 0 ask a( 5\n1 0 poll 9z\n1 0 ",
     "history 0\n0 refused 14 lease\n0 refused 15 words\n0 refused 13 number\n"
     "0 refused 12 action\n0 refused 16 name\n0 refused 11 word\n"),
    ("a",
     "18446744073709551615 0 ask a 1000\n18446744073709551615 0 confirm 1-1",
     "history 0\n0 granted 1-1\n0 refused 31 expired\n"),
    ("a", "", "history 0\n"),
)

REPLAYS = (
    ("replay --nodes 8 expression journal actions", "#(a - b)",
     "1 0 ask a 5\n1 0 confirm 1-1\n1 0 ask a 5\n1 0 confirm 1-2\n1 0 ask a 5\n1 0 status", 0,
     "history 0\n0 granted 1-1\n0 confirmed 1\n0 granted 1-2\n0 confirmed 2\n"
     "0 refused 22 large 8\n0 status partial 2 nodes 8\n"),
    ("replay --nodes 1 expression journal actions", "a - b", "", 3,
     "refused expression 14 large 1\n"),
    ("replay --turns 1 expression journal actions", "a", "1 0 status\n2 0 status", 7,
     "history 0\n0 status partial 0 nodes 1\nrefused turns\n"),
    ("replay --nodes 8 --turns 3 expression journal actions", "a", "1 0 status\n2 0 may a", 0,
     "history 0\n0 status partial 0 nodes 1\n0 yes\n"),
    ("replay expression journal x", "a", "", 4, "refused file script\n"),
    (REPLAY, "a - b", "1 0 ask a 5\n1 0 confirm 1-1\n1 0 ask b 5\n1 0 confirm 1-2\n1 0 status", 0,
     "history 0\n0 granted 1-1\n0 confirmed 1\n0 granted 1-2\n0 confirmed 2\n"
     "0 status complete 2 nodes 1\n"),
)

# What has a fault is not replayed.
REFUSED_SCRIPTS = (
    ("a", "1\t0 bad", "refused script 31 at 0\n"),
    ("a", "1 64 may a", "refused script 32 at 0\n"),
    ("a", "1 0 may a\n1 0 \\", "refused script 33 at 10\n"),
    ("a -", "1 64 may a", "refused expression 4 at 3\n"),
)


def replays() -> Iterator[Row]:
    """What a replay puts that begins without a journal."""
    for expression, script, wanted in REQUESTS:
        yield on(REPLAY, expression, script, wanted)
    for words, expression, script, status, wanted in REPLAYS:
        yield on(words, expression, script, wanted, status)
    for expression, script, wanted in REFUSED_SCRIPTS:
        yield on(REPLAY, expression, script, wanted, 3)
    long = "x" * 512
    yield on(REPLAY, "a - b", f"1 0 {long}\n1 0 x{long}\n1 0 may a\n",
             "history 0\n0 refused 11 word\n0 refused 10 line too long\n0 yes\n")
    watches = "".join(f"1 0 watch w{number} a\n" for number in (*range(4097), 0))
    taken = "history 0\n" + "0 watching yes\n" * 4096
    yield on(REPLAY, "a", watches, taken + "0 refused 40 watches full\n0 watching yes\n")
    yield hospital_day()


def hospital_day() -> Row:
    """All asks of a day are granted. In each group of ten patients and each of its ten rounds all
    are called, and then all examined."""
    script, wanted = "", "history 0\n"
    for number in range(800):
        place = number % 10
        patient, examination = number // 200 * 10 + place, (place + number % 200 // 20) % 10
        verb = "call" if number % 20 < 10 else "perform"
        link, ticket = patient % 6, number + 1
        script += f"1 {link} ask {verb}(p{patient},x{examination}) 60000\n"
        script += f"1 {link} confirm 1-{ticket}\n"
        wanted += f"{link} granted 1-{ticket}\n{link} confirmed {ticket}\n"
    return on(REPLAY, BOTH, script + "1 0 status\n", wanted + "0 status complete 800 nodes 5\n")


def rows() -> list[Row]:
    """All rows of this file."""
    return [*refusals(), *traces(), *bounds(), *lints(), *menus(), *reasons(), *searches(),
            *simplifies(), *follows(), *works(), *replays()]
