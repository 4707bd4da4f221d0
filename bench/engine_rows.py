"""The rows of bench/commands on expressions that show what the engine and the author's commands do.

What is wanted was worked out by hand, and not from what the program puts."""

from __future__ import annotations

import shlex
from collections.abc import Iterator

from rows import BOTH, PATIENTS, Row, on

# Expressions, the number of values, and what a bound puts.
BOUNDS = (
    ("?times 2 a", 3, "unbounded 54 node 1\n54 node 1 at 1\n"),
    ("(a | b) - (c + c)", 3, "unbounded 51 node 4\n51 node 4 at 13\n"),
    ("all $p (a(x,$p) | a(y,$p))", 3, "bound 14\n"),
    ("all $p a($p)", 499_999, "bound 1000000\n"),
    ("?all $p a($p)", 499_999, "above 1000000\n"),
    ("all $p any $a any $b any $c any $d any $e any $f any $g h($p)", 0, "bound 2\n"),
)


def bounds() -> Iterator[Row]:
    """What a bound puts."""
    for expression, count, wanted in BOUNDS:
        yield on(f"bound expression {count}", expression, "", wanted)


# What looks wrong, and the nearest texts that look right.
FINDINGS = (
    # Of equally many numbers the first counts.
    ("a(x) - a(x,y)", "at 7: counts a 2 1 at 0\n"),
    ("a(x) - a(x,y) - a(y,x)", "at 0: counts a 1 2 at 7\n"),
    ("a(x) - b(x,y)", ""),
    # A value without an action would have to complete its part.
    ("all $p ?a($p)", "at 0: keeps\n"),
    ("all $p *a($p)", ""),
    ("every $p a($p)", "at 0: never\n"),
    ("every $p (a($p) | b)", ""),
    # The uppermost part alone is told.
    ("times 2 every $p a($p)", "at 0: never\n"),
    ("*every $p a($p)", "at 1: never\n"),
    # Two values share no action.
    ("all $p *any $x a($p,$x)", ""),
    ("all $p *(a($p,u) | a($p,w))", ""),
    ("all $p *(a($p,u) | a(w,$p))", "at 0: owners 9 19\n"),
    ("all $p *(a($p,u) | a(u,$p))", ""),
    # No atom names the parameter, or one does by its value.
    ("any $pp a", "at 0: unused $pp\n"),
    ("any $p a(p)", "at 0: unused $p\nat 7: value p\n"),
    ("any $p (a($p,x) - a(p,$p))", "at 18: value p\n"),
    ("(any $p a($p,x)) - a(p,x)", ""),
    # One side of `&` knows an action that the other doesn't.
    ("(a - bb) & a", "at 9: apart bb 0\n"),
    ("(a - b(x)) & (a - b)", "at 11: apart b 1\nat 18: counts b 0 1 at 5\n"),
    ("(a - b) & (b - a)", ""),
    # What is finished can begin again.
    ("sync $p ?(a($p) | b)", ""),
    ("sync $p *a($p)", ""),
)


def lints() -> Iterator[Row]:
    """What a lint puts."""
    for expression, wanted in FINDINGS:
        yield on("lint expression", expression, "", wanted)


# An expression, an action that came, one that is asked for, and the parts that refuse it.
REASONS = (
    (BOTH, "call(anna,xray)", "fly(anna)",
     "at 48: all $p *any $x (call($p,$x) - perform($p,$x))"
     " @ all $x *any $p (call($p,$x) - perform($p,$x))\n"),
    ("(a - b) & (a - c)", "a", "b", "at 13: a - c\n"),
    ("sync $p ?(a($p) - b($p))", "a(u)", "b(w)", "at 16 $p=w: a($p) - b($p)\n"),
)


def reasons() -> Iterator[Row]:
    """What a why puts."""
    for expression, before, action, wanted in REASONS:
        yield on(f"why expression actions '{action}'", expression, before, wanted)


# An expression, an action that came, the values that are given, and the menu.
MENUS = (
    # Without a given value those of the history are neither given nor new.
    (BOTH, "call(anna,xray)", "q=ben", "call($1,$1)\ncall($1,$2)\npartial\n"),
    # A value counts once, at its first place, and an action at the first atom that makes it.
    ("a - (b(v) | any $p b($p))", "a", "w v w p=v", "b(v)\nb(w)\nb($1)\npartial\n"),
    # Two places of one parameter have the same.
    ("a - any $p (b($p,u,$p))", "a", "q=w", "b(u,u,u)\nb($1,u,$1)\npartial\n"),
    ("a", "a", "v", "complete\n"),
)

NO_VALUES = ("", "=v", "p=v=w", "p v", "$1")


def menus() -> Iterator[Row]:
    """What a next puts."""
    for expression, before, values, wanted in MENUS:
        yield on(f"next expression actions {values}", expression, before, wanted)
    for value in NO_VALUES:
        words = f"next expression actions {shlex.quote(value)}"
        yield on(words, "a", "", "refused words\n", 2)


# An expression, given values, the most nodes and the most states, and the answer. A parameter that
# gets no value makes no move of its atom.
SEARCHES = (
    ("*(a - b)", "u", 1000, 2, "never stuck 2\n"),
    ("?(a - b)", "u", 1000, 3, "never stuck 3\n"),
    # Without a move of `c` what `b` begins stays open.
    ("a - ?(b - any $p c($p))", "q=u", 1000, 9, """stuck after 2
a
b
never again at 0: a
never again at 6: b
never again at 17: c($p)
"""),
    ("a - ?(b - c)", "u", 1000, 9, "never stuck 4\n"),
    ("any $p a($p)", "q=u", 1000, 9, "stuck after 0\nnever again at 7: a($p)\n"),
    ("?any $p a($p)", "q=u", 1000, 9, "never stuck 1\n"),
    # An atom with one parameter twice matches no action of two values.
    ("any $p a($p,$p) | any $q any $r a($q,$r) - any $s b($s)", "q=u\nr=w", 1000, 9,
     "stuck after 0\nnever again at 7: a($p,$p)\nnever again at 50: b($s)\n"),
    ("any $p a($p,$p) | any $q any $r a($q,$r) - any $s b($s)", "q=u\nr=u", 1000, 9,
     "never stuck 2\n"),
    # `b` comes again, and leads nowhere.
    ("a - b - any $p d($p) | c", "q=u", 1000, 9, """stuck after 1
a
never again at 0: a
never again at 15: d($p)
never again at 23: c
"""),
    # Of two words that are stuck the shorter one is told, though it begins with the later move.
    ("a - ?(b - any $p d($p)) | c - any $p d($p)", "q=u", 1000, 9, """stuck after 1
c
never again at 0: a
never again at 6: b
never again at 17: d($p)
never again at 26: c
never again at 37: d($p)
"""),
    # Nobody is called, or anna, or ben: new values make no moves.
    (BOTH, "p=anna\nx=xray\np=ben", 1000, 9, "never stuck 3\n"),
    # A new run may always begin.
    ("#(a - b)", "u", 1000, 3, "more than 3 states\n"),
    ("#(a - b)", "u", 7, 9, "large\n"),
    # The first tree is too large.
    (PATIENTS, "q=u", 1, 9, "large\n"),
)


# Each patient is operated on by two nurses, and each nurse is at one patient at a time.
THEATRE = """all $p ?(consent($p) - check($p) - times 2 any $n scrub($n,$p)
- operate($p) - times 2 any $n leave($n,$p))
@ all $n *any $p (scrub($n,$p) - leave($n,$p))"""

PATIENTS_AND_NURSES = "p=p1\np=p2\np=p3\nn=n1\nn=n2\nn=n3"

# Each patient has one nurse of three, and waits for a second, unless there is one nurse more.
NURSES = (
    (THEATRE, PATIENTS_AND_NURSES, 1000, 1258, """stuck after 9
consent(p1)
consent(p2)
consent(p3)
check(p1)
check(p2)
check(p3)
scrub(n1,p1)
scrub(n2,p2)
scrub(n3,p3)
never again at 9: consent($p)
never again at 23: check($p)
never again at 50: scrub($n,$p)
never again at 65: operate($p)
never again at 94: leave($n,$p)
never again at 126: scrub($n,$p)
never again at 141: leave($n,$p)
"""),
    (THEATRE, f"{PATIENTS_AND_NURSES}\nn=n4", 1000, 3520, "never stuck 3520\n"),
)


def searches() -> Iterator[Row]:
    """What a stuck puts."""
    for expression, values, nodes, states, wanted in (*SEARCHES, *NURSES):
        words = f"stuck --nodes {nodes} --states {states} expression actions"
        yield on(words, expression, values, wanted)


ROUNDS = "all $p *(a($p) - b($p))"

NESTED = "any $p ((a - b($p)) + #(a - c))"

ENTRIES = """any $p (b(u,v,w,x) @ (c | d - (b($p,v,w,x) | b(u,$p,w,x)
| b(u,v,$p,x) | b(u,v,w,$p))))"""

TWO_OF_THREE = "times 2 (times 3 a)"

# An expression, a limit, and the actions that are asked for. Then what comes of it: the answers,
# the Size of the tree, and whether the confirmed actions are complete.
ANSWERS = (
    # A called patient is busy.
    (PATIENTS, 100, "call(p1,x1)", "y", 10, "partial"),
    ("a @ b", 3, "b b", "yn", 3, "partial"),
    ("*(a - b)", 4, "b a a b a", "nynyy", 4, "partial"),
    ("*(a - b)", 3, "a", "l", 1, "complete"),
    # Another patient than the called one isn't busy.
    (PATIENTS, 100, "call(p1,x1) call(p1,x2) call(p2,x1)", "yny", 18, "partial"),
    # A coupling waits for neither side.
    ("a @ b", 3, "c a a b a", "nynyn", 1, "complete"),
    # Two runs that are over would make 4 nodes.
    ("times 3 a", 3, "a a", "yl", 3, "partial"),
    # The node is 1 and its one bag 1, and a begun run 3.
    ("#(a - b)", 100, "", "", 2, "complete"),
    ("#(a - b)", 5, "a", "y", 5, "partial"),
    # Two pairs, each 1 with a begun sequence of 3 and another of 2.
    ("(a - b) + (a - c)", 13, "a", "y", 13, "partial"),
    # The common tree alone, and Dead beside an entry.
    ("any $p (a - b($p))", 100, "a", "y", 4, "partial"),
    ("any $p (a - b($p) - c)", 100, "a b(u)", "yy", 6, "partial"),
    # As deep as an expression may be: 255 nodes of a sequence above its first atom, and behind `a`
    # 254 above a begun one of 3.
    ("a-" * 255 + "a", 256, "a", "l", 256, "partial"),
    ("a-" * 255 + "a", 257, "a", "y", 257, "partial"),
    ("a|" * 255 + "a", 511, "", "", 511, "partial"),
    # Before: the quantifier 1, the list of pairs 1, one pair 1, `a - b` 1 + 1, the runs 1 + 1.
    # After: two pairs, with `a - b` begun of 3 beside no run, and with no `a - b` beside one run
    # of 3.
    (NESTED, 7, "a", "l", 7, "partial"),
    (NESTED, 15, "a", "l", 7, "partial"),
    (NESTED, 16, "a", "y", 16, "partial"),
    # After `c` the coupling has Start beside Done. After both its common tree is Done, and for
    # each of the four values it is Dead: so the whole is Done, though on the way the entries are
    # 8 nodes.
    (ENTRIES, 7, "c b(u,v,w,x) b(u,v,w,x)", "yyn", 1, "complete"),
    # A value in a round is 5: its entry 1, the iteration 1, `a - b` 1 + 1 + 1. One whose round is
    # over is as it was at the start, and has no entry.
    (ROUNDS, 8, "a(u) b(u) a(v) b(v)", "yyyy", 2, "complete"),
    (ROUNDS, 4, "a(u)", "l", 2, "complete"),
    # A run of `a - b` that has begun is 3, and one that is over is left out.
    ("#(a - b)", 8, "a a b a", "yyyy", 8, "partial"),
    # A run after one `a` is 1 + (1 + 1 + 2) + 1, and one after two is 1 + 1 + 1. After `a`, `a`,
    # `b` either one run is over, or one of two, and the other has had one `a`.
    ("#(a - ?a - b)", 100, "a a", "yy", 18, "partial"),
    ("#(a - ?a - b)", 100, "a a b", "yyy", 9, "complete"),
    ("#*(a - b)", 100, "a b a", "yyy", 12, "partial"),
    # The node is 1, its one bag 1, a run that has begun 3, and one that is over, which stays, 1.
    ("times 2 (a - b)", 8, "a", "y", 5, "partial"),
    ("times 2 (a - b)", 8, "a a a", "yyn", 8, "partial"),
    ("times 2 (a - b)", 8, "a a a b", "yyny", 6, "partial"),
    ("times 2 (a - b)", 8, "a a a b b", "yynyy", 1, "complete"),
    # The sixth `a` ends it.
    (TWO_OF_THREE, 100, "a a a a a a a", "yyyyyyn", 1, "complete"),
    # No run is needed.
    ("times 2 ?a", 100, "", "", 2, "complete"),
    # No value ever differs from the others.
    ("sync $p *(a | b($p))", 100, "b(u) b(v) a", "yyy", 2, "complete"),
    # `b(u)` ends it for every value.
    ("every $p (b(u) | b($p))", 100, "b(u) b(v)", "yn", 1, "complete"),
    # One pass is over, and one has begun.
    ("*(a @ b)", 100, "a b b", "yyy", 4, "partial"),
)

# Each value begins once, and each action is one of any value.
EACH_ONCE = "every $p ((s($p) - r) @ *(any $q s($q)))"

SOME_ONCE = "any $p ((s($p) - r) @ *(any $q s($q)))"

# Values enough for several pieces of a list of entries.
MANY = 70

# A quantifier, the actions of each value, one action more, its answer, and the Size of the tree. In
# each some value isn't at its end.
MANY_ENTRIES = (
    # The node is 1, the common tree 1 + 1, and each entry 1 with a begun `s - r` of 3.
    ("sync $p (s($p) - r)", "s", "s(v35)", "n", 283),
    # Each value is as at the start, so that no entry is left, and then one begins. The node is 1,
    # the common tree 1, and the entry 1 with an iteration of 1 + 3.
    ("sync $p *(s($p) - r($p))", "sr", "s(v35)", "y", 7),
    # The node is 1, its map 1, and each of 69 entries 1 with a round of 1 + 3.
    ("all $p *(s($p) - r($p))", "s", "r(v35)", "y", 347),
    # A coupling is 1, an iteration whose runs are over 1, `s - r` 2 and a begun one 3.
    (EACH_ONCE, "s", "s(v35)", "n", 425),
    # The value is dead then, and its entry 2.
    (SOME_ONCE, "s", "s(v35)", "y", 421),
)

# Expressions whose first tree is above the limit.
ABOVE = ((PATIENTS, 1), (NESTED, 6))


def asked(expression: str, limit: int, actions: list[str], answers: str, end: str,
          size: int) -> Row:
    """A replay that asks for the actions, and confirms each that is granted: `y`. Another isn't
    permitted, `n`, or leads to a tree that is too large, `l`. Before that it asks whether the
    action is permitted, and by a watch whether it is allowed."""
    script, wanted, count = "", "history 0\n", 0
    for action, answer in zip(actions, answers, strict=True):
        script += f"1 0 may {action}\n1 0 watch w {action}\n1 0 ask {action} 60000\n"
        wanted += {"y": "0 yes\n0 watching yes\n", "n": "0 no\n0 watching no\n",
                   "l": "0 yes\n0 watching no\n"}[answer]
        if answer == "y":
            count += 1
            script += f"1 0 confirm 1-{count}\n"
            wanted += f"0 granted 1-{count}\n0 confirmed {count}\n"
        else:
            refused = {"n": "21 not permitted", "l": f"22 large {limit}"}[answer]
            wanted += f"0 refused {refused}\n"
    words = f"replay --nodes {limit} expression journal actions"
    wanted += f"0 status {end} {count} nodes {size}\n"
    return on(words, expression, script + "1 0 status\n", wanted)


def replays() -> Iterator[Row]:
    """What a replay puts."""
    for expression, limit, actions, answers, size, end in ANSWERS:
        yield asked(expression, limit, actions.split(), answers, end, size)
    for expression, names, last, answer, size in MANY_ENTRIES:
        # In no order of the values.
        of_values = [f"{name}(v{place * 37 % MANY})" for name in names for place in range(MANY)]
        answers = "y" * len(of_values) + answer
        yield asked(expression, 1_000_000, [*of_values, last], answers, "partial", size)
    for expression, limit in ABOVE:
        words = f"replay --nodes {limit} expression journal actions"
        yield on(words, expression, "", f"refused expression 14 large {limit}\n", 3)


def rows() -> list[Row]:
    """All rows of this file."""
    return [*bounds(), *lints(), *reasons(), *menus(), *searches(), *replays()]
