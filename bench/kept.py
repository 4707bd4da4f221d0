"""The rows of bench/commands over journals: replays, renewals and serves.

What is wanted comes from docs/, and not from what the program puts."""

from __future__ import annotations

from collections.abc import Iterator
from dataclasses import dataclass

from rows import BOTH, PATIENTS, REPLAY, Row
from starts import journal

# The journal of the first version of `a - b` with the action `a`.
OF_A = b"\xA5IXJ1\x00\x05a - b\xA5\x00\x01a\x00"

# The same behind a start.
OF_A_BOOTED = b"\xA5IXJ1\x00\x05a - b\xA5\x00\x01a\xA5\x00\x06boot 1\x00"

# The same before that action.
BEFORE_A = b"\xA5IXJ1\x00\x05a - b\x7F\x00\x01a\x00"

# The same behind a start in which `a` was confirmed.
BOOTED_OF_A = b"\xA5IXJ1\x00\x05a - b\xA5\x00\x06boot 1\xA5\x00\x051-1 a\x00"

# The same behind a run in which `a` was confirmed, and that behind a second start.
NEW_OF_A = b"\xA5IXJ2\x00\x05a - b\xA5\x00\x06boot 1\xA5\x00\x051-1 a\x00"
NEW_OF_A_AGAIN = b"\xA5IXJ2\x00\x05a - b\xA5\x00\x06boot 1\xA5\x00\x051-1 a\xA5\x00\x06boot 2\x00"

# The same behind a run in which both were confirmed.
NEW_OF_BOTH = (b"\xA5IXJ2\x00\x05a - b\xA5\x00\x06boot 1\xA5\x00\x051-1 a"
               b"\xA5\x00\x051-2 b\x00")

# The journal of the first version with `a`, behind a start in which `b` was confirmed.
OF_A_AND_B = b"\xA5IXJ1\x00\x05a - b\xA5\x00\x01a\xA5\x00\x06boot 1\xA5\x00\x051-1 b\x00"

# One of a renewal that carries `a`, for 5 actions and 2 boots.
RENEWED = b"\xA5IXJ3\x00\x05a - b\xA5\x00\x01a\xA5\x00\x0Brenewed 5 2\x00"

# One of a renewal that carries nothing, for 2 actions and 1 boot.
RENEWED_NONE = b"\xA5IXJ3\x00\x05a - b\xA5\x00\x0Brenewed 2 1\x00"

# RENEWED behind a start in which `b` was confirmed, and behind one more.
RENEWED_AND_B = (b"\xA5IXJ3\x00\x05a - b\xA5\x00\x01a\xA5\x00\x0Brenewed 5 2"
                 b"\xA5\x00\x06boot 3\xA5\x00\x053-1 b\x00")
RENEWED_AND_B_AGAIN = (b"\xA5IXJ3\x00\x05a - b\xA5\x00\x01a\xA5\x00\x0Brenewed 5 2"
                       b"\xA5\x00\x06boot 3\xA5\x00\x053-1 b\xA5\x00\x06boot 4\x00")

# RENEWED_NONE behind a start in which `a` was confirmed.
RENEWED_NONE_AND_A = (b"\xA5IXJ3\x00\x05a - b\xA5\x00\x0Brenewed 2 1"
                      b"\xA5\x00\x06boot 2\xA5\x00\x052-1 a\x00")

# One that carries `a`, behind a start in which it was confirmed again.
RENEWED_AND_A = (b"\xA5IXJ3\x00\x05a - b\xA5\x00\x01a\xA5\x00\x0Brenewed 5 2"
                 b"\xA5\x00\x06boot 3\xA5\x00\x053-1 a\x00")

# Ones of the first version of `*(a - b)`, of which the second has a third action too many.
OF_ROUNDS = b"\xA5IXJ1\x00\x08*(a - b)\xA5\x00\x01a\xA5\x00\x01b\xA5\x00\x01a\x00"
OF_NO_ROUNDS = b"\xA5IXJ1\x00\x08*(a - b)\xA5\x00\x01a\xA5\x00\x01b\xA5\x00\x01b\x00"

# A case of `a` and `b` may begin again when it is at its end.
CASES = "all $p *(a($p) - b($p))"

# A journal of this with `a(1)`, `b(1)` and `a(2)`, what a renewal makes of it, and that behind a
# start.
OF_CASES = (b"\xA5IXJ2\x00\x17all $p *(a($p) - b($p))\xA5\x00\x06boot 1"
            b"\xA5\x00\x081-1 a(1)\xA5\x00\x081-2 b(1)\xA5\x00\x081-3 a(2)\x00")
RENEWED_CASES = (b"\xA5IXJ3\x00\x17all $p *(a($p) - b($p))"
                 b"\xA5\x00\x04a(2)\xA5\x00\x0Brenewed 3 1\x00")
RENEWED_CASES_BOOTED = (b"\xA5IXJ3\x00\x17all $p *(a($p) - b($p))"
                        b"\xA5\x00\x04a(2)\xA5\x00\x0Brenewed 3 1\xA5\x00\x06boot 2\x00")

# OF_CASES without `a(2)`.
OF_ENDED_CASES = (b"\xA5IXJ2\x00\x17all $p *(a($p) - b($p))\xA5\x00\x06boot 1"
                  b"\xA5\x00\x081-1 a(1)\xA5\x00\x081-2 b(1)\x00")
RENEWED_ENDED_CASES = b"\xA5IXJ3\x00\x17all $p *(a($p) - b($p))\xA5\x00\x0Brenewed 2 1\x00"

# A journal of the first version of `#(a - b)`, whose state grows with each `a`, and its renewal.
OF_BAG = b"\xA5IXJ1\x00\x08#(a - b)\xA5\x00\x01a\xA5\x00\x01a\x00"
RENEWED_BAG = b"\xA5IXJ3\x00\x08#(a - b)\xA5\x00\x01a\xA5\x00\x01a\xA5\x00\x0Brenewed 2 0\x00"

# OF_A renewed, and RENEWED_AND_B.
OF_A_RENEWED = b"\xA5IXJ3\x00\x05a - b\xA5\x00\x01a\xA5\x00\x0Brenewed 1 0\x00"
RENEWED_TWICE = b"\xA5IXJ3\x00\x05a - b\xA5\x00\x01a\xA5\x00\x01b\xA5\x00\x0Brenewed 6 3\x00"

# Ones that stand for the most actions and boots, and one that has an action more.
MOST = (b"\xA5IXJ3\x00\x05a - b"
        b"\xA5\x00\x2Frenewed 9223372036854775808 9223372036854775808\x00")
ONE_MORE = (b"\xA5IXJ3\x00\x05a - b\xA5\x00\x1Drenewed 9223372036854775808 0"
            b"\xA5\x00\x01a\x00")

FEW_NODES = "replay --nodes 2 expression journal actions"


def present(name: str, data: bytes) -> dict[str, bytes]:
    """The file of this name; it is absent where there is nothing in it."""
    return {name: data} if data else {}


def over(journal: bytes, script: str, status: int, wanted: str, then: bytes,
         expression: str = "a - b", words: str = REPLAY) -> Row:
    """A replay over this journal, and the journal behind it."""
    files = {"expression": expression.encode(), "actions": script.encode()}
    return Row(words, files | present("journal", journal), wanted, status, {"journal": then})


def journals() -> Iterator[Row]:
    """What a replay makes of its journal."""
    yield over(OF_A, "5 0 status\n5 0 log 1\n5 0 log 2", 0,
               "history 1\n0 status partial 1 nodes 3\n0 entry 1 a\n0 refused 42 no such entry\n",
               OF_A_BOOTED)
    yield over(BEFORE_A, "1 0 ask a 5\n2 0 confirm 1-1", 0,
               "history 0\n0 granted 1-1\n0 confirmed 1\n", BOOTED_OF_A)
    # What was never opened is made anew.
    yield over(b"\x5A", "", 0, "history 0\n", b"\xA5IXJ2\x00\x05a - b\xA5\x00\x06boot 1\x00")
    yield over(b"#!/bin/sh", "", 8, "refused journal foreign\n", b"#!/bin/sh")
    yield over(OF_A, "", 8, "refused journal other a - b\n", OF_A, "a - c")
    for wrong, wanted in (
            (b"\xA5IXJ1\x00\x05a - b\xA5\x00\x01a", "refused journal damaged 13\n"),
            (b"\xA5IXJ1\x00\x05a - b\xA5\x00\x01b\x00", "refused journal word 1\n")):
        yield over(wrong, "", 8, wanted, wrong)
    yield over(OF_A, "", 8, "refused journal large 1 2\n", OF_A, words=FEW_NODES)
    # A device is no file.
    yield over(b"", "", 5, "refused disk\n", b"", words="replay expression /dev/null actions")
    yield over(OF_ROUNDS, "1 0 status", 0, "history 3\n0 status partial 3 nodes 4\n",
               OF_ROUNDS[:-1] + b"\xA5\x00\x06boot 1\x00", "*(a - b)")
    yield over(OF_NO_ROUNDS, "", 8, "refused journal word 3\n", OF_NO_ROUNDS, "*(a - b)")
    yield over(b"", "1 0 ask a 5\n2 0 confirm 1-1\n3 0 ask b 5\n4 0 confirm 1-2", 0,
               "history 0\n0 granted 1-1\n0 confirmed 1\n0 granted 1-2\n0 confirmed 2\n",
               NEW_OF_BOTH)
    # A new journal has the canonical text.
    yield over(b"", "", 0, "history 0\n",
               b"\xA5IXJ2\x00\x5Dall $p *any $x (call($p,$x) - perform($p,$x))"
               b" @ all $x *any $p (call($p,$x) - perform($p,$x))\xA5\x00\x06boot 1\x00", BOTH)


def connections() -> Iterator[Row]:
    """Bytes of several connections, in pieces. A reservation outlives its connection, and an
    unfinished line doesn't."""
    yield over(b"",
               "10 0 ask a 5\\\n10 1 status\n10 1 may b\n10 1 ma\\\n11 0 0\n12 0 !\n"
               "60 1 y b\n60 1 confirm 1-1\n60 1 log 1\n60 0 may b", 0,
               "history 0\n1 status partial 0 nodes 2\n1 no\n0 granted 1-1\n1 no\n"
               "1 confirmed 1\n1 entry 1 a\n0 yes\n", NEW_OF_A)
    # On each connection a line that is too long, the front of one, its end, and a whole one.
    links = range(64)
    script = "".join(f"1 {link} {text}\n" for text in ("x" * 600, "x" * 300 + "\\", "!", "may a")
                     for link in links)
    replies = "".join(f"{link} {text}\n" for text in ("refused 10 line too long", "yes")
                      for link in links)
    yield over(b"", script, 0, f"history 0\n{replies}",
               b"\xA5IXJ2\x00\x05a - b\xA5\x00\x06boot 1\x00")


def outcomes() -> Iterator[Row]:
    """Outcomes outlive a run."""
    yield over(b"",
               "1 0 ask a 5\n2 0 outcome 1-1\n3 0 confirm 1-1\n4 0 outcome 1-1\n"
               "5 0 outcome 1-2\n6 0 outcome 2-1", 0,
               "history 0\n0 granted 1-1\n0 outcome open\n0 confirmed 1\n"
               "0 outcome confirmed 1\n0 refused 30 no such ticket\n"
               "0 refused 30 no such ticket\n", NEW_OF_A)
    yield over(NEW_OF_A, "1 0 outcome 1-1\n2 0 outcome 1-2\n3 0 ask b 9", 0,
               "history 1\n0 outcome confirmed 1\n0 outcome never\n0 granted 2-1\n", NEW_OF_A_AGAIN)
    yield over(OF_A, "1 0 ask b 9\n2 0 confirm 1-1\n3 0 log 1", 0,
               "history 1\n0 granted 1-1\n0 confirmed 2\n0 entry 1 a\n", OF_A_AND_B)


def renewed() -> Iterator[Row]:
    """Replays over journals of renewals go on with their counts."""
    yield over(RENEWED,
               "1 0 status\n1 0 log 0\n1 0 log 1\n1 0 log 5\n1 0 log 6\n2 0 outcome 2-9\n"
               "2 0 outcome 3-1\n3 0 ask b 9\n3 0 outcome 3-1\n4 0 confirm 3-1\n"
               "4 0 outcome 3-1\n4 0 log 6\n4 0 log 7\n4 0 status", 0,
               "history 5\n0 status partial 5 nodes 3\n0 refused 42 no such entry\n"
               "0 refused 33 left out\n0 refused 33 left out\n0 refused 42 no such entry\n"
               "0 refused 32 left out\n0 refused 30 no such ticket\n0 granted 3-1\n"
               "0 outcome open\n0 confirmed 6\n0 outcome confirmed 6\n0 entry 6 b\n"
               "0 refused 42 no such entry\n0 status complete 6 nodes 1\n", RENEWED_AND_B)
    yield over(RENEWED_AND_B,
               "1 0 outcome 3-1\n1 0 outcome 3-2\n1 0 outcome 2-1\n1 0 outcome 1-1\n"
               "1 0 outcome 0-1\n1 0 outcome 2-0\n1 0 outcome 4-1\n1 0 confirm 2-1", 0,
               "history 6\n0 outcome confirmed 6\n0 outcome never\n0 refused 32 left out\n"
               "0 refused 32 left out\n0 refused 30 no such ticket\n"
               "0 refused 30 no such ticket\n0 refused 30 no such ticket\n"
               "0 refused 30 no such ticket\n", RENEWED_AND_B_AGAIN)
    yield over(RENEWED_NONE,
               "1 0 ask b 9\n1 0 ask a 9\n2 0 confirm 1-1\n2 0 confirm 2-1\n2 0 log 2\n"
               "2 0 log 3", 0,
               "history 2\n0 refused 21 not permitted\n0 granted 2-1\n"
               "0 refused 30 no such ticket\n0 confirmed 3\n0 refused 33 left out\n"
               "0 entry 3 a\n", RENEWED_NONE_AND_A)
    yield over(RENEWED_CASES,
               "1 0 may a(1)\n1 0 may a(2)\n1 0 may b(2)\n1 0 outcome 1-3\n1 0 log 3", 0,
               "history 3\n0 yes\n0 no\n0 yes\n0 refused 32 left out\n0 refused 33 left out\n",
               RENEWED_CASES_BOOTED, CASES)
    yield over(RENEWED_AND_A, "", 8, "refused journal word 2\n", RENEWED_AND_A)
    yield over(RENEWED, "", 8, "refused journal large 1 2\n", RENEWED, words=FEW_NODES)


RENEW = "renew expression journal new"

# An expression, JOURNAL, NEW, the status of a renewal, what it puts, and NEW then.
RENEWALS = (
    ("a - b", OF_A, b"", 0, "renewed 1 0 carried 1\n", OF_A_RENEWED),
    (CASES, OF_CASES, b"", 0, "renewed 3 1 carried 1\n", RENEWED_CASES),
    (CASES, OF_ENDED_CASES, b"", 0, "renewed 2 1 carried 0\n", RENEWED_ENDED_CASES),
    ("#(a - b)", OF_BAG, b"", 0, "renewed 2 0 carried 2\n", RENEWED_BAG),
    ("a - b", RENEWED_AND_B, b"", 0, "renewed 6 3 carried 2\n", RENEWED_TWICE),
    ("a - b", MOST, b"", 0, "renewed 9223372036854775808 9223372036854775808 carried 0\n", MOST),
    ("a - b", ONE_MORE, b"", 8, "refused journal many\n", b""),
    ("a - b", OF_A, b"\x00", 8, "refused journal there\n", b"\x00"),
    ("a - b", OF_A, OF_A, 8, "refused journal there\n", OF_A),
    ("a - b", b"", b"", 8, "refused journal unopened\n", b""),
    ("a - b", b"\x00IXJ", b"", 8, "refused journal unopened\n", b""),
    ("a - b", b"\x7FIXJ1\x00\x05a - b\x00", b"", 8, "refused journal unopened\n", b""),
    ("a - b", b"#!/bin/sh", b"", 8, "refused journal foreign\n", b""),
    ("a - c", OF_A, b"", 8, "refused journal other a - b\n", b""),
    ("a - b", b"\xA5IXJ1\x00\x05a - b\xA5\x00\x01a", b"", 8, "refused journal damaged 13\n", b""),
    ("a - b", RENEWED_AND_A, b"", 8, "refused journal word 2\n", b""),
    ("a -", OF_A, b"", 3, "refused expression 4 at 3\n", b""),
)

# Words of renewals of OF_A that are cut short, the status, and what is put.
CUT_SHORT = (
    ("renew --nodes 2 expression journal new", 8, "refused journal large 1 2\n"),
    ("renew --nodes 1 expression journal new", 3, "refused expression 14 large 1\n"),
    ("renew expression x new", 4, "refused file journal\n"),
)


ROUNDS = "all $p *(call($p) - perform($p))"

EXAMINATIONS = "all $p *any $x (call($p,$x) - perform($p,$x))"

# An expression, a history, and the word that is carried for it.
CARRIED = (
    # Nothing is open.
    (ROUNDS, "", ""),
    (ROUNDS, "call(u) perform(u) call(v) perform(v)", ""),
    # Of a patient who is called the actions since then, of the others none.
    (ROUNDS, "call(u) perform(u) call(v) call(u) perform(v) call(w)", "call(u) call(w)"),
    (EXAMINATIONS, "call(p,x) perform(p,x) call(q,x) call(p,y) perform(q,x) call(q,z)",
     "call(p,y) call(q,z)"),
    # A fixed value has no entry.
    ("all $p *(check($p,desk) - ?give($p,desk) - ?give($p,desk))",
     "check(w,desk) give(w,desk) give(w,desk) check(u,desk) give(u,desk) check(v,desk)",
     "check(u,desk) give(u,desk) check(v,desk)"),
    # What was begun again has the tree of what was begun once.
    ("all $p *(check($p) - ?give($p) - ?give($p))", "check(u) give(u) check(u) give(u)",
     "check(u) give(u)"),
    # There are no values: the stretches between equal trees are cut out.
    ("boot - *(open - close)", "boot open close open", "boot open"),
    ("*(open - close)", "open close open close", ""),
    # What comes once is remembered.
    ("all $p ?once($p)", "once(u) once(v) once(w)", "once(u) once(v) once(w)"),
    ("all $c ?(order($c) - (cancel($c) | perform($c)))",
     "order(c) order(d) cancel(c) perform(d)", "order(c) order(d) cancel(c) perform(d)"),
    # Twelve patients are called, and two hundred times three of them examined and called again.
    (EXAMINATIONS,
     "call(a,x) call(b,x) call(c,x) call(d,x) call(e,x) call(f,x) call(g,y) call(h,y) call(i,y)"
     " call(j,y) call(k,y) call(l,y)" + " perform(a,x) perform(b,x) call(a,y) call(b,y)"
     " perform(a,y) perform(g,y) perform(b,y) call(b,x) call(a,x) call(g,y)" * 200,
     "call(c,x) call(d,x) call(e,x) call(f,x) call(h,y) call(i,y) call(j,y) call(k,y) call(l,y)"
     " call(b,x) call(a,x) call(g,y)"),
)


def carried() -> Iterator[Row]:
    """What a renewal carries of a history."""
    for expression, history, word in CARRIED:
        done, kept = history.split(), word.split()
        spent = [f"1-{number} {action}" for number, action in enumerate(done, 1)]
        old = journal("2", "boot 1", *spent, expression=expression)
        new = journal("3", *kept, f"renewed {len(done)} 1", expression=expression)
        yield Row(RENEW, {"expression": expression.encode(), "journal": old},
                  f"renewed {len(done)} 1 carried {len(kept)}\n", 0, {"journal": old, "new": new})


def renewals() -> Iterator[Row]:
    """What a renewal makes of a journal, which stays as it is."""
    for expression, old, new, status, wanted, then in RENEWALS:
        files = {"expression": expression.encode(), "journal": old} | present("new", new)
        yield Row(RENEW, files, wanted, status, {"journal": old, "new": then})
    for words, status, wanted in CUT_SHORT:
        files = {"expression": b"a - b", "journal": OF_A}
        yield Row(words, files, wanted, status, {"journal": OF_A, "new": b""})


def rows() -> list[Row]:
    """All rows of this file but the serves."""
    return [*journals(), *connections(), *outcomes(), *renewed(), *renewals(), *carried()]


@dataclass(frozen=True)
class Served:
    """A serve over this journal: the history that it puts, the requests of one connection after the
    other, each beside its reply, and the journal then, if it matters; its options; and the last line
    and the status of one that ends before a `stop`. Where no reply is given, the client doesn't wait
    for one."""

    expression: str
    journal: bytes
    history: int
    connections: tuple[tuple[tuple[str, str | None], ...], ...]
    then: bytes | None = None
    options: tuple[str, ...] = ()
    last: str = ""
    status: int = 0


# One connection after the other, because `ixm` serves one at a time. The leases are longer than in
# a replay, because a real clock goes on.
SERVES = (
    Served(PATIENTS, b"", 0, (
        (("ask call(p1,x1) 60000", "granted 1-1"), ("confirm 1-1", "confirmed 1"),
         ("status", "status partial 1 nodes 10")),
        (("ask call(p1,x2) 60000", "refused 21 not permitted"),
         ("ask call(p2,x1) 60000", "granted 1-2")))),
    Served(BOTH, b"", 0, (
        (("ask call(p1,x1) 60000", "granted 1-1"), ("confirm 1-1", "confirmed 1"),
         ("status", "status partial 1 nodes 21")),
        (("ask call(p2,x1) 60000", "refused 21 not permitted"),
         ("ask call(p2,x2) 60000", "granted 1-2")))),
    Served("a", b"", 0, ((("may a", "yes"),),), b"\xA5IXJ2\x00\x01a\xA5\x00\x06boot 1\x00"),
    Served("a - b", OF_A, 1, (
        (("status", "status partial 1 nodes 3"), ("log 1", "entry 1 a"),
         ("log 2", "refused 42 no such entry")),), OF_A_BOOTED),
    Served("a - b", BEFORE_A, 0, (
        (("ask a 60000", "granted 1-1"), ("confirm 1-1", "confirmed 1")),), BOOTED_OF_A),
    # Replies to a client that went away are lost, and what it asked for is done.
    Served("a - b", b"", 0, (
        (("ask a 60000", None), ("confirm 1-1", None)),
        (("status", "status partial 1 nodes 3"),)), NEW_OF_A),
    # Three pieces are three events.
    Served("a", b"", 0, ((("may a", "yes"), ("may a", "yes"), ("may b", "no")),), None,
           ("--turns=3",), "refused turns\n", 7),
    Served("#(a - b)", b"", 0, (
        (("ask a 60000", "granted 1-1"), ("confirm 1-1", "confirmed 1"),
         ("ask a 60000", "refused 22 large 6")),), None, ("--turns", "100", "--nodes", "6")),
)
