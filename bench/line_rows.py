"""The rows of bench/commands on lines: requests in any pieces, their numbers and tickets, what is
watched and reserved, and scripts.

What is wanted comes from docs/protocol.md, and not from what the program puts."""

from __future__ import annotations

from collections.abc import Iterator

from kept import MOST, over
from rows import REPLAY, Row, on

GREATEST = 2 ** 64 - 1

# The texts of refusals.
WHY = {10: "line too long", 11: "word", 12: "action", 13: "number", 14: "lease", 15: "words",
       16: "name", 30: "no such ticket", 31: "expired", 41: "no such watch", 42: "no such entry"}


def refused(code: int) -> str:
    """The line of this refusal."""
    return f"refused {code} {WHY[code]}"


# An expression and a conversation: the moment, the connection and the text of each line, and what
# is replied.
Told = tuple[str, tuple[tuple[str, str], ...]]

# Each request.
EACH: Told = ("*(a | a(x) | call(p1,x1))", (
    ("1 0 ask call(p1,x1) 1", "granted 1-1"),
    ("1 0 outcome 1-1", "outcome open"),
    ("1 0 confirm 0-0", refused(30)),
    (f"1 0 cancel {GREATEST}-{GREATEST}", refused(30)),
    ("1 0 outcome 7-1", refused(30)),
    ("1 0 may a", "yes"),
    ("1 0 watch W a(x)", "watching yes"),
    ("1 0 drop W a", refused(41)),
    ("1 0 poll W", "changes 0"),
    ("1 0 status", "status complete 0 nodes 1"),
    ("1 0 log 1", refused(42)),
    ("1 0 log 0", refused(42)),
    (f"1 0 log {GREATEST}", refused(42)),
    ("2 0 ask a 86400000", "granted 1-2"),
    ("2 63 ask a 1", "refused 20 busy until 86400002"),
    ("2 0 cancel 1-2", "cancelled 1-2"),
    ("2 0 outcome 1-2", "outcome never"),
    ("2 0 stop", "stopping"),
))

# Of each change the one name hears, and the other, once, in the order in which they were watched.
WATCHED: Told = ("*(a - b)", (
    ("1 0 watch first a", "watching yes"),
    ("1 0 watch second a", "watching yes"),
    ("1 0 watch first b", "watching no"),
    ("1 0 ask a 9", "granted 1-1"),
    ("1 0 confirm 1-1", "confirmed 1"),
    ("1 1 poll first", "changes 2\n1 no a\n1 yes b"),
    ("1 1 poll first", "changes 0"),
    ("1 1 poll second", "changes 1\n1 no a"),
    ("1 1 drop first a", "dropped"),
    ("1 1 drop first a", refused(41)),
    ("1 1 drop second b", refused(41)),
    ("1 1 ask b 9", "granted 1-2"),
    ("1 1 confirm 1-2", "confirmed 2"),
    ("1 1 poll first", "changes 1\n1 no b"),
    ("1 1 poll second", "changes 1\n1 yes a"),
))

# A reservation before its deadline, at it and behind it; other tickets.
RESERVED: Told = ("a - b", (
    ("1000 0 ask a 500", "granted 1-1"),
    ("1000 1 ask a 5", "refused 20 busy until 1500"),
    ("1499 0 outcome 1-1", "outcome open"),
    ("1499 0 confirm 1-2", refused(30)),
    ("1499 0 confirm 2-1", refused(30)),
    ("1499 0 cancel 0-1", refused(30)),
    ("1500 0 outcome 1-1", "outcome never"),
    ("1500 0 confirm 1-1", refused(31)),
    ("1501 0 cancel 1-1", refused(31)),
))

# The latest deadline.
LATE: Told = ("a - b", (
    ("0 0 ask a 86400000", "granted 1-1"),
    ("0 1 ask a 1", "refused 20 busy until 86400000"),
    (f"{GREATEST - 1} 0 ask a 86400000", "granted 1-2"),
    (f"{GREATEST - 1} 1 ask a 1", f"refused 20 busy until {GREATEST}"),
    (f"{GREATEST - 1} 0 confirm 1-2", "confirmed 1"),
))

# Lines that are no request.
FAULTY = (
    ("", 11), (" ", 11), (" status", 11), ("asks a( 0 1", 11), ("outcomes 1-7", 11),
    ("status ", 15), ("confirm  1-7", 15), ("outcome", 15), ("ask a( 0 1", 15), ("log 1 ", 15),
    ("ask a() 1", 12), ("ask a( 0", 12),
    ("poll ", 16), ("watch 1 a(", 16),
    ("log ", 13), ("log 01", 13), ("log +1", 13), (f"log {GREATEST + 1}", 13), ("log \u00ff", 13),
    ("ask a x", 13), ("ask a 0", 14), ("ask a 86400001", 14),
)

# What is a ticket, and what is none.
TICKETS = ("1-1", "0-0", "20-300", f"{GREATEST}-{GREATEST}")
NO_TICKETS = (f"{GREATEST + 1}-1", f"1-{GREATEST + 1}", "01-1", "1-01", "1-", "-1", "1", "",
              "1-1-1", "1-7-7", "1-+1")


def told(of: Told) -> Row:
    """A replay of this conversation."""
    expression, lines = of
    script = "".join(f"{line}\n" for line, _ in lines)
    wanted = "".join(f"{line.split()[1]} {reply}\n" for line, reply in lines)
    return on(REPLAY, expression, script, f"history 0\n{wanted}")


def requests() -> Iterator[Row]:
    """Requests, each with its reply."""
    for conversation in (EACH, WATCHED, RESERVED, LATE):
        yield told(conversation)
    yield told(("a", tuple((f"1 0 {line}", refused(code)) for line, code in FAULTY)))
    yield told(("a", tuple((f"1 0 confirm {text}", refused(30)) for text in TICKETS)))
    yield told(("a", tuple((f"1 0 confirm {text}", refused(13)) for text in NO_TICKETS)))
    # Great numbers are written, of tickets, boots and histories.
    boot, count = 2 ** 63 + 1, 2 ** 63 + 1
    behind = (f"boot {boot}".encode(), f"{boot}-1 a".encode())
    journal = MOST[:-1] + b"".join(b"\xA5" + len(text).to_bytes(2, "big") + text for text in behind)
    yield over(MOST, f"1 0 ask a 9\n1 0 confirm {boot}-1\n1 0 log {count}", 0,
               f"history {count - 1}\n0 granted {boot}-1\n0 confirmed {count}\n"
               f"0 entry {count} a\n", journal + b"\x00")


def long_lines(length: int) -> Row:
    """A line of this length in one piece, cut at three places and byte by byte, and behind each a
    line of one byte."""
    line, reply = "a" * length, refused(10 if length > 512 else 11)
    script = f"1 0 {line}\n1 0 b\n"
    for place in (1, 256, length - 1):
        script += f"1 0 {line[:place]}\\\n1 0 {line[place:]}\n1 0 b\n"
    script += "1 0 a\\\n" * length + "1 0 \n1 0 b\n"
    return on(REPLAY, "a", script, "history 0\n" + f"0 {reply}\n0 {refused(11)}\n" * 5)


# Scripts and the replies. An unfinished line is dropped when its connection is closed.
SCRIPTS = (
    ("", ""),
    ("1 0 may a", "0 yes\n"),
    ("1 0 may a\n", "0 yes\n"),
    ("1 0 \n", f"0 {refused(11)}\n"),
    ("1 0 \\\\", ""),
    ("1 0 m\\\n1 0 ay\\\n1 0  \\\n1 0 a", "0 yes\n"),
    ("1 0 ab\\\n2 0 !\n3 0 may a", "0 yes\n"),
    ("1 0 ab\\\n3 0 may a", f"0 {refused(11)}\n"),
    ("1 1 ma\\\n2 0 !\n3 1 y a", "1 yes\n"),
    ("9 63 !\n3 63 may a", "63 yes\n"),
    ("1 63  may a", f"63 {refused(11)}\n"),
    ("1 2 !!", f"2 {refused(11)}\n"),
    (f"{GREATEST} 0 may a", "0 yes\n"),
)

# A script, and the code and the place of its first fault.
FAULTS_OF_SCRIPTS = (
    ("\n", 31, 0),
    ("1 0 may a\n\n", 31, 10),
    ("x 0 a", 31, 0),
    (" 0 a", 31, 0),
    ("01 0 a", 31, 0),
    ("+1 0 a", 31, 0),
    ("\u00ff 0 a", 31, 0),
    (f"{GREATEST + 1} 0 a", 31, 0),
    ("1 0", 32, 0),
    ("1 00 a", 32, 0),
    ("1  a", 32, 0),
    ("1  63 a", 32, 0),
    ("1 63", 32, 0),
    ("1 063 a", 32, 0),
    ("1 0 \\", 33, 0),
    ("1 0 may a\n1 0 \\\nx", 33, 10),
)

# How many events are taken, and what comes of a script. A line of 5,001 bytes comes as two.
LONG_AND_MAY = f"1 0 {'x' * 5000}\n2 0 may a\n"
TURNS = (
    (2, LONG_AND_MAY, f"0 {refused(10)}\nrefused turns\n", 7),
    (5, LONG_AND_MAY, f"0 {refused(10)}\n0 yes\n", 0),
    (2, "1 0 may a\n2 0 !\n3 0 may a", "0 yes\nrefused turns\n", 7),
)


def scripts() -> Iterator[Row]:
    """Scripts, good and bad."""
    for length in (511, 512, 513, 600):
        yield long_lines(length)
    for script, wanted in SCRIPTS:
        yield on(REPLAY, "a", script, f"history 0\n{wanted}")
    for script, code, at in FAULTS_OF_SCRIPTS:
        yield on(REPLAY, "a", script, f"refused script {code} at {at}\n", 3)
    for turns, script, wanted, status in TURNS:
        words = f"replay --turns {turns} expression journal actions"
        yield on(words, "a", script, f"history 0\n{wanted}", status)


def rows() -> list[Row]:
    """All rows of this file."""
    return [*requests(), *scripts()]
