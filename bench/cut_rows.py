"""The rows of bench/commands whose runs are cut short, because standard output or a file takes no
more, or no socket can be made.

What is wanted comes from docs/operations.md and docs/journal.md, and not from what the program
puts."""

from __future__ import annotations

from collections.abc import Iterator
from dataclasses import replace

from kept import OF_A, OF_A_RENEWED, RENEW, over
from rows import REPLAY, TRACE, Row, on

# What a start makes of no journal of `a`, of `a - b` and of four steps.
OF_NONE = b"\xA5IXJ2\x00\x01a\xA5\x00\x06boot 1\x00"
NEW = b"\xA5IXJ2\x00\x05a - b\xA5\x00\x06boot 1\x00"
NEW_OF_FOUR = b"\xA5IXJ2\x00\x0Da - b - c - d\xA5\x00\x06boot 1\x00"

# A journal of a renewal before its records.
RENEWED_EMPTY = b"\xA5IXJ3\x00\x05a - b\x00"

THREE_MAY = "1 0 may a\n2 0 may a\n3 0 may a"
ASK_A = "100 0 ask a 50\n149 0 confirm 1-1"
GRANTED = "history 0\n0 granted 1-1\n"


def outputs() -> Iterator[Row]:
    """Standard output takes some bytes: what is put is a prefix, and the status is 10."""
    for put in ("", "yes", "yes\nyes\n"):
        yield replace(on(TRACE, "a - b", "a\nb", put, 10), room=len(put))
    # One put takes at most 4096 bytes, and the answers to 1024 actions.
    for count in (1024, 1100):
        row = on(TRACE, "*a", "a\n" * 1100, "yes\n" * count, 10)
        yield replace(row, room=len(row.wanted))
    for put in ("", "history 0\n", "history 0\n0 yes\n"):
        yield replace(over(b"", THREE_MAY, 10, put, OF_NONE, "a"), room=len(put))
    put = "refused journal other "
    yield replace(over(OF_A, "", 10, put, OF_A, "a - c"), room=len(put))
    files = {"expression": b"a - b", "journal": OF_A}
    then = {"journal": OF_A, "new": OF_A_RENEWED}
    yield Row(RENEW, files, "", 10, then, room=0)


def disks() -> Iterator[Row]:
    """No file grows beyond some bytes: a write of the journal fails, and the status is 5."""
    yield replace(over(b"", ASK_A, 5, "refused disk\n", b""), largest=0)
    for largest in (5, len(NEW) - 1):
        files = {"expression": b"a - b", "actions": ASK_A.encode()}
        yield Row(REPLAY, files, "refused disk\n", 5, largest=largest)
    refused = "0 refused 91 disk\nrefused disk\n"
    yield replace(over(b"", ASK_A, 5, GRANTED + refused, NEW), largest=len(NEW))
    # Standard output takes no more either.
    row = over(b"", ASK_A, 10, GRANTED, NEW_OF_FOUR, "a - b - c - d")
    yield replace(row, largest=len(NEW_OF_FOUR), room=len(GRANTED))
    for new in (b"", RENEWED_EMPTY):
        files = {"expression": b"a - b", "journal": OF_A}
        then = {"journal": OF_A, "new": new}
        yield Row(RENEW, files, "refused disk\n", 5, then, largest=len(new))


def wires() -> Iterator[Row]:
    """No socket can be made, behind the boot."""
    files = {"expression": b"a - b", "socket": b""}
    for name in ("none/socket", "socket", "s" * 108):
        yield Row(f"serve expression journal {name}", files, "refused wire\n", 6, {"journal": NEW})


def rows() -> list[Row]:
    """All rows of this file."""
    return [*outputs(), *disks(), *wires()]
