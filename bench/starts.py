"""The rows of bench/commands over files that a start may find: fronts of journals, damage, records
that may not stand where they do, and what a crash may leave.

What is wanted comes from docs/journal.md, and not from what the program puts."""

from __future__ import annotations

from collections.abc import Iterator

from rows import REPLAY, Row

OPEN, CLOSED = b"\xA5", b"\x00"

# Journals of `a - b`: without records, with a boot, with the actions `a` and `b`, with `a` behind a
# boot, and with a record of each kind. Each ends with the gate at 12, 21, 20, 29 or 33.
EMPTY = b"\xA5IXJ1\x00\x05a - b\x00"
BOOT = b"\xA5IXJ1\x00\x05a - b\xA5\x00\x06boot 1\x00"
BOTH = b"\xA5IXJ1\x00\x05a - b\xA5\x00\x01a\xA5\x00\x01b\x00"
ONE = b"\xA5IXJ1\x00\x05a - b\xA5\x00\x06boot 1\xA5\x00\x051-1 a\x00"
KINDS = b"\xA5IXJ2\x00\x05a - b\xA5\x00\x06boot 1\xA5\x00\x051-1 a\xA5\x00\x01b\x00"

# What a start makes of no journal before it appends the boot.
NEW = b"\xA5IXJ2\x00\x05a - b\x00"

# One that was never opened.
UNOPENED = b"\x7FIXJ1\x00\x05a - b\x00"

# One with `a` alone, and ones of a renewal that carries it, and nothing.
OF_A = b"\xA5IXJ1\x00\x05a - b\xA5\x00\x01a\x00"
RENEWED = b"\xA5IXJ3\x00\x05a - b\xA5\x00\x01a\xA5\x00\x0Brenewed 5 2\x00"
RENEWED_NONE = b"\xA5IXJ3\x00\x05a - b\xA5\x00\x0Brenewed 2 1\x00"

# The same with a boot behind it, and what a renewal leaves before its last step.
RENEWED_BOOT = b"\xA5IXJ3\x00\x05a - b\xA5\x00\x0Brenewed 2 1\xA5\x00\x06boot 2\x00"
RENEWED_FILLED = b"\xA5IXJ3\x00\x05a - b\x00\x00\x01a\xA5\x00\x0Brenewed 5 2\x00"


def booted(file: bytes, gate: int, boot: int) -> bytes:
    """The file behind a start that appends this boot at the gate. What is behind that stays."""
    record = b"boot " + str(boot).encode()
    put = OPEN + len(record).to_bytes(2, "big") + record + CLOSED
    return file[:gate] + put + file[gate + len(put):]


# What a start leaves of an absent or unfinished file.
BEGUN = booted(NEW, 12, 1)


def start(file: bytes, wanted: str, then: bytes | None = None, expression: str = "a - b") -> Row:
    """A replay of no script over this file, which stays if it is refused."""
    files = {"expression": expression.encode(), "actions": b""}
    if file:
        files["journal"] = file
    return Row(REPLAY, files, f"{wanted}\n", 0 if then is not None else 8,
               {"journal": file if then is None else then})


# Files that are opened: the history, the first closed gate, and the next boot.
OPENED = (
    (KINDS, 2, 33, 2),
    (BOTH, 2, 20, 1),
    (b"\xA5IXJ3\x00\x05a - b\xA5\x00\x11renewed 0 1000000\x00", 0, 32, 1_000_001),
    # What is behind a closed gate means nothing.
    (b"\xA5IXJ1\x00\x05a - b\x00\xA5", 0, 12, 1),
    (b"\xA5IXJ1\x00\x05a - b\xA5\x00\x01a\x00\xA5\x00\x01b", 1, 16, 1),
)

# Files that are begun again, because they were never finished or never opened.
UNFINISHED = (b"", b"\x00\x00\x00IXJ", b"\x00#!/bin/sh", UNOPENED)

# Files that are refused, and why.
REFUSED = (
    (b"\x7FIXJ1\x00\x05a - b\xA5", "foreign"),
    (b"\x7FIXJ1\x00\x05a - b\x00\x00", "foreign"),
    (b"\x7FIXJ1\x00\x05a - b", "foreign"),
    (b"\xA5IXJ4\x00\x05a - b\x00", "foreign"),
    (b"\xA5IXK2\x00\x05a - b\x00", "foreign"),
    (b"\xA5IXJ1\x05\x00a - b\x00", "foreign"),
    (b"\x7FIXJ1\x00\x05a - c\x00", "other a - c"),
    (b"\xA5IXJ1\x00\x00\x00", "other "),
    (b"\x7FIXJ1\x00\x00\x7F", "other "),
    # Another text is told before damage.
    (b"\xA5IXJ1\x00\x05a - c\xA5\x00\x01a", "other a - c"),
)


def kinds() -> Iterator[Row]:
    """Files of each kind."""
    for file, history, gate, boot in OPENED:
        yield start(file, f"history {history}", booted(file, gate, boot))
    for file in UNFINISHED:
        yield start(file, "history 0", BEGUN)
    for file, why in REFUSED:
        yield start(file, f"refused journal {why}")


def fronts() -> Iterator[Row]:
    """Each front of journals with records of each kind, by its length."""
    for file, places in ((OF_A, (13,)), (RENEWED, (13, 17)), (KINDS, (13, 22, 30))):
        for length in range(len(file)):
            front = file[:length]
            if length <= 1:
                yield start(front, "history 0", BEGUN)
            elif length <= 12:
                yield start(front, "refused journal foreign")
            else:
                # The last open gate in the front is the one before this place.
                place = max(place for place in places if place <= max(length, 13))
                yield start(front, f"refused journal damaged {place}")


# What is behind the front of a journal of `*a`, whose gate is at 9, and the place of damage.
AGAIN = b"\xA5IXJ1\x00\x02*a"
DAMAGED = (
    # No action's text, and none at all.
    (b"\xA5\x00\x01 \x00", 10),
    (b"\xA5\x00\x00\x00", 10),
    # A text that is cut, and a length with the lower byte first.
    (b"\xA5\x00\x03a(b\x00", 10),
    (b"\xA5\x01\x00a\x00", 10),
    # The second record has no further gate, or isn't there.
    (b"\xA5\x00\x01a\xA5\x00\x01a", 14),
    (b"\xA5\x00\x01a\xA5", 14),
    # Less than a record, and lengths of 207, 208 and 256 bytes.
    (b"\xA5\x00\x01", 10),
    (b"\xA5\x00\x01 ", 10),
    (b"\xA5\x00\xCF", 10),
    (b"\xA5\x00\xD0" + b"a" * 208 + CLOSED, 10),
    (b"\xA5\x01\x00" + b"a" * 256 + CLOSED, 10),
)


def journal(version: str, *records: str, expression: str = "*a") -> bytes:
    """A journal with these records."""
    file = OPEN + f"IXJ{version}".encode()
    for text in (expression, *records):
        file += len(text).to_bytes(2, "big") + text.encode() + OPEN
    return file[:-1] + CLOSED


MOST = "9223372036854775808"  # 2^63

# Boots, tickets and renewals of `*a`: the version, the records, the history, and the next boot.
IN_ORDER = (
    ("2", ("boot 1", "1-1 a"), 1, 2),
    ("1", ("a", "boot 1", "1-2 a"), 2, 2),
    ("2", ("boot 1", "1-7 a", "1-9 a"), 2, 2),
    ("2", ("boot 1", "boot 2", "2-1 a"), 1, 3),
    ("2", ("boot 1", "1-9 a", "boot 2", "a", "2-1 a"), 3, 3),
    ("2", ("boot 1", "1-18446744073709551615 a"), 1, 2),
    # Behind a renewal boots go on from those before it, whatever the magic is.
    ("3", ("renewed 5 2",), 5, 3),
    ("3", ("a", "renewed 5 2", "boot 3", "3-1 a"), 6, 4),
    ("2", ("a", "renewed 1 0", "boot 1"), 1, 2),
    ("1", ("a", "renewed 1 0"), 1, 1),
    ("3", (f"renewed {MOST} {MOST}", "boot 9223372036854775809", "9223372036854775809-1 a"),
     9223372036854775809, 9223372036854775810),
    # The most boots are those of the file.
    ("3", ("renewed 0 1000000", "boot 1000001"), 0, 1_000_002),
)

# The version, records of which the last may not stand there, and the place of damage.
OUT_OF_ORDER = (
    # A boot that isn't one more than those before it, and boot 0.
    ("2", ("boot 2",), 10),
    ("2", ("boot 0",), 10),
    ("2", ("boot 1", "boot 1"), 19),
    # A ticket of another boot, of boot 0, and with the number 0.
    ("2", ("boot 1", "2-1 a"), 19),
    ("2", ("0-1 a",), 10),
    ("2", ("boot 1", "1-0 a"), 19),
    # A number that isn't above the last one of its boot, and one above the most.
    ("2", ("boot 1", "1-2 a", "1-2 a"), 27),
    ("2", ("boot 1", "1-18446744073709551616 a"), 19),
    # Numbers with a leading zero or without a digit, and texts that are cut or go on.
    ("2", ("boot 01",), 10),
    ("2", ("boot ",), 10),
    ("2", ("boot 1", "1-1 "), 19),
    ("2", ("boot 1", "1-01 a"), 19),
    ("2", ("boot 1", "1-1 a b"), 19),
    # A renewal behind a boot, behind a ticket, behind another one, and with fewer actions than it
    # carries.
    ("3", ("boot 1", "renewed 0 0"), 19),
    ("3", ("boot 1", "1-1 a", "renewed 1 1"), 27),
    ("3", ("renewed 0 0", "renewed 0 0"), 24),
    ("3", ("a", "renewed 0 0"), 14),
    # One with a number above 2^63, with a leading zero, and with one number or three.
    ("3", ("renewed 9223372036854775809 0",), 10),
    ("3", ("renewed 0 9223372036854775809",), 10),
    ("3", ("renewed 01 0",), 10),
    ("3", ("renewed 1",), 10),
    ("3", ("renewed 1 0 0",), 10),
    # Behind one a boot of before, and a ticket of before without a boot and behind one.
    ("3", ("renewed 0 1", "boot 1"), 24),
    ("3", ("renewed 0 1", "1-1 a"), 24),
    ("3", ("renewed 0 1", "boot 2", "1-1 a"), 33),
)


def records() -> Iterator[Row]:
    """Records one behind another."""
    for behind, place in DAMAGED:
        yield start(AGAIN + behind, f"refused journal damaged {place}", expression="*a")
    for version, texts, history, boot in IN_ORDER:
        file = journal(version, *texts)
        yield start(file, f"history {history}", booted(file, len(file) - 1, boot), "*a")
    for version, texts, place in OUT_OF_ORDER:
        file = journal(version, *texts)
        yield start(file, f"refused journal damaged {place}", expression="*a")
    # `boot` and `renewed` without a number are actions.
    file = journal("2", "boot", "renewed", expression="boot - renewed")
    yield start(file, "history 2", booted(file, len(file) - 1, 1), "boot - renewed")
    yield from long_records()


def long_records() -> Iterator[Row]:
    """Longest and short records beside each other, of more bytes than are read at once."""
    value = "v" * 32
    longest = f"{'n' * 32}({value},{value},{value},{value})"
    expression = f"*(a | {longest})"
    whole = ("a", longest, "a") * 40
    spent = [text for boot in range(1, 31)
             for text in (f"boot {boot}", f"{boot}-18446744073709551615 {longest}")]
    for texts, history, boot in ((whole, 120, 1), (spent, 30, 31)):
        file = journal("2", *texts, expression=expression)
        yield start(file, f"history {history}", booted(file, len(file) - 1, boot), expression)
        # The last open gate, behind which the file is cut then, is before the length, the text
        # and the closed gate.
        gate = len(file) - len(texts[-1]) - 4
        yield start(file[:gate + 3], f"refused journal damaged {gate + 1}", expression=expression)
    # A ticket of another boot, far behind.
    file = journal("2", *spent, "31-1 a", expression=expression)
    yield start(file, f"refused journal damaged {len(file) - 9}", expression=expression)
    # A record of 7 bytes and 1,022 of 4, so that the gate behind them is byte 4,096 of those that
    # are read behind the header; and 3 more.
    for count in (1022, 1025):
        file = journal("2", "a(1)", *["a"] * count, expression="a(1) - *a")
        yield start(file, f"history {count + 1}", booted(file, len(file) - 1, 1), "a(1) - *a")
    # Damage behind a million actions, and behind one less.
    most = AGAIN + b"\xA5\x00\x01a" * 1_000_000
    yield start(most + OPEN, "refused journal damaged 4000010", expression="*a")
    yield start(most[:-1] + b"-\x00", "refused journal damaged 4000006", expression="*a")


# The bytes that are put in place of those that a crash may change, and for a gate: A5, what differs
# from it in one bit, and some more.
BYTES = (0x00, 0x01, 0x49, 0xA5, 0xFF)
GATES = (0xA5, *(0xA5 ^ 1 << bit for bit in range(8)), 0x00, 0x5A, 0x49, 0xFF)


def torn(file: bytes, record: bytes) -> Iterator[bytes]:
    """The file with what a crash may leave of a record that is written behind its last gate, which
    is closed: any bytes, of any length."""
    for byte in BYTES:
        yield file + bytes([byte]) * len(record)
    for length in range(len(record)):
        yield file + record[:length]
        yield file + OPEN * length
        yield file + record[:1] + OPEN * length


def crashed_appends() -> Iterator[Row]:
    """What a crash leaves of an append before its gate was synced: the history is the one before
    it, and the next boot takes its place."""
    action, boot = b"\x00\x051-1 a\x00", b"\x00\x06boot 1\x00"
    for file, record, history, number in (
            (EMPTY, boot, 0, 1), (BOOT, action, 0, 2), (RENEWED_NONE, boot, 2, 2),
            (RENEWED_BOOT, b"\x00\x052-1 a\x00", 2, 3)):
        for image in torn(file, record):
            yield start(image, f"history {history}", booted(image, len(file) - 1, number))
    # The gates of a boot, of an action, and the one that a renewal opens last: where it is, where
    # the next one is, and what there is without the gate and with it.
    for whole, gate, last, histories, boots in (
            (BOOT, 12, 21, (0, 0), (1, 2)), (ONE, 21, 29, (0, 1), (2, 2)),
            (RENEWED_FILLED, 12, 30, (0, 5), (1, 3))):
        for byte in GATES:
            is_open = byte == 0xA5
            image = whole[:gate] + bytes([byte]) + whole[gate + 1:]
            yield start(image, f"history {histories[is_open]}",
                        booted(image, last if is_open else gate, boots[is_open]))


def crashed_starts() -> Iterator[Row]:
    """What a crash leaves of a start on no journal, or of a renewal: it is begun again, unless the
    head gate is open, because then the header is whole."""
    for byte in BYTES:
        yield start(bytes([byte]), "history 0", BEGUN)
    for head in (b"\x00IXJ1", b"\x00IXJ2", b"\x00IXJ3"):
        header = head + b"\x00\x05a - b\x00"
        for length in range(2, len(header) + 1):
            yield start(header[:length], "history 0", BEGUN)
            yield start(CLOSED + OPEN * (length - 1), "history 0", BEGUN)
    for byte in GATES:
        for version in (b"1", b"2", b"3"):
            image = bytes([byte]) + b"IXJ" + version + b"\x00\x05a - b\x00"
            yield start(image, "history 0", booted(image, 12, 1) if byte == 0xA5 else BEGUN)
    for image in torn(EMPTY.replace(b"IXJ1", b"IXJ3"), b"\x00\x01a\xA5\x00\x0Brenewed 5 2\x00"):
        yield start(image, "history 0", booted(image, 12, 1))


def rows() -> list[Row]:
    """All rows of this file."""
    return [*kinds(), *fronts(), *records(), *crashed_appends(), *crashed_starts()]
