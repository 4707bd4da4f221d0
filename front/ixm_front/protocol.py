"""The few words and replies of docs/protocol.md that the front must tell apart. A ticket is a word like any other."""

LINE_LIMIT = 512

# What the front answers by itself.
TOO_LONG = b"refused 10 line too long\n"
NO_SUCH_WORD = b"refused 11 word\n"
BAD_NUMBER = b"refused 13 number\n"
LONG_LEASE = b"refused 14 lease\n"
WRONG_WORDS = b"refused 15 words\n"
NOT_PERMITTED = b"refused 21 not permitted\n"
NO_SUCH_TICKET = b"refused 30 no such ticket\n"
ENTRY_LEFT_OUT = b"refused 33 left out\n"
WATCHES_FULL = b"refused 40 watches full\n"
NO_SUCH_WATCH = b"refused 41 no such watch\n"
NOTHING_CHANGED = b"changes 0\n"
YES = b"yes\n"
NO = b"no\n"

# The lines that may be sent a second time where the first one's reply was lost: they confirm nothing, give up nothing,
# and end nothing.
REPEATABLE = frozenset((b"ask", b"may", b"watch", b"drop", b"poll", b"status", b"log", b"outcome"))

# The requests that use up a ticket.
SPENDING = frozenset((b"confirm", b"cancel"))

# The lines of a client that is gone which are still handled: they give back, or tell that something has happened.
KEPT = SPENDING | {b"drop"}

# The requests of the manager, and with the front's own those that are told by their own name in the metrics.
REQUESTS = REPEATABLE | SPENDING | {b"stop"}
KNOWN = REQUESTS | {b"front"}

# The requests that name an action, and their place for it.
ACTION_AT = {b"ask": 1, b"may": 1, b"watch": 2, b"drop": 2}

FAULT = b"refused 1"  # the codes 10 to 16, of a line that is no request
BUSY = b"refused 20 "
GRANTED = b"granted "
CONFIRMED = b"confirmed "
CANCELLED = b"cancelled "
ENTRY = b"entry "

LONGEST = 86400000  # milliseconds of a lease and of a wait
MOST_ASKS = 100000  # in a second, which is no limit: no front takes as many


def word(text: bytes, place: int) -> bytes:
    """The word at this place of a line, 0 being the first; no bytes where there is none."""
    words = text.split(b" ", place + 1)
    return words[place].rstrip(b"\n") if place < len(words) else b""


def number(text: bytes) -> int | None:
    """The decimal number without leading zeros that the text is, up to 18446744073709551615."""
    if not text.isdigit() or len(text) > 20 or (text[:1] == b"0" and text != b"0"):
        return None
    value = int(text)
    return value if value < 2**64 else None


def busy_until(reply: bytes) -> int:
    """The deadline that a reply 20 names, in milliseconds since 1970."""
    return number(reply[:-1].rpartition(b" ")[2]) or 0


def busy(until: float) -> bytes:
    """A reply 20 that names this moment, in seconds since 1970."""
    return b"refused 20 busy until %d\n" % int(until * 1000)


def kind_of(reply: bytes) -> bytes:
    """What a reply is called in the metrics: the code of a refusal, else its first word."""
    first, _, rest = reply.partition(b" ")
    return rest.partition(b" ")[0] if first == b"refused" else first.rstrip(b"\n")
