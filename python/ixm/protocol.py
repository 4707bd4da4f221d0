"""Requests and replies of docs/protocol.md, read exactly: a reply is one of these forms as a whole,
or none of them."""

import re

MOST = 2**64 - 1  # the largest number that a line may have
LONGEST_REPLY = 255  # bytes of a reply's line, without its end
MOST_CHANGES = 4096  # lines of a poll: so many watches there may be


class Form:
    """The replies of one form, in which N is a number and T a ticket."""

    def __init__(self, text: str) -> None:
        places = {"N": "([0-9]+)", "T": "([0-9]+-[0-9]+)"}
        self.pattern = re.compile(" ".join(places.get(word, word) for word in text.split(" ")))

    def read(self, line: str | None) -> str | None:
        """The number or the ticket of a line of this form, as it stands there; None for any other
        line."""
        found = self.pattern.fullmatch(line or "")
        if found is None or not all(is_number(it) for it in found.group(1).split("-")):
            return None
        return found.group(1)


def is_number(word: str) -> bool:
    """Whether the word is a decimal number without leading zeros, of at most 64 bits."""
    return re.fullmatch("0|[1-9][0-9]{0,19}", word) is not None and int(word) <= MOST


def is_ticket(word: str) -> bool:
    numbers = word.split("-")
    return len(numbers) == 2 and all(map(is_number, numbers))


GRANTED = Form("granted T")
CONFIRMED = Form("confirmed N")
CANCELLED = Form("cancelled T")
OUTCOME_CONFIRMED = Form("outcome confirmed N")
CHANGES = Form("changes N")
OUTCOME_OPEN = "outcome open"
OUTCOME_NEVER = "outcome never"
OUTCOME_LEFT_OUT = "refused 32 left out"
ENTRY_LEFT_OUT = "refused 33 left out"
EXPIRED = "refused 31 expired"
DISK = "refused 91 disk"

BUSY, NOT_PERMITTED, LARGE, FULL = 20, 21, 22, 23
_NUMBERED = {BUSY: Form("refused 20 busy until N"), LARGE: Form("refused 22 large N")}
_PLAIN = {"refused 21 not permitted": NOT_PERMITTED, "refused 23 full": FULL}


def refusal_of_ask(line: str) -> int | None:
    """The code, 20 to 23, by which an ask is refused; None for any other line."""
    numbered = (code for code, form in _NUMBERED.items() if form.read(line) is not None)
    return _PLAIN.get(line) or next(numbered, None)


def line_of(request: str) -> bytes:
    """The bytes of a request. Raises ValueError for a text that isn't one line of ASCII."""
    if not request.isascii() or "\n" in request:
        raise ValueError(f"{request!r} isn't one line of ASCII")
    return request.encode("ascii") + b"\n"
