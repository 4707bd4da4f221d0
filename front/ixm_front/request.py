"""A line on its way to the manager: a client's, or one of the front's own."""

from __future__ import annotations

from typing import TYPE_CHECKING

if TYPE_CHECKING:
    from .client import Client


class ClientLine:
    """A client's line without its byte 10, and when it came and was sent, in seconds of the loop's clock."""

    __slots__ = ("line", "verb", "rest", "client", "came", "sent", "deadline", "is_last_try")

    def __init__(self, line: bytes, client: Client, came: float) -> None:
        self.line = line
        self.verb, _, self.rest = line.partition(b" ")  # the first word, and what stands behind it
        self.client = client
        self.came = came
        self.sent = 0.0  # not yet
        self.deadline = 0.0  # of an ask: until when it may wait
        self.is_last_try = False  # of an ask: it is answered by the next reply, whatever that is


class OwnLine:
    """A line of the front's own."""

    __slots__ = ("line", "verb", "came", "sent", "about")

    def __init__(self, line: bytes, came: float, about: ClientLine | None = None) -> None:
        self.line = line
        self.verb = line.partition(b" ")[0]
        self.came = came
        self.sent = 0.0
        self.about = about  # of an `outcome`: the line whose reply was lost


Line = ClientLine | OwnLine
