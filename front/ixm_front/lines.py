"""Bytes cut into lines, and into whole replies."""

from .protocol import LINE_LIMIT, number


class LineReader:
    """The lines of a client, cut as the manager cuts them. It holds the bytes that are fed and not yet taken."""

    __slots__ = ("held", "skipping")

    def __init__(self) -> None:
        self.held = b""
        self.skipping = False

    def feed(self, data: bytes) -> None:
        """Takes further bytes. What is left of a line that was too long is dropped."""
        if self.skipping:
            end = data.find(b"\n")
            if end < 0:
                return
            self.skipping = False
            data = data[end + 1:]
        self.held += data

    def next(self) -> bytes | None:
        """The next line without its byte 10, or None where no line is whole. Of a line that is too long it gives the
        first 513 bytes, as soon as they are there, and drops the rest."""
        held = self.held
        end = held.find(b"\n", 0, LINE_LIMIT + 1)
        if end >= 0:
            self.held = held[end + 1:]
            return held[:end]
        if len(held) <= LINE_LIMIT:
            return None
        end = held.find(b"\n")
        self.skipping = end < 0
        self.held = held[end + 1:] if end >= 0 else b""
        return held[:LINE_LIMIT + 1]

    def is_unfinished(self) -> bool:
        """Whether a line was begun and isn't ended."""
        return self.skipping or bool(self.held)


class ReplyReader:
    """The replies of the manager, each whole: one line, and behind `changes K` K lines more."""

    __slots__ = ("held", "seen", "more")

    def __init__(self) -> None:
        self.held = bytearray()
        self.seen = 0  # the bytes of whole lines that belong to the reply at the front of `held`
        self.more = 0  # the lines that this reply still lacks

    def feed(self, data: bytes) -> list[bytes]:
        """The replies that these bytes complete, each with its line ends."""
        held = self.held
        if not held and data.endswith(b"\n") and b"changes " not in data:
            # As most are: one reply, or some of one line each.
            return [data] if data.count(b"\n") == 1 else [line + b"\n" for line in data[:-1].split(b"\n")]
        held += data
        replies = []
        while (end := held.find(b"\n", self.seen)) >= 0:
            if self.seen:
                self.more -= 1
            elif held.startswith(b"changes "):
                self.more = number(bytes(held[8:end])) or 0
            self.seen = end + 1
            if self.more == 0:
                replies.append(bytes(held[:self.seen]))
                del held[:self.seen]
                self.seen = 0
        return replies
