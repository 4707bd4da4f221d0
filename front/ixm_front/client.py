"""One client's connection: bounded, and one line at a time."""

from __future__ import annotations

import select
import socket
from time import monotonic
from typing import TYPE_CHECKING, Protocol

from .lines import LineReader
from .handing import Kept
from .loop import HUNG_UP, TurnSelector
from .options import Options
from .protocol import LONGEST, number
from .request import ClientLine
from .who import Who

if TYPE_CHECKING:
    from .policy import Permission, Policy

SKIP = 65536  # bytes that are read at once of a line that is too long


class Owner(Protocol):
    """What a client needs of the front."""

    options: Options
    selector: TurnSelector

    def take(self, client: Client, line: bytes) -> None:
        """Takes the client's next line, and calls `answer` for it, at once or later."""

    def is_gone(self, client: Client) -> None:
        """The client reads no more replies."""

    def is_done(self, client: Client) -> None:
        """All lines of a client that sends no more are answered."""

    def is_blocked(self, client: Client, length: int) -> None:
        """So many bytes of its replies wait until the client reads them."""


class Client:
    """Reads a client's lines and writes its replies. At most `unread` bytes of it are held, and the next line is taken
    only when the one before is answered and its reply handed over to the system."""

    def __init__(self, owner: Owner, sock: socket.socket, who: Who, number_of_it: int) -> None:
        self.owner = owner
        self.sock = sock
        self.who = who
        self.number = number_of_it
        self.text = f'"client": {number_of_it}, {who.text}'.encode()  # what each record of the log tells of it
        self.wait = owner.options.wait / 1000
        self.request: ClientLine | None = None  # the line that isn't answered yet
        self.ticket = b""  # the last ticket that was granted to it and that it hasn't used up
        self.rights: tuple[Permission, ...] = ()
        self.rights_of: Policy | None = None  # the policy by which these are
        self.is_closed = False
        self.has_hung_up = False  # no reply reaches it any more
        self.is_kept = False  # no more is taken of it, since the next front goes on with it
        self.put_back = 0.0  # when the line came that was put back for the next front
        self._is_told = False  # the loop has told of a hang-up
        self._reader = LineReader()
        self._out = b""
        self._reads = False
        self._has_ended = False  # it sends no more
        self._heard = self._begun = self._blocked = monotonic()

    def serve(self) -> None:
        """Takes lines as long as none is unanswered, and reads on."""
        if self.is_kept:
            return
        reader = self._reader
        while reader.held and self.request is None and not self._out and not self.has_hung_up:
            line = reader.next()
            if line is None:
                break
            self._begun = self._heard
            self.owner.take(self, line)
        if self.is_closed:
            return
        if self.has_hung_up:
            self.owner.is_gone(self)
        elif self._has_ended:
            if self.request is None and not self._out:
                self.owner.is_done(self)
        elif reader.held or not self._reads:
            self._read_if(self._room() > 0)

    def answer(self, reply: bytes, now: float) -> bool:
        """Sends the reply to the line that isn't answered. False where it is known that it reaches nobody."""
        self.request = None
        if self.has_hung_up:
            return False
        self._heard = self._begun = now
        try:
            sent = self.sock.send(reply)
        except (BlockingIOError, InterruptedError):
            sent = 0
        except OSError:
            self.has_hung_up = True
            return False
        if sent < len(reply):
            self._blocked = self._heard
            self._out = reply[sent:]
            self.owner.is_blocked(self, len(self._out))
            self._watch()
        return True

    def set_wait(self, text: bytes) -> bool:
        """Sets how long its asks may wait, in milliseconds. False where this isn't a number from 0 to 86400000."""
        millis = number(text)
        if millis is None or millis > LONGEST:
            return False
        self.wait = millis / 1000
        return True

    def hung_up(self) -> bool:
        """Whether the system knows by now that no reply reaches it."""
        if not self.has_hung_up:
            # While it is read the loop tells of it, in each turn before anything else.
            self.has_hung_up = self._is_told if self._reads else self._is_polled_gone()
        return self.has_hung_up

    def _is_polled_gone(self) -> bool:
        poll = select.poll()
        poll.register(self.sock.fileno(), 0)  # for no event, so what is told is that the other end is closed, or an error
        return bool(poll.poll(0))

    def rest(self) -> None:
        """Reads nothing for now."""
        self._read_if(False)

    def is_read(self) -> bool:
        """Whether the loop tells when it hangs up."""
        return self._reads

    def left(self) -> list[bytes]:
        """The whole lines that a client that has hung up left behind: of what is held, and of what may be held."""
        lines: list[bytes] = []
        room = self._room()
        if room > 0:
            try:
                self._reader.feed(self.sock.recv(room))
            except OSError:
                pass
        while (line := self._reader.next()) is not None:
            lines.append(line)
        return lines

    def keep(self, is_put_back: bool) -> None:
        """Takes no more of it. A line that is put back stands in front of what is held again."""
        self.is_kept = True
        self._read_if(False)
        if self.request is not None and is_put_back:
            self._reader.held = self.request.line + b"\n" + self._reader.held
            self.put_back = self.request.came
            self.request = None

    def kept(self) -> Kept | None:
        """What the next front has to know of it; nothing where a reply is due, or it is gone."""
        if self.request is not None or self.is_closed or self.hung_up():
            return None
        return Kept(self.wait, self._reader.held.decode("latin-1"), self._reader.skipping, self._out.decode("latin-1"),
                    self.ticket.decode("ascii"), self._has_ended)

    def go_on(self, kept: Kept) -> None:
        """Goes on where the front of before stood."""
        self.wait, self.ticket, self._has_ended = kept.wait, kept.ticket.encode(), kept.has_ended
        self._reader.held, self._reader.skipping = kept.held.encode("latin-1"), kept.skipping
        self._set_out(kept.out.encode("latin-1"))
        self._watch()
        self.serve()

    def why_late(self, now: float) -> str | None:
        """The limit of time that it has passed, if any."""
        if self.is_kept:
            return None
        options = self.owner.options
        if self._out:
            return "unread replies" if now - self._blocked > options.read_time else None
        if self.request is not None:
            return None
        if self._reader.is_unfinished():
            return "unfinished line" if now - self._begun > options.line_time else None
        return "idle" if now - self._heard > options.idle_time else None

    def close(self) -> None:
        """Closes the connection. Nothing is read or sent any more."""
        self._reads = False
        self._set_out(b"")
        self._watch()
        self.is_closed = self.has_hung_up = True
        self.sock.close()

    def _room(self) -> int:
        """How many bytes may be read now."""
        return SKIP if self._reader.skipping else self.owner.options.unread - len(self._reader.held)

    def _read_if(self, wanted: bool) -> None:
        if wanted != self._reads:
            self._reads = wanted
            self._watch()

    def _watch(self) -> None:
        self.owner.selector.watch(
            self.sock.fileno(), self._readable if self._reads else None, self._writable if self._out else None)

    def _readable(self, flags: int) -> None:
        reader = self._reader
        try:
            data = self.sock.recv(self._room())
        except (BlockingIOError, InterruptedError):
            return
        except OSError:
            data = b""
        if data:
            self._heard = monotonic()
            if not reader.is_unfinished():
                self._begun = self._heard
            reader.feed(data)
            self._is_told = flags & HUNG_UP != 0
        else:
            self._has_ended = True
            self._read_if(False)
            self.hung_up()
        self.serve()

    def _set_out(self, out: bytes) -> None:
        if len(out) != len(self._out):
            self._out = out
            self.owner.is_blocked(self, len(out))

    def _writable(self) -> None:
        try:
            self._set_out(self._out[self.sock.send(self._out):])
        except (BlockingIOError, InterruptedError):
            pass
        except OSError:
            self.has_hung_up = True
            self._set_out(b"")
        if not self._out:
            self._watch()
            self.serve()
