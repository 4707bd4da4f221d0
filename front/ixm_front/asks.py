"""The line in which asks wait for the manager's one reservation: first come, first served."""

from __future__ import annotations

import asyncio
import time
from collections import OrderedDict
from collections.abc import Iterator
from itertools import chain
from time import monotonic
from typing import Protocol

from .client import Client
from .loop import TurnSelector
from .protocol import BUSY, CANCELLED, CONFIRMED, FAULT, GRANTED, SPENDING, busy_until, number
from .request import ClientLine, Line
from .view import Granted

SURE = 0.1  # seconds that a lease has still to last, so that an ask that is sent now is answered 20
OTHER = 1.0  # seconds by which a reservation that a 20 names ends later than the known one, where it is another


class Sender(Protocol):
    """What the line needs of the front."""

    loop: asyncio.AbstractEventLoop
    selector: TurnSelector

    def can_ask(self) -> bool:
        """Whether the manager can be sent asks now."""

    def send(self, request: Line) -> None:
        """Sends a line to the manager."""

    def give_up(self, request: ClientLine) -> None:
        """An ask left the line without being sent."""


class Asks:
    """Sends one ask after the other, each when the one before is answered and its reservation over.

    What it believes of the reservation decides only when an ask is sent. Where it is wrong, the manager answers that
    ask with 20, and the ask goes back to the front of the line, until the deadline that the reply names.

    An ask that may wait no longer passes nobody: it is sent where it can only be answered 20, or where nobody is in the
    line. Else its turn comes with the next grant, or with the line's end."""

    def __init__(self, sender: Sender, again: int) -> None:
        self.sender = sender
        self.again = again / 1000
        self.ticket = b""  # the ticket of the open reservation, where it is known
        self.holder: Client | None = None  # whose it is
        self.since = 0.0  # when it was granted, or was first met
        self.until = 0.0  # until when it lasts, as far as is known
        self.granted: Granted | None = None  # the last grant, open or not
        self._line: OrderedDict[ClientLine, None] = OrderedDict()
        self._hurried: dict[ClientLine, None] = {}  # those that may wait no longer
        self._asked: ClientLine | None = None  # the ask whose reply is to come
        self._is_free = True  # no reservation is open, as far as is known
        self._again_at = 0.0  # when the line is tried again
        self._soonest = float("inf")  # no ask of the line has an earlier deadline
        self._timer: asyncio.TimerHandle | None = None
        self._timer_at = float("inf")  # when it comes

    def __len__(self) -> int:
        return len(self._line) + len(self._hurried)

    def oldest(self) -> float | None:
        """When the ask came that has waited longest."""
        return min((next(iter(asks)).came for asks in (self._line, self._hurried) if asks), default=None)

    def waiting(self) -> Iterator[ClientLine]:
        """The asks that wait, in their order, those before the others that may wait no longer."""
        return chain(self._hurried, self._line)

    def is_open(self) -> bool:
        """Whether a reservation is open, as far as is known."""
        return not self._is_free and monotonic() < self.until

    def go_on(self, ticket: bytes, holder: Client, since: float, until: float) -> None:
        """The front of before knew of this reservation."""
        self.since = since
        self._hold(ticket, holder, until, monotonic())

    def add(self, request: ClientLine) -> None:
        """Takes an ask to the end of the line, or sends it at once where nobody is before it."""
        wait = request.client.wait
        if wait == 0 or (self.holder is request.client and self._is_sure()):
            # Who holds the reservation would wait for itself.
            self._hurry(request)
            return
        may_send = self._may_send()
        if may_send and not self._line and not self._hurried:
            self._send_as_next(request)
            return
        request.deadline = request.came + wait
        self._line[request] = None
        self._soonest = min(self._soonest, request.deadline)
        if may_send or self._hurried:
            self.send_next()
        else:
            self._set_timer()

    def remove(self, request: ClientLine) -> bool:
        """Takes an ask out of the line. False where it isn't in it."""
        for asks in (self._line, self._hurried):
            if request in asks:
                del asks[request]
                return True
        return False

    def send_next(self) -> None:
        """Sends the first ask of the line if the reservation may be free. Those whose clients are gone leave it."""
        while self._line and self._may_send():
            request, _ = self._line.popitem(last=False)
            if not request.client.hung_up():
                self._send_as_next(request)
                break
            self.sender.give_up(request)
        if self._hurried and self._passes_nobody():
            hurried, self._hurried = self._hurried, {}
            for request in hurried:
                self._hurry(request)
        if self._line:
            self._set_timer()

    def is_spent(self, ticket: bytes) -> None:
        """A confirm or a cancel of it was sent: if it is of the open reservation, the next ask may follow it at once,
        since the manager handles it behind."""
        if self.ticket and ticket == self.ticket:
            self._free()
            self.send_next()

    def replied(self, request: ClientLine, reply: bytes, now: float) -> bool:
        """Learns from a reply that came now. True where the ask waits on, and its client isn't told."""
        if request.verb in SPENDING:
            if reply.startswith((CONFIRMED, CANCELLED)) and self._asked is None:
                self._free()
            return False
        if request is self._asked:
            self._asked = None
        if reply.startswith(GRANTED):
            lease = number(request.line.rpartition(b" ")[2]) or 0
            ticket = reply[len(GRANTED):-1]
            self.granted, self.since = Granted(ticket, request), now
            self._hold(ticket, request.client, request.sent + lease / 1000, now)
        elif reply.startswith(BUSY):
            self._meet(monotonic() + busy_until(reply) / 1000 - time.time(), now)
            if not request.is_last_try:
                self._put_back(request)
                return True
        elif self._asked is None and not reply.startswith(FAULT):
            # An action is looked at only where no reservation is open.
            self._free()
        return False

    def is_lost(self, unanswered: list[ClientLine]) -> None:
        """The connection to the manager is gone: nothing is known, and these asks are first again."""
        self._asked = None
        self._free()
        for request in reversed(unanswered):
            self._put_back(request)
        for request in list(self._hurried):
            self.remove(request)
            self.sender.give_up(request)
        self.send_next()

    def _may_send(self) -> bool:
        if not self._is_free and self._again_at <= monotonic():
            self._is_free = True
        return self._is_free and self._asked is None and self.sender.can_ask()

    def _is_sure(self) -> bool:
        """Whether an ask that is sent now is answered 20."""
        return not self._is_free and self.until - monotonic() > SURE

    def _passes_nobody(self) -> bool:
        return not self._line or self._is_sure() or not self.sender.can_ask()

    def _send_as_next(self, request: ClientLine) -> None:
        self._asked = request
        self.sender.send(request)

    def _hurry(self, request: ClientLine) -> None:
        """The ask is answered as soon as it passes nobody, by the manager's next reply to it."""
        if not self._passes_nobody():
            self._hurried[request] = None
        elif not self.sender.can_ask() or (request.deadline and request.client.hung_up()):
            self.sender.give_up(request)
        else:
            request.is_last_try = True
            if self._asked is None and not self._is_sure():
                self._asked = request
            self.sender.send(request)

    def _free(self) -> None:
        self._is_free, self.ticket, self.holder, self.until = True, b"", None, 0.0

    def _meet(self, until: float, now: float) -> None:
        """A 20 names this end of the open reservation, which may be one of somebody that went past the front."""
        if until > self.until + OTHER:
            self.ticket, self.holder, self.since = b"", None, now
        self._hold(self.ticket, self.holder, until, now)

    def _hold(self, ticket: bytes, holder: Client | None, until: float, now: float) -> None:
        """A reservation is open so long, as far as is known. The line is tried again behind it, and if the clock should
        have been set meanwhile, after `again` at the latest."""
        self._is_free, self.ticket, self.holder, self.until = False, ticket, holder, until
        self._again_at = min(max(until, now + 0.001), now + self.again)

    def _set_timer(self) -> None:
        """The line is looked at again where a deadline or the reservation's end comes. A timer that comes earlier stays."""
        when = self._soonest if self._is_free else min(self._soonest, self._again_at)
        if self._timer_at <= when:
            return
        if self._timer is not None:
            self._timer.cancel()
        self._timer, self._timer_at = self.sender.loop.call_at(when, self._look), when
        self.sender.selector.give_way()

    def _look(self) -> None:
        self._timer, self._timer_at = None, float("inf")
        now = monotonic()
        if self._soonest <= now:
            over = [request for request in self._line if request.deadline <= now]
            for request in over:
                del self._line[request]
            self._soonest = min((request.deadline for request in self._line), default=float("inf"))
            for request in over:
                self._hurry(request)
        self.send_next()

    def _put_back(self, request: ClientLine) -> None:
        request.sent = 0.0
        request.deadline = request.came + request.client.wait
        self._line[request] = None
        self._line.move_to_end(request, last=False)
        self._soonest = min(self._soonest, request.deadline)
