"""Grants that have to be spent: one request each, for an engine that goes its own way
(docs/client.md). `ixm.aio` has the same four calls for asyncio."""

from typing import Literal

from ixm import protocol
from ixm.core import LEASE
from ixm.errors import ForPeople, Refused, Unspent
from ixm.link import Requests

EXPIRED: Literal["expired"] = "expired"  # the action isn't in the history by this ticket, and never will be
CANCELLED: Literal["cancelled"] = "cancelled"  # the same
NEVER: Literal["never"] = "never"  # the same
LEFT_OUT: Literal["left out"] = "left out"  # the action happened or it didn't, and no later run tells


class Grant:
    """A ticket and its action, to be spent once. It complains on standard error if it is let go of
    before that."""

    def __init__(self, ticket: str, action: str) -> None:
        self.ticket, self.action, self.is_spent = ticket, action, False

    def __repr__(self) -> str:
        return f"{type(self).__name__}({self.ticket!r}, {self.action!r})"

    def __del__(self) -> None:
        # Python doesn't raise this any further, but prints it.
        if not self.is_spent:
            raise Unspent(f"{self!r} was let go of")

    def check(self) -> None:
        if self.is_spent:
            raise Unspent(f"{self!r} was spent before")

    def spend(self) -> tuple[str, str]:
        self.check()
        self.is_spent = True
        return self.ticket, self.action


class Granted(Grant):
    """A granted action. It is spent by `confirm` or `cancel`."""


class Pending(Grant):
    """A granted action of which it isn't known what became of it. It is spent by `settle`.

    An engine that was started again makes one of the ticket and the action that it had written
    down.
    """


class Done:
    """The action is the one of this number of the history."""

    def __init__(self, number: int) -> None:
        self.number = number

    def __eq__(self, other: object) -> bool:
        return isinstance(other, Done) and self.number == other.number

    def __hash__(self) -> int:
        return hash(self.number)

    def __repr__(self) -> str:
        return f"Done({self.number})"


Confirmed = Done | Literal["expired"] | Pending
Cancelled = Literal["cancelled", "expired"] | Pending
Settled = Done | Literal["never", "left out"] | Granted | Pending


def ask(link: Requests, action: str, lease: int = LEASE) -> Granted:
    """Asks for the action, to be reserved for so many milliseconds, and gives a `Granted`.

    Raises `Refused` if it is refused with a code from 20 to 23, and `ForPeople` if another reply
    comes. An OSError says that the reply is lost: the action may be reserved, until the lease is
    over, but it won't happen by this ask.
    """
    return read_ask(action, link.request(f"ask {action} {lease}")[0])


def confirm(link: Requests, granted: Granted) -> Confirmed:
    """Tells the manager that the action was done: a `Done`, `EXPIRED`, or a `Pending` if it isn't
    known which."""
    granted.check()
    return read_confirm(granted, _hear(link, f"confirm {granted.ticket}"))


def cancel(link: Requests, granted: Granted) -> Cancelled:
    """Tells the manager that the action won't be done: `CANCELLED`, `EXPIRED`, or a `Pending`."""
    granted.check()
    return read_cancel(granted, _hear(link, f"cancel {granted.ticket}"))


def settle(link: Requests, pending: Pending) -> Settled:
    """Asks what became of the action: a `Done`, `NEVER`, `LEFT_OUT`, a `Granted` that is still open, or
    a `Pending` again.

    Whether the action of that number is this one is for the caller to see in the log, if the ticket
    was kept over a restart of anything.
    """
    pending.check()
    return read_settle(pending, _hear(link, f"outcome {pending.ticket}"))


def _hear(link: Requests, line: str) -> str | None:
    """The first line of the reply, or None if none came."""
    try:
        return link.request(line)[0]
    except OSError:
        return None


def read_ask(action: str, reply: str) -> Granted:
    ticket, code = protocol.GRANTED.read(reply), protocol.refusal_of_ask(reply)
    if ticket is not None:
        return Granted(ticket, action)
    if code is not None:
        raise Refused(action, reply, code)
    raise ForPeople(action, reply)


def read_confirm(granted: Granted, reply: str | None) -> Confirmed:
    ticket, action = granted.spend()
    number = protocol.CONFIRMED.read(reply)
    if number is not None:
        return Done(int(number))
    return EXPIRED if reply == protocol.EXPIRED else Pending(ticket, action)


def read_cancel(granted: Granted, reply: str | None) -> Cancelled:
    ticket, action = granted.spend()
    if protocol.CANCELLED.read(reply) == ticket:
        return CANCELLED
    return EXPIRED if reply == protocol.EXPIRED else Pending(ticket, action)


def read_settle(pending: Pending, reply: str | None) -> Settled:
    ticket, action = pending.spend()
    number = protocol.OUTCOME_CONFIRMED.read(reply)
    if number is not None:
        return Done(int(number))
    if reply == protocol.OUTCOME_NEVER:
        return NEVER
    if reply == protocol.OUTCOME_LEFT_OUT:
        return LEFT_OUT
    is_open = reply == protocol.OUTCOME_OPEN
    return Granted(ticket, action) if is_open else Pending(ticket, action)
