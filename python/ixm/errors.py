"""What is raised where an action wasn't brought about, or where nobody knows yet."""


class NotDone(Exception):
    """An action wasn't brought about.

    `ticket` is the ticket by which it may be in the history all the same. It is None if it isn't
    there by this call, and never will be.
    """

    def __init__(self, action: str, reason: str, ticket: str | None = None) -> None:
        tail = "" if ticket is None else f", and it may have happened by {ticket}"
        super().__init__(f"{action}: {reason}{tail}")
        self.action, self.reason, self.ticket = action, reason, ticket

    @property
    def may_count(self) -> bool:
        """Whether the action may be in the history."""
        return self.ticket is not None


class ForPeople(NotDone):
    """The answer was one that no engine can mend, or that its programmer has to."""


class LeftOut(ForPeople):
    """The journal was renewed, and what became of the ticket is left out of it: the action happened or
    it didn't, and no later run tells. The old journal's log does."""


class TooLate(NotDone):
    """The time that the caller set has passed."""


class NotKept(NotDone):
    """The store couldn't be read or written; its error is the cause."""


class Refused(NotDone):
    """The manager refused the ask with a code from 20 to 23: the action isn't reserved."""

    def __init__(self, action: str, reply: str, code: int) -> None:
        super().__init__(action, reply)
        self.code = code


class Unspent(Exception):
    """A grant was let go of, or spent twice."""
