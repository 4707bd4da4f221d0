"""How one action comes into the history exactly once, whoever is killed meanwhile. docs/engines.md
has the states of it, in the words used here.

All of it is written once, as coroutines over what an engine does outside of itself (`Outside`): the
engine that blocks and the one for asyncio run the same code.
"""

import contextlib
import ssl
from typing import Protocol

from ixm import protocol
from ixm.errors import ForPeople, LeftOut, NotKept, TooLate
from ixm.store import Record, read_record


class Talk(Protocol):
    """A connection that the manager reads."""

    async def ask(self, line: str) -> str: ...


class Pause(Protocol):
    """The time between two tries."""

    def is_over(self) -> bool:
        """Whether the caller's time has passed."""

    async def wait(self) -> None: ...


class Outside(Protocol):
    """What an activity does outside of itself. A connection's error is an OSError."""

    def turn(self) -> contextlib.AbstractAsyncContextManager[Talk]:
        """A connection that the manager reads; nobody else is read until it is closed."""

    async def load(self) -> str | None: ...

    async def swap(self, old: str | None, new: str) -> bool: ...

    async def wait_for(self, action: str) -> None:
        """Waits until the rules permit the action, or may."""


class Activity:
    """One action on its way into the history. What is true of it is what its store holds."""

    def __init__(self, outside: Outside, action: str, lease: int) -> None:
        self.outside, self.action, self.lease = outside, action, lease
        self.text: str | None = None  # what the store held when it was last looked at
        self.kept: Record | None = None  # what that says

    @property
    def unsettled(self) -> str | None:
        """The ticket of which it isn't known what became of it."""
        return self.kept.ticket if self.kept is not None and self.kept.state == "open" else None

    async def bring_about(self, pause: Pause) -> int:
        """The action's number in the history, as soon as it is there by a ticket of this store."""
        await self.load()
        while self.kept is None or self.kept.state != "done":
            if pause.is_over():
                raise TooLate(self.action, "the time is over", self.unsettled)
            code = await self.try_once()
            if code == protocol.NOT_PERMITTED:
                await self.outside.wait_for(self.action)
            elif self.kept is None or self.kept.state != "done":
                await pause.wait()
        return self.kept.number

    async def try_once(self) -> int | None:
        """Goes as far as one connection gets. The code of a refusal after which the ask comes
        again, or None."""
        try:
            async with self.outside.turn() as talk:
                if self.unsettled is not None:
                    await self.settle(talk)
                if self.unsettled is None and (self.kept is None or self.kept.state != "done"):
                    return await self.ask(talk)
        except (PermissionError, ssl.SSLCertVerificationError) as error:
            raise ForPeople(self.action, str(error), self.unsettled) from error
        except OSError:
            pass
        return None

    async def ask(self, talk: Talk) -> int | None:
        """Asks; if it is granted, keeps the ticket, and only then confirms it."""
        reply = await talk.ask(f"ask {self.action} {self.lease}")
        ticket = protocol.GRANTED.read(reply)
        if ticket is None:
            code = protocol.refusal_of_ask(reply)
            if code not in (protocol.BUSY, protocol.NOT_PERMITTED):
                raise ForPeople(self.action, reply)
            return code
        if await self.keep_granted(talk, ticket):
            await self.confirm(talk, ticket, is_own=True)
        return None

    async def keep_granted(self, talk: Talk, ticket: str) -> bool:
        """Whether the ticket is kept. If it isn't, it is given up: another run has this activity,
        or the store failed."""
        is_kept = False
        try:
            is_kept = await self.keep(Record("open", ticket, self.action))
        finally:
            if not is_kept:
                with contextlib.suppress(OSError):
                    await talk.ask(f"cancel {ticket}")
        return is_kept

    async def confirm(self, talk: Talk, ticket: str, is_own: bool) -> None:
        """Confirms a ticket that is kept. `is_own` says that it was granted on this very
        connection, for this action."""
        reply = await talk.ask(f"confirm {ticket}")
        number = protocol.CONFIRMED.read(reply)
        if number is not None:
            await self.believe(talk, ticket, int(number), is_own)
        elif reply == protocol.EXPIRED:
            await self.keep(Record("never", ticket, self.action))
        elif reply == protocol.DISK:
            raise ForPeople(self.action, reply, ticket)

    async def settle(self, talk: Talk) -> None:
        """Asks what became of the ticket that is kept, and keeps the answer."""
        ticket = self.unsettled
        assert ticket is not None
        reply = await talk.ask(f"outcome {ticket}")
        number = protocol.OUTCOME_CONFIRMED.read(reply)
        if number is not None:
            await self.believe(talk, ticket, int(number), is_own=False)
        elif reply == protocol.OUTCOME_OPEN:
            await self.confirm(talk, ticket, is_own=False)
        elif reply == protocol.OUTCOME_NEVER:
            await self.keep(Record("never", ticket, self.action))
        elif reply == protocol.OUTCOME_LEFT_OUT:
            raise LeftOut(self.action, reply, ticket)
        else:
            # 30: this manager's journal never granted the ticket, as after a backup was put back.
            raise ForPeople(self.action, reply, ticket)

    async def believe(self, talk: Talk, ticket: str, number: int, is_own: bool) -> None:
        """Keeps that the action is done, after a look into the log: a journal that was put back
        from a backup may have granted the same ticket again, for another action."""
        if not is_own:
            entry = await talk.ask(f"log {number}")
            if entry == protocol.ENTRY_LEFT_OUT:
                raise LeftOut(self.action, f"the log has {entry}", ticket)
            if entry != f"entry {number} {self.action}":
                raise ForPeople(self.action, f"the log has {entry}", ticket)
        done = Record("done", ticket, self.action, number)
        if not await self.keep(done) and self.kept != done:
            reason = f"confirmed {number}, but the store says {self.text}"
            raise ForPeople(self.action, reason, ticket)

    async def load(self) -> None:
        """Reads what the store holds."""
        try:
            text = await self.outside.load()
        except Exception as error:
            reason = f"the store can't be read: {error}"
            raise NotKept(self.action, reason, self.unsettled) from error
        kept = None if text is None else read_record(text)
        if text is not None and (kept is None or kept.action != self.action):
            raise ForPeople(self.action, f"the store holds {text!r}", self.unsettled)
        self.text, self.kept = text, kept

    async def keep(self, record: Record) -> bool:
        """Whether the record is kept, in the place of what was there. If another run kept
        something, that is read."""
        try:
            is_kept = await self.outside.swap(self.text, record.text())
        except Exception as error:
            reason = f"{record.text()!r} can't be kept: {error}"
            raise NotKept(self.action, reason, self.unsettled) from error
        if is_kept:
            self.text, self.kept = record.text(), record
        else:
            await self.load()
        return is_kept
