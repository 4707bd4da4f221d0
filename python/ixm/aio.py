"""The twin of `ixm.engine` for asyncio: the engine, and the four calls with grants that have to be
spent."""

from typing import Protocol

from ixm import grants
from ixm.core import LEASE
from ixm.engine import AsyncConnection, AsyncEngine
from ixm.grants import Cancelled, Confirmed, Granted, Pending, Settled

__all__ = ["AsyncConnection", "AsyncEngine", "ask", "cancel", "confirm", "settle"]


class Requests(Protocol):
    """Whatever sends a request and gives the lines of its reply; OSError says that the reply is
    lost."""

    async def request(self, line: str) -> list[str]: ...


async def ask(link: Requests, action: str, lease: int = LEASE) -> Granted:
    """As `ixm.engine.ask`."""
    return grants.read_ask(action, (await link.request(f"ask {action} {lease}"))[0])


async def confirm(link: Requests, granted: Granted) -> Confirmed:
    """As `ixm.engine.confirm`."""
    granted.check()
    return grants.read_confirm(granted, await _hear(link, f"confirm {granted.ticket}"))


async def cancel(link: Requests, granted: Granted) -> Cancelled:
    """As `ixm.engine.cancel`."""
    granted.check()
    return grants.read_cancel(granted, await _hear(link, f"cancel {granted.ticket}"))


async def settle(link: Requests, pending: Pending) -> Settled:
    """As `ixm.engine.settle`."""
    pending.check()
    return grants.read_settle(pending, await _hear(link, f"outcome {pending.ticket}"))


async def _hear(link: Requests, line: str) -> str | None:
    try:
        return (await link.request(line))[0]
    except OSError:
        return None
