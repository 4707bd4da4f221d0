"""The engines of this package as clients of the conformance run:

    python -m ixm.conformance.client [--asyncio] SOCKET ACTION MILLIS STORE SECONDS
"""

import asyncio
import sys

from ixm.engine import AsyncEngine, Engine, FileStore, NotDone


def main(words: list[str]) -> str:
    """The line to put."""
    is_asyncio = words[:1] == ["--asyncio"]
    path, action, lease, place, seconds = words[is_asyncio:]
    store, within = FileStore(place), float(seconds)
    try:
        if is_asyncio:
            engine = AsyncEngine(path, "conformance", lease=int(lease))
            number = asyncio.run(engine.activity(action, store=store, within=within))
        else:
            blocking = Engine(path, "conformance", lease=int(lease))
            number = blocking.activity(action, store=store, within=within)
    except NotDone as error:
        return f"not done: {error}" if error.ticket is None else f"unsure {error.ticket}"
    return f"done {number}"


if __name__ == "__main__":
    print(main(sys.argv[1:]))
