"""What systemd hands over, and is told: sockets, readiness, and that the loop still turns."""

from __future__ import annotations

import os
import socket

from .handing import CLIENT, STATE, State, place_of_systemd, taken_over

FIRST_HANDED = 3  # the number of the first open file that is handed over
NAMES = ("front", "page", "tls", CLIENT)


def handed_over() -> tuple[dict[str, list[socket.socket]], State]:
    """The sockets that listen already and those of clients of the front of before, by what they are for, and what that
    front told. A socket whose name says nothing else is the front's."""
    found: dict[str, list[socket.socket]] = {name: [] for name in NAMES}
    told: list[int] = []
    count, process = os.environ.pop("LISTEN_FDS", "0"), os.environ.pop("LISTEN_PID", "")
    names = os.environ.pop("LISTEN_FDNAMES", "").split(":")
    if process != str(os.getpid()) or not count.isdigit():
        return found, State()
    for place in range(int(count)):
        if names[place:place + 1] == [STATE]:
            told.append(FIRST_HANDED + place)
            continue
        sock = socket.socket(fileno=FIRST_HANDED + place)
        sock.setblocking(False)
        os.set_inheritable(sock.fileno(), False)
        name = names[place] if place < len(names) else ""
        found[name if name in NAMES else "front"].append(sock)
    return found, taken_over(told) if told or found[CLIENT] else State()


def watchdog_seconds() -> float | None:
    """How often systemd has to be told that the loop turns: twice in its limit. None where it doesn't ask for it."""
    micros = os.environ.get("WATCHDOG_USEC", "")
    if not micros.isdigit() or int(micros) == 0 or os.environ.get("WATCHDOG_PID", str(os.getpid())) != str(os.getpid()):
        return None
    return int(micros) / 2e6


def notify(*lines: str) -> None:
    """Tells systemd these lines, where it listens."""
    place = place_of_systemd()
    if not place:
        return
    try:
        with socket.socket(socket.AF_UNIX, socket.SOCK_DGRAM) as sock:
            sock.setblocking(False)
            sock.sendto("\n".join(lines).encode(), place)
    except OSError:
        pass
