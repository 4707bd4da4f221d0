"""What one front hands over to the next one through systemd, which keeps open files for a service that it starts again: the
connections of this machine's clients, and a file in memory with what is known of them."""

from __future__ import annotations

import array
import json
import os
import socket
from dataclasses import asdict, dataclass, field

CLIENT, STATE = "client", "clients"  # the names under which they are kept
AT_ONCE = 100  # open files that are handed over in one message
PATIENCE = 1.0  # seconds for each message


@dataclass
class Kept:
    """A client's connection between two fronts. Bytes are told as Latin-1."""

    wait: float
    held: str  # lines that weren't sent to the manager, and what is left of one that isn't whole
    skipping: bool  # whether the rest of a line that was too long is to be dropped
    out: str  # what is left of a reply
    ticket: str
    has_ended: bool  # it sends no more


@dataclass
class State:
    """What is known of the clients, by the numbers of their sockets, and of their tickets."""

    clients: dict[str, Kept] = field(default_factory=dict)
    tickets: list[tuple[str, str]] = field(default_factory=list)  # whose each is, the oldest first
    holder: str = ""  # the client that has the open reservation
    reservation: tuple[str, float, float] = ("", 0.0, 0.0)  # its ticket, since when and until when


def number_of(sock: socket.socket) -> str:
    """What a socket is known by: it stays when the socket is handed over."""
    return str(os.fstat(sock.fileno()).st_ino)


def place_of_systemd() -> str:
    """Where systemd listens; empty where it doesn't."""
    path = os.environ.get("NOTIFY_SOCKET", "")
    return "\0" + path[1:] if path.startswith("@") else path


def send(text: str, files: list[int]) -> None:
    """Tells systemd this, with open files."""
    with socket.socket(socket.AF_UNIX, socket.SOCK_DGRAM) as sock:
        sock.settimeout(PATIENCE)
        sock.connect(place_of_systemd())
        rights = [(socket.SOL_SOCKET, socket.SCM_RIGHTS, array.array("i", files))] if files else []
        sock.sendmsg([text.encode()], rights)


def is_kept() -> bool:
    """Whether systemd may keep what is handed over."""
    return bool(place_of_systemd())


def hand_over(socks: list[socket.socket], state: State) -> None:
    """Hands these connections over. Where systemd doesn't take them, they are closed when this process ends."""
    file = os.memfd_create("clients")
    try:
        os.write(file, json.dumps(asdict(state)).encode())
        send(f"FDSTORE=1\nFDNAME={STATE}", [file])
        files = [sock.fileno() for sock in socks]
        for place in range(0, len(files), AT_ONCE):
            send(f"FDSTORE=1\nFDNAME={CLIENT}", files[place:place + AT_ONCE])
    finally:
        os.close(file)


def taken_over(files: list[int]) -> State:
    """What the front of before told in these files, of which the last counts. Systemd keeps nothing of it any more."""
    for name in (CLIENT, STATE) if is_kept() else ():
        send(f"FDSTOREREMOVE=1\nFDNAME={name}", [])
    state = State()
    for file in files:
        with open(file, "rb") as told:
            told.seek(0)
            known = json.loads(told.read())
        clients = {number: Kept(**kept) for number, kept in known["clients"].items()}
        ticket, since, until = known["reservation"]
        state = State(clients, [(of, key) for of, key in known["tickets"]], known["holder"], (ticket, since, until))
    return state
