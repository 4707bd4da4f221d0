"""A small client of the conformance run that is wrong in the way that its first word names, or in
none:

    wrong.py WAY SOCKET ACTION MILLIS STORE SECONDS
"""

import os
import re
import socket
import sys
import time

# Each wrong way: a case that shows it, and the rule that is told of it.
WAYS: dict[str, tuple[str, int]] = {
    "takes a part of a grant": ("half of a grant", 1),
    "confirms before it writes": ("the client is killed at its confirm, which was handled", 2),
    "takes 30 for never": ("a confirm that counts is answered 'refused 30 no such ticket'", 6),
    "takes a line that begins as a confirm for done": ("a confirm is answered 'confirmed 1x'", 3),
    "says done when it is unsure": ("the manager is killed before the confirm", 3),
    "confirms again without an outcome": ("the confirm is lost", 4),
    "makes no pause": ("the outcome is lost for ever", 4),
    "forgets what is unsure at its end": ("the outcome is lost for ever", 4),
    "asks again while it is unsure": ("the reply to the confirm is lost", 6),
    "asks first after a crash": ("the client is killed at its confirm, which was handled", 2),
    "believes a ticket of another action": ("its ticket is another action's since a journal was put back", 7),
    "takes a lost cancel for done": ("the same, and the cancel is lost", 8),
    "reads a second line": ("another line behind never", 9),
    "takes numbers of 65 bits": (f"a confirm is answered 'confirmed {2**64}'", 3),
}


class Client:
    def __init__(self, way: str, path: str, action: str, lease: str, store: str, seconds: str) -> None:
        self.way, self.path, self.action, self.lease, self.store = way, path, action, lease, store
        self.end = time.monotonic() + float(seconds)

    def request(self, line: str) -> str:
        """The reply, or an empty text if none came."""
        try:
            with socket.socket(socket.AF_UNIX) as link, link.makefile("rb") as lines:
                link.settimeout(0.5)
                link.connect(self.path)
                link.sendall(line.encode() + b"\n")
                first = lines.readline(256)
                second = lines.readline(256) if self.way == "reads a second line" and b"31" in first else b""
                line_read = second if second else first
                if self.way == "takes a part of a grant" and line_read.startswith(b"granted"):
                    return line_read.decode("latin-1")
                return line_read[:-1].decode("ascii") if line_read.endswith(b"\n") else ""
        except (OSError, UnicodeDecodeError):
            return ""

    def keep(self, text: str) -> None:
        with open(self.store, "w") as file:
            file.write(text)

    def read(self, form: str, line: str) -> str | None:
        found = re.fullmatch(form.replace("N", "(0|[1-9][0-9]*)"), line)
        most = 2**80 if self.way == "takes numbers of 65 bits" else 2**64
        return "-".join(found.groups()) if found and all(int(it) < most for it in found.groups()) else None

    def run(self) -> str:
        ticket = self.kept()
        while time.monotonic() < self.end:
            if ticket and ticket.startswith("done "):
                return ticket
            if ticket and self.way != "asks first after a crash":
                put = self.settle(ticket)
                if put:
                    return put
                if put is None:
                    continue
            ticket = None
            reply = self.request(f"ask {self.action} {self.lease}")
            granted = self.read("granted N-N", reply)
            if self.way == "takes a part of a grant" and reply.startswith("granted"):
                granted = reply.split()[-1]
            if granted is None:
                time.sleep(0.02)
                continue
            if self.way == "confirms before it writes":
                self.request(f"confirm {granted}")
            try:
                self.keep(granted)
            except OSError:
                return self.cancel(granted)
            ticket = granted
            put = self.confirm(granted)
            if put:
                return put
            if put == "":
                ticket = None
            if self.way == "asks again while it is unsure":
                ticket = None
        return f"unsure {ticket}" if ticket and "forgets" not in self.way else "not done"

    def kept(self) -> str | None:
        return open(self.store).read() or None if os.path.exists(self.store) else None

    def done(self, number: str) -> str:
        self.keep(f"done {number}")
        return f"done {number}"

    def confirm(self, ticket: str) -> str | None:
        """The line to put; an empty text says never, None that it is unsure."""
        reply = self.request(f"confirm {ticket}")
        if self.way == "confirms again without an outcome":
            reply = reply or self.request(f"confirm {ticket}")
        number = self.read("confirmed N", reply)
        if self.way == "takes a line that begins as a confirm for done" and reply.startswith("confirmed"):
            number = "1"
        if number is not None:
            return self.done(number)
        is_never = reply == "refused 31 expired" or self.way == "takes 30 for never" and reply.startswith("refused 30")
        if is_never:
            self.keep("")
            return ""
        return "done 1" if self.way == "says done when it is unsure" else None

    def settle(self, ticket: str) -> str | None:
        if self.way != "makes no pause":
            time.sleep(0.1)
        reply = self.request(f"outcome {ticket}")
        number = self.read("outcome confirmed N", reply)
        if number is not None:
            entry = self.request(f"log {number}")
            if entry == f"entry {number} {self.action}" or self.way == "believes a ticket of another action":
                return self.done(number)
            return f"unsure {ticket}" if entry else None
        if reply == "outcome open":
            return self.confirm(ticket)
        if reply == "outcome never":
            self.keep("")
            return ""
        return None

    def cancel(self, ticket: str) -> str:
        reply = self.request(f"cancel {ticket}")
        return "not done" if reply or self.way != "takes a lost cancel for done" else "done 1"


if __name__ == "__main__":
    print(Client(*sys.argv[1:]).run())
