"""Clients that do anything, at one manager and through one front: what each gets is what the machine replies."""

from __future__ import annotations

import os
import random
import signal
import socket
import threading
import time

from .replayed import check_run
from .support import Client, Front, Place, page, wait_until
from .tap import Pairs, Tap

LEAVING = ("connects", "half a line", "asks", "waits", "ends and waits", "is at the manager", "is granted", "confirms")


class Random(threading.Thread):
    """A client that sends lines in random pieces, several at once or each when the one before is answered, and that may
    leave at any point."""

    def __init__(self, number: int, path: str, seed: int) -> None:
        super().__init__(daemon=True)
        self.number = number
        self.path = path
        self.rng = random.Random(seed)
        self.answered: list[tuple[str, str]] = []  # line and reply
        self.sent: list[str] = []
        self.fault: Exception | None = None

    def line(self, ticket: str) -> str:
        name, rng = f"c{self.number}", self.rng
        action = f"do({name}_{rng.randrange(5)})"
        return rng.choice((
            f"ask {action} {rng.choice((1, 20))}", f"ask {action} 50", f"confirm {ticket}", f"confirm {ticket}",
            f"cancel {ticket}", f"may {action}", f"watch {name} {action}", f"drop {name} {action}", f"poll {name}",
            f"log {rng.randrange(4)}", "status", f"spot {name}", f"ask {action}", "x" * 513, f"front wait {rng.randrange(300)}",
            "stop", "", f"may {name}("))

    def run(self) -> None:
        try:
            for _ in range(4):
                self.visit()
        except Exception as fault:  # it is told by the test
            self.fault = fault

    def visit(self) -> None:
        """Connects, sends some lines, and leaves."""
        rng, ticket = self.rng, "0-0"
        with Client(self.path) as client:
            for _ in range(rng.randrange(25)):
                lines = [self.line(ticket) for _ in range(rng.choice((1, 1, 1, 3)))]
                self.send(client, lines)
                if rng.random() < 0.03:
                    return
                for line in lines:
                    reply = client.reply()
                    if reply is None:
                        raise AssertionError(f"{line}: no reply")
                    self.answered.append((line, reply))
                    if reply.startswith("granted "):
                        ticket = reply.split()[1]
                if rng.random() < 0.1:
                    time.sleep(rng.random() / 20)

    def send(self, client: Client, lines: list[str]) -> None:
        data = b"".join(line.encode() + b"\n" for line in lines)
        self.sent += lines
        while data:
            length = self.rng.choice((len(data), 1, 5, 200))
            client.sock.sendall(data[:length])
            data = data[length:]


def is_own(line: str) -> bool:
    """Whether the front answers this line by itself."""
    return len(line) > 512 or line.startswith("front") or line == "stop"


class OneRun(Place):
    def tapped(self, *options: str) -> Front:
        """A front with a tap between it and a manager."""
        self.run_of = self.manager()
        self.tap = Tap(f"{self.folder}/tap", self.run_of.path)
        self.addCleanup(self.tap.close)
        return self.front(self.tap.path, "--page", f"{self.folder}/page", *options)

    def pairs(self) -> Pairs:
        """What went through the tap, once all of it is answered."""
        session = self.tap.sessions[-1]
        wait_until(lambda: all(reply is not None for _, reply in session.pairs()), "the last replies")
        return session.pairs()

    def check_order(self, told: list[tuple[str, str]], pairs: Pairs) -> None:
        """The client's lines and replies stand in what went through, in the client's order."""
        place = 0
        for line, reply in told:
            if is_own(line):
                own = "refused 10 line too long" if len(line) > 512 else "refused 11 word" if line == "stop" else "yes"
                self.assertEqual(reply, own)
                continue
            wanted = (line.encode(), reply.encode() + b"\n")
            while place < len(pairs) and pairs[place] != wanted:
                place += 1
            self.assertLess(place, len(pairs), f"{wanted} didn't come in this order")
            place += 1

    def test_random_clients(self) -> None:
        front = self.tapped("--wait", "500")
        clients = [Random(number, front.path, 100 + number) for number in range(20)]
        for client in clients:
            client.start()
        for client in clients:
            client.join()
            if client.fault is not None:
                raise client.fault
        pairs = self.pairs()
        answered = check_run(self, self.folder, self.run_of.runs[0], [pairs])
        self.assertGreater(answered, 500)
        sent = {line.encode() for client in clients for line in client.sent}
        for line, _ in pairs:
            self.assertTrue(line in sent or line == b"status" or line.startswith(b"cancel "), f"{line!r} was invented")
        for client in clients:
            self.check_order(client.answered, pairs)
        self.check_log(pairs)

    def check_log(self, pairs: Pairs) -> None:
        """Each `confirmed N` is the log's N-th, and no ticket is confirmed twice."""
        actions = {}
        with Client(f"{self.folder}/front") as client:
            for line, reply in pairs:
                if reply is None:
                    continue
                if reply.startswith(b"granted "):
                    actions[reply.split()[1]] = line.split(b" ")[1]
                elif reply.startswith(b"confirmed "):
                    number, action = int(reply.split()[1]), actions.pop(line.split(b" ")[1])
                    self.assertEqual(client.request(f"log {number}"), f"entry {number} {action.decode()}")

    def test_a_client_that_leaves(self) -> None:
        """At each point: its ask isn't sent any more, its grant is given up, and its confirm counts."""
        front = self.tapped()
        other = self.client(front.path)
        for point in LEAVING:
            with self.subTest(point):
                self.leave(front, other, point)
                held = other.told("ask do(other) 60000").split()
                self.assertEqual(held[0], "granted")
                self.assertEqual(other.request(f"cancel {held[1]}"), f"cancelled {held[1]}")
        lines = [line for line, _ in self.pairs()]
        for point in ("asks", "waits", "ends"):
            self.assertNotIn(f"ask do({point}) 60000".encode(), lines)
        self.assertEqual(other.told("status").split()[:3], ["status", "complete", "1"])
        check_run(self, self.folder, self.run_of.runs[0], [self.pairs()])

    def leave(self, front: Front, other: Client, point: str) -> None:
        waits = point in ("asks", "waits", "ends and waits")
        held = other.told("ask do(held) 60000").split()[1] if waits else None
        client = Client(front.path)
        action = f"do({point.split()[0]})"
        if point == "half a line":
            client.sock.sendall(b"ask do(half) 60")
        elif waits:
            client.send(f"ask {action} 60000")
            if point == "ends and waits":
                client.sock.shutdown(socket.SHUT_WR)
            wait_until(lambda: point == "asks" or self.waits(1), "the ask waits")
        elif point == "is at the manager":
            os.kill(self.run_of.pid, signal.SIGSTOP)
            client.send(f"ask {action} 60000")
            wait_until(lambda: self.tap.sessions[-1].sent.endswith(b"ask do(is) 60000\n"), "the ask is sent")
        elif point in ("is granted", "confirms"):
            lease = 300 if point == "is granted" else 60000
            ticket = client.told(f"ask {action} {lease}").split()[1]
            if point == "confirms":
                client.send(f"confirm {ticket}")
        client.close()
        if point == "is at the manager":
            os.kill(self.run_of.pid, signal.SIGCONT)
        if point == "waits":
            wait_until(lambda: self.waits(0), "the ask leaves the line")
        if held is not None:
            self.assertEqual(other.request(f"cancel {held}"), f"cancelled {held}")

    def waits(self, count: int) -> bool:
        """Whether so many asks wait."""
        return f"waiting {count}\n" in page(self.folder, "/health")

    def test_a_reservation_that_the_front_does_not_know(self) -> None:
        """It was granted through a front before. The ask is answered 20, waits until the deadline, and is granted."""
        front = self.tapped()
        with Client(front.path) as holder:
            self.assertTrue(holder.told("ask do(a) 5000").startswith("granted "))
        front.stop()
        front.start()
        with Client(front.path) as client:
            self.assertTrue(client.told("ask do(b) 60000").startswith("granted "))
        replies = [reply or b"" for line, reply in self.pairs() if line == b"ask do(b) 60000"]
        self.assertTrue(replies[0].startswith(b"refused 20 busy until "))
        self.assertTrue(replies[-1].startswith(b"granted "))
        check_run(self, self.folder, self.run_of.runs[0], [session.pairs() for session in self.tap.sessions])

    def test_a_client_that_sends_no_more_gets_its_replies(self) -> None:
        front = self.tapped()
        with Client(front.path) as holder, Client(front.path) as client:
            ticket = holder.told("ask do(a) 60000").split()[1]
            client.send("ask do(b) 60000", "may do(c)")
            client.sock.shutdown(socket.SHUT_WR)
            time.sleep(0.1)
            holder.send(f"confirm {ticket}")
            self.assertTrue((client.reply() or "").startswith("granted "))
            self.assertEqual(client.reply(), "yes")
            self.assertIsNone(client.reply())

    def test_how_long_an_ask_waits(self) -> None:
        front = self.tapped("--wait", "60000")
        with Client(front.path) as holder, Client(front.path) as client:
            holder.request("ask do(a) 400")
            for line, reply in (("front wait 0", "yes"), ("front wait x", "refused 13 number"), ("front", "refused 15 words"),
                                ("front wait 86400001", "refused 13 number"), ("front wait 1 2", "refused 15 words")):
                self.assertEqual(client.request(line), reply)
            self.assertTrue(client.told("ask do(b) 1000").startswith("refused 20 busy until "))
            client.request("front wait 50")
            start = time.monotonic()
            self.assertTrue(client.told("ask do(b) 1000").startswith("refused 20 busy until "))
            self.assertGreaterEqual(time.monotonic() - start, 0.05)
            client.request("front wait 60000")
            # The reservation ends with its lease.
            self.assertTrue(client.told("ask do(b) 1000").startswith("granted "))
        check_run(self, self.folder, self.run_of.runs[0], [self.pairs()])

    def test_first_come_first_served(self) -> None:
        front = self.tapped()
        with Client(front.path) as holder:
            ticket = holder.told("ask do(a) 60000").split()[1]
            clients = [self.client(front.path) for _ in range(10)]
            for number, client in enumerate(clients):
                client.send(f"ask do(w{number}) 60000")
                time.sleep(0.02)
            holder.send(f"confirm {ticket}")
            for client in clients:
                client.send(f"confirm {(client.reply() or '').split()[1]}")
                self.assertTrue((client.reply() or "").startswith("confirmed "))
        order = [line for line, reply in self.pairs() if reply and reply.startswith(b"granted ")][1:]
        self.assertEqual(order, [b"ask do(w%d) 60000" % number for number in range(10)])
        check_run(self, self.folder, self.run_of.runs[0], [self.pairs()])
