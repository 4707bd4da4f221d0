"""Clients that are gone leave nothing behind but what they gave back or told, and keep nobody out."""

from __future__ import annotations

import os
import socket
import subprocess
import sys
import time
import unittest

from .support import Client, Place, metric, page, records, wait_until

# A process that opens connections, fills each with lines, tells so, and ends when it is told to.
FILLER = """
import socket, sys
path, count, line, user = sys.argv[1], int(sys.argv[2]), sys.argv[3].encode() + b"\\n", int(sys.argv[4])
if user:
    import os
    os.setgroups([]); os.setgid(user); os.setuid(user)
kept = []
for _ in range(count):
    sock = socket.socket(socket.AF_UNIX)
    sock.connect(path)
    sock.setblocking(False)
    try:
        while line != b"\\n" and sock.send(line * 100):
            pass
    except OSError:
        pass
    kept.append(sock)
print("ready", flush=True)
sys.stdin.read()
"""


def filler(path: str, count: int, line: str = "", user: int = 0) -> subprocess.Popen[bytes]:
    """A process with so many connections, each full of this line."""
    words = [sys.executable, "-c", FILLER, path, str(count), line, str(user)]
    process = subprocess.Popen(words, stdin=subprocess.PIPE, stdout=subprocess.PIPE)
    assert process.stdout is not None
    process.stdout.readline()
    return process


def end(process: subprocess.Popen[bytes]) -> None:
    """Ends it at once."""
    process.kill()
    process.communicate()


class Gone(Place):
    def test_lines_of_clients_that_are_gone_are_not_handled(self) -> None:
        """Each client leaves a socket full of lines. What is handled of them is a line or two each."""
        front = self.paged(self.manager().path, "--clients", "100")
        process = filler(front.path, 20, "status")
        end(process)
        wait_until(lambda: "clients 0\n" in page(self.folder, "/health"), "their places are free")
        with Client(front.path) as client:
            start = time.monotonic()
            self.assertEqual(client.request("may do(a)"), "yes")
            self.assertLess(time.monotonic() - start, 5)
        handled = metric(self.folder, 'ixm_front_requests_total{request="status",reply="status"}') or 0
        # While the process lives its lines are served, as far as it leaves room for the replies.
        time.sleep(0.5)
        later = metric(self.folder, 'ixm_front_requests_total{request="status",reply="status"}') or 0
        self.assertEqual(later, handled)

    def test_places_of_clients_that_are_gone_are_free(self) -> None:
        """Two processes take all places, fill their sockets and end: the next one is let in at once."""
        front = self.paged(self.manager().path, "--clients", "100", "--each", "50", "--user", "100", "--kept", "0")
        processes = [filler(front.path, 50, "status") for _ in range(2)]
        wait_until(lambda: "clients 100\n" in page(self.folder, "/health"), "all places are taken")
        for process in processes:
            end(process)
        start = time.monotonic()
        while True:
            with Client(front.path) as client:
                try:
                    if client.request("may do(a)") == "yes":
                        break
                except OSError:
                    pass
            self.assertLess(time.monotonic() - start, 20)
            time.sleep(0.02)

    def test_what_was_told_or_given_back_still_counts(self) -> None:
        front = self.front(self.manager().path)
        with Client(front.path) as other:
            for name in ("n", "m"):
                self.assertEqual(other.request(f"watch {name} do(w)"), "watching yes")
            leaving = Client(front.path)
            ticket = leaving.ticket("do(a)")
            leaving.send(*["status"] * 50, "ask do(never) 60000", "drop n do(w)", f"confirm {ticket}", "watch x do(x)")
            leaving.close()
            wait_until(lambda: other.told("status").split()[2] == "1", "the confirm is handled")
            self.assertEqual(other.request("log 1"), "entry 1 do(a)")
            wait_until(lambda: other.request("drop n do(w)") == "refused 41 no such watch", "the drop is handled")
            self.assertEqual(other.request("drop m do(w)"), "dropped")
            self.assertEqual(other.request("drop x do(x)"), "refused 41 no such watch")
            self.assertTrue(other.told("ask do(b) 1000").startswith("granted "))
        found = records(self.folder, lambda found: any(it.get("request") == f"confirm {ticket}" for it in found))
        self.assertFalse([it for it in found if "never" in it.get("request", "")])

    def test_many_that_wait_and_close_at_once(self) -> None:
        """A thousand asks wait; their clients close at once, and another is answered soon."""
        front = self.paged(self.manager().path, "--clients", "1100", "--each", "1100", "--user", "1100")
        with Client(front.path) as holder, Client(front.path) as other:
            ticket = holder.ticket("do(a)")
            process = filler(front.path, 0)
            clients = [socket.socket(socket.AF_UNIX) for _ in range(900)]
            for client in clients:
                client.connect(front.path)
                client.sendall(b"ask do(w) 60000\n")
            wait_until(lambda: "waiting 900\n" in page(self.folder, "/health"), "they wait")
            for client in clients:
                client.close()
            start = time.monotonic()
            self.assertEqual(other.request("may do(a)"), "yes")
            self.assertLess(time.monotonic() - start, 5)
            self.assertEqual(holder.request(f"confirm {ticket}"), "confirmed 1")
            self.assertTrue(other.told("ask do(b) 1000").startswith("granted "))
            end(process)


class Limits(Place):
    def test_what_is_turned_away_is_told(self) -> None:
        front = self.paged(self.manager().path, "--clients", "10", "--each", "4", "--user", "6", "--kept", "2")
        wait_until(lambda: "clients 0\n" in page(self.folder, "/health"), "the first connection of this test is over")
        processes = [filler(front.path, 4) for _ in range(2)]
        with Client(front.path) as client:
            self.assertIsNone(client.reply())
        wait_until(lambda: metric(self.folder, 'ixm_front_turned_away_total{limit="user"}') == 3, "it is counted")
        for process in processes:
            end(process)
        found = records(self.folder, lambda found: any(it["event"] == "turned away" for it in found if "event" in it))
        away = [it for it in found if it.get("event") == "turned away"]
        self.assertEqual({it["limit"] for it in away}, {"user"})
        self.assertEqual(sum(it["count"] for it in away), 3)
        self.assertEqual({it["uid"] for it in away}, {os.getuid()})

    @unittest.skipUnless(os.getuid() == 0, "clients of other users are made by root")
    def test_one_user_cannot_shut_out_another(self) -> None:
        front = self.paged(self.manager().path, "--clients", "10", "--each", "50", "--user", "50", "--kept", "2",
                           "--mode", "666")
        processes = [filler(front.path, 20, user=12345), filler(front.path, 20, user=12346)]
        wait_until(lambda: "clients 9\n" in page(self.folder, "/health"), "of the last two places one is taken")
        with Client(front.path) as client:
            # This user has no connection yet, so the last place is for it.
            self.assertEqual(client.request("may do(a)"), "yes")
            with Client(front.path) as second:
                self.assertIsNone(second.reply())
        for process in processes:
            end(process)
