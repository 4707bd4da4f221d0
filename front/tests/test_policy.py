"""Who may do what: the policy, the limits for everybody, and what belongs to whom."""

from __future__ import annotations

import os
import signal
import subprocess
import sys
import time
import unittest

from .support import Client, Front, Place, metric, records, wait_until
from .test_restart import StandIn

USER = 12345

# Sends the lines that it reads over one connection, as another user, and puts each reply.
OTHER = """
import os, socket, sys
os.setgroups([]); os.setgid(int(sys.argv[2])); os.setuid(int(sys.argv[2]))
sock = socket.socket(socket.AF_UNIX)
sock.connect(sys.argv[1])
replies = sock.makefile("r")
for line in sys.stdin:
    sock.sendall(line.encode())
    print(replies.readline(), end="", flush=True)
"""


class Other:
    """A client of another user."""

    def __init__(self, path: str, user: int = USER) -> None:
        words = [sys.executable, "-c", OTHER, path, str(user)]
        self.process = subprocess.Popen(words, stdin=subprocess.PIPE, stdout=subprocess.PIPE, text=True)

    def request(self, line: str) -> str:
        """Sends a line, and gives its reply."""
        assert self.process.stdin is not None and self.process.stdout is not None
        self.process.stdin.write(f"{line}\n")
        self.process.stdin.flush()
        return self.process.stdout.readline().rstrip("\n")

    def close(self) -> None:
        """Ends it."""
        self.process.kill()
        self.process.communicate()


@unittest.skipUnless(os.getuid() == 0, "clients of other users are made by root")
class ByPolicy(Place):
    policy = f"""
# two users
user {USER} requests ask,confirm,cancel,watch,drop,poll,status  actions do($x) do(a,xray)  lease 5000  watches 2
user {os.getuid()} requests all  actions *
group 12399 requests status
"""

    def setUp(self) -> None:
        super().setUp()
        self.write(self.policy)
        self.run_of = self.manager()
        self.through = self.front(self.run_of.path, "--page", f"{self.folder}/page", "--mode", "666",
                                  "--policy", f"{self.folder}/policy")
        self.root = self.client(self.through.path)
        self.other = self.of()

    def of(self, user: int = USER) -> Other:
        other = Other(self.through.path, user)
        self.addCleanup(other.close)
        return other

    def write(self, text: str) -> None:
        with open(f"{self.folder}/policy", "w") as file:
            file.write(text)

    def read_again(self, event: str) -> None:
        """Has the file read again, and waits until that is told."""
        os.kill(self.through.pid, signal.SIGHUP)
        records(self.folder, lambda found: any(it.get("event") == event for it in found))

    def test_what_is_not_allowed_is_refused_and_logged(self) -> None:
        rows = (
            ("ask do(a) 5001", "refused 14 lease", "lease"),
            ("ask other(a) 1000", "refused 21 not permitted", "action"),
            ("ask do(a,lab) 1000", "refused 21 not permitted", "action"),
            ("may do(a)", "refused 11 word", "request"),
            ("log 1", "refused 11 word", "request"),
            ("watch n other(a)", "refused 40 watches full", "action"),
            ("drop n other(a)", "refused 41 no such watch", "action"),
            ("confirm 1-1", "refused 30 no such ticket", "ticket"),
            ("cancel 1-1", "refused 30 no such ticket", "ticket"),
        )
        for line, reply, _ in rows:
            self.assertEqual(self.other.request(line), reply, line)
        found = records(self.folder, lambda found: sum("denied" in it for it in found) == len(rows))
        self.assertEqual([(it["request"], it["reply"], it["denied"], it["uid"]) for it in found if "denied" in it],
                         [(*row, USER) for row in rows])
        self.assertEqual(metric(self.folder, 'ixm_front_denied_total{cause="action"}'), 4)
        self.assertTrue(self.other.request("ask do(a) 5000").startswith("granted "))

    def test_tickets_belong_to_whoever_got_them(self) -> None:
        mine = self.root.ticket("do(a)")
        for line in (f"cancel {mine}", f"confirm {mine}"):
            self.assertEqual(self.other.request(line), "refused 30 no such ticket")
        with Client(self.through.path) as again:  # another connection of the same user
            self.assertEqual(again.request(f"confirm {mine}"), "confirmed 1")
        theirs = self.other.request("ask do(b) 5000").split()[1]
        self.assertEqual(self.root.request(f"confirm {theirs}"), "refused 30 no such ticket")
        self.assertEqual(self.other.request(f"confirm {theirs}"), "confirmed 2")

    def test_names_of_watches_belong_to_whoever_has_them(self) -> None:
        self.assertEqual(self.root.request("watch n do(a)"), "watching yes")
        for line, reply in (("watch n do(b)", "refused 40 watches full"), ("drop n do(a)", "refused 41 no such watch"),
                            ("poll n", "changes 0"), ("watch m do(a)", "watching yes"), ("watch m do(b)", "watching yes"),
                            ("watch m do(a)", "watching yes"), ("watch m do(c)", "refused 40 watches full"),
                            ("drop m do(a)", "dropped"), ("watch m do(c)", "watching yes")):
            self.assertEqual(self.other.request(line), reply, line)
        self.assertEqual(self.root.request("drop n do(a)"), "dropped")
        # A name under which nothing is watched is free again.
        self.assertEqual(self.other.request("drop m do(b)"), "dropped")
        self.assertEqual(self.other.request("watch n do(b)"), "watching yes")

    def test_a_group_and_nobody(self) -> None:
        self.assertTrue(self.of(12399).request("status").startswith("status "))
        self.assertEqual(self.of(12388).request("status"), "refused 11 word")

    def test_it_is_read_again_and_a_bad_file_changes_nothing(self) -> None:
        self.write(f"user {USER} requests status\nuser {USER} wants everything\n")
        self.read_again("policy not read")
        found = records(self.folder, lambda found: True)
        why = next(it["why"] for it in found if it.get("event") == "policy not read")
        self.assertEqual(why, f"{self.folder}/policy:2: wants in place of `requests`, `actions`, `lease`, `watches` or "
                              "`asks`")
        self.assertEqual(metric(self.folder, "ixm_front_policy_well"), 0)
        ticket = self.other.request("ask do(a) 1000").split()[1]
        self.assertEqual(self.other.request(f"cancel {ticket}"), f"cancelled {ticket}")
        self.write(f"user {USER} requests may  actions do($x)\n")
        self.read_again("policy read")
        self.assertEqual(metric(self.folder, "ixm_front_policy_well"), 1)
        self.assertEqual(self.other.request("ask do(a) 1000"), "refused 11 word")
        self.assertEqual(self.other.request("may do(a)"), "yes")
        self.assertEqual(self.other.request("may do(a,b)"), "no")
        self.through.stop()
        self.write("nonsense\n")
        front = Front(self.folder, self.run_of.path, "--policy", f"{self.folder}/policy")
        ran = subprocess.run(front.words, stderr=subprocess.PIPE, text=True, timeout=60)
        self.assertEqual((ran.returncode, ran.stderr), (
            1, f"ixm-front: {self.folder}/policy:1: nonsense in place of `user`, `group`, `cert` or `anybody`\n"))


class ForEverybody(Place):
    def test_the_longest_lease(self) -> None:
        front = self.front(self.manager().path, "--lease", "2000")
        with Client(front.path) as client:
            for line in ("ask do(a) 2001", "ask do(a) 86400000"):
                self.assertEqual(client.request(line), "refused 14 lease")
            self.assertEqual(client.request("ask do(a) x"), "refused 13 number")
            self.assertTrue(client.told("ask do(a) 2000").startswith("granted "))

    def test_a_grant_whose_connection_closes_unspent(self) -> None:
        """With the option it is cancelled, unless its confirm was left behind."""
        front = self.front(self.manager().path, "--cancel-unspent")
        with Client(front.path) as other:
            with Client(front.path) as client:
                client.ticket("do(a)", 86400000)
            self.assertTrue(other.told("ask do(b) 60000").startswith("granted "))
            other.request("cancel 1-2")
            with Client(front.path) as client:
                client.send(f"confirm {client.ticket('do(c)', 86400000)}")
            self.assertTrue(other.told("ask do(d) 60000").startswith("granted "))
            self.assertEqual(other.request("log 1"), "entry 1 do(c)")

    def test_watches_of_gone_clients_are_forgotten(self) -> None:
        """Also over a restart of the manager; those of a client that is there stay."""
        manager = self.manager()
        front = self.paged(manager.path, "--idle-time", "3", "--watches", "20")
        with Client(front.path) as stays:
            self.assertEqual(stays.request("watch s do(a)"), "watching yes")
            with Client(front.path) as goes:
                for number in range(19):
                    self.assertEqual(goes.request(f"watch n do(w{number})"), "watching yes")
                self.assertEqual(goes.request("watch n do(more)"), "refused 40 watches full")
            manager.kill()
            manager.start()
            end = time.monotonic() + 60
            while metric(self.folder, "ixm_watches") != 1 and time.monotonic() < end:
                self.assertEqual(stays.request("poll s"), "changes 0")
                time.sleep(0.2)
            self.assertEqual(metric(self.folder, "ixm_watches"), 1)
            self.assertEqual(stays.request("drop n do(w1)"), "refused 41 no such watch")
            self.assertEqual(stays.request("watch n do(w1)"), "watching yes")
            self.assertEqual(stays.request("drop s do(a)"), "dropped")

    def test_replies_that_nobody_reads_are_bounded_together(self) -> None:
        """Ten leave some 700 kilobytes unread each, where a megabyte is the most: who has waited longest is cut off."""
        stand_in = StandIn(f"{self.folder}/stand-in")
        self.addCleanup(stand_in.close)
        action = f"do({','.join('v' * 32 for _ in range(4))})"
        stand_in.answers = {"poll n": "changes 4096\n" + "\n".join(f"yes {action}" for _ in range(4096)), "may a": "yes"}
        front = self.paged(stand_in.path, "--unread-all", str(1 << 20), "--read-time", "60")
        clients = [self.client(front.path) for _ in range(10)]
        for client in clients:
            client.send("poll n")
        cut_off = 'ixm_front_closed_total{cause="unread replies of all"}'
        wait_until(lambda: (metric(self.folder, cut_off) or 0) >= 8, "all but two are cut off")
        self.assertLessEqual(metric(self.folder, "ixm_front_unread_bytes") or 0, 1 << 20)
        self.assertIsNotNone(clients[-1].reply())
        with Client(front.path) as client:
            self.assertEqual(client.request("may a"), "yes")
