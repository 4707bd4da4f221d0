"""A front and clients in namespaces of their own, as in containers: what is told of who they are, and who shares a limit."""

from __future__ import annotations

import os
import signal
import subprocess

from .support import Client, Front, Place, page, records, wait_until
from .test_policy import USER, Other


class Namespaces(Place):
    def within(self, *words: str) -> Front:
        """A front in namespaces of its own, before it starts."""
        if subprocess.run(["unshare", *words, "true"], stderr=subprocess.DEVNULL).returncode != 0:
            self.skipTest(f"unshare {' '.join(words)} fails here")
        front = Front(self.folder, self.manager().path, "--page", f"{self.folder}/page", "--mode", "666", "--each", "1",
                      "--user", "3")
        front.words[:0] = ["unshare", *words, "--kill-child"]
        self.addCleanup(front.stop, signal.SIGKILL)
        return front

    def test_processes_without_a_number_share_no_limit_of_one(self) -> None:
        """They are limited by their user alone, and the log has 0 for each."""
        front = self.within("--pid", "--fork").start()
        wait_until(lambda: "clients 0\n" in page(self.folder, "/health"), "the first connection of this test is over")
        clients = [self.client(front.path) for _ in range(3)]
        for client in clients:
            self.assertEqual(client.request("may do(a)"), "yes")
        with Client(front.path) as fourth:
            self.assertIsNone(fourth.reply())
        # A record of it comes with the next look at the limits.
        ticket = clients[0].ticket("do(a)")
        found = records(self.folder, lambda found: {"granted", "user"} <= {
            str(it.get("limit", it.get("reply"))).split()[0] for it in found})
        asked = next(it for it in found if it.get("reply") == f"granted {ticket}")
        self.assertEqual((asked["pid"], asked["uid"]), (0, os.getuid()))
        self.assertEqual({it["limit"] for it in found if it.get("event") == "turned away"}, {"user"})

    def test_a_front_that_cannot_tell_users_apart_says_so(self) -> None:
        if os.getuid() != 0:
            self.skipTest("clients of other users are made by root")
        front = self.within("--user", "--map-root-user", "--fork").start()
        other = Other(front.path, USER)
        self.addCleanup(other.close)
        ticket = other.request("ask do(a) 1000").split()[1]
        found = records(self.folder, lambda found: any(it.get("reply") == f"granted {ticket}" for it in found))
        self.assertIs(found[0]["sees_all_users"], False)
        self.assertNotEqual(next(it for it in found if "reply" in it)["uid"], USER)
