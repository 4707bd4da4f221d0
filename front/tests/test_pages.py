"""The log, the metrics and the health, how the front starts and ends, and its limits."""

from __future__ import annotations

import os
import signal
import subprocess
import time

from .support import Client, Place, listens, page, records, wait_until


class Pages(Place):
    def test_who_did_what(self) -> None:
        front = self.front(self.manager().path)
        with Client(front.path) as client:
            client.request("may do(a)")
            ticket = client.ticket("do(a)", 1000)
            client.request(f"confirm {ticket}")
            client.request("cancel 1-99")
            client.request("ask \u00e4 1")
        lines = records(self.folder, lambda found: sum("reply" in it for it in found) == 4)
        told = [(line["pid"], line["uid"], line["request"], line["reply"]) for line in lines if line.get("reply")]
        rows = (("ask do(a) 1000", f"granted {ticket}"), (f"confirm {ticket}", "confirmed 1"),
                ("cancel 1-99", "refused 30 no such ticket"), ("ask \\xc3\\xa4 1", "refused 12 action"))
        self.assertEqual(told, [(os.getpid(), os.getuid(), *row) for row in rows])
        self.assertTrue(all(line["ms"] >= 0 and line["time"].endswith("Z") for line in lines if line.get("reply")))

    def test_metrics_and_health(self) -> None:
        manager = self.manager()
        front = self.front(manager.path, "--page", f"{self.folder}/page", "--file", f"{self.folder}/file", "--every", "0.1")
        with Client(front.path) as client:
            ticket = client.ticket("do(a)", 1000)
            client.request(f"confirm {ticket}")
            client.request("confirm 1-99")
            wait_until(lambda: "\nixm_history_length 1\n" in page(self.folder, "/metrics"), "the status is asked for")
            wait_until(lambda: os.path.exists(f"{self.folder}/file"), "the file is written")
            head, _, text = page(self.folder, "/metrics").partition("\n\n")
            self.assertIn(" 200 OK", head)
            wanted = ("ixm_front_up 1", "ixm_history_length 1", "ixm_nodes 1", "ixm_complete 1", "ixm_front_clients 1",
                      'ixm_front_requests_total{request="ask",reply="granted"} 1',
                      'ixm_front_requests_total{request="confirm",reply="confirmed"} 1',
                      'ixm_front_requests_total{request="confirm",reply="30"} 1',
                      'ixm_front_confirm_seconds_bucket{le="+Inf"} 2', "ixm_front_confirm_seconds_count 2")
            for line in wanted:
                self.assertIn(line + "\n", text)
            with open(f"{self.folder}/file") as file:
                self.assertIn("ixm_front_up 1\n", file.read())
            self.assertIn("the manager answers\n", page(self.folder, "/health"))
            self.assertIn(" 404 ", page(self.folder, "/other"))
            os.kill(manager.pid, signal.SIGSTOP)
            try:
                client.send("may do(b)")
                # It is told without the manager, which answers nothing now.
                start = time.monotonic()
                page(self.folder, "/health")
                self.assertLess(time.monotonic() - start, 2)
            finally:
                os.kill(manager.pid, signal.SIGCONT)
            self.assertEqual(client.reply(), "yes")
            manager.kill()
            wait_until(lambda: " 503 " in page(self.folder, "/health"), "the manager is gone")

    def test_its_end_and_another_start(self) -> None:
        manager = self.manager()
        front = self.front(manager.path)
        with Client(front.path) as client:
            ticket = client.ticket("do(a)")
            second = subprocess.run(front.words, stderr=subprocess.DEVNULL, timeout=60)
            self.assertEqual(second.returncode, 1)
            self.assertEqual(front.stop(), 0)
            self.assertIsNone(client.reply())
        self.assertFalse(os.path.exists(front.path))
        front.start()
        front.stop(signal.SIGKILL)
        self.assertTrue(os.path.exists(front.path) and not listens(front.path))
        front.start()
        with Client(front.path) as client:
            # A reservation outlives the front, since it belongs to whoever presents its ticket.
            self.assertEqual(client.request(f"confirm {ticket}"), "confirmed 1")

    def test_a_reply_that_is_due_at_its_end(self) -> None:
        """It is waited for, also behind the next look at the limits and at the sockets' files, which are gone by then."""
        manager = self.manager()
        front = self.paged(manager.path)
        with Client(front.path) as client:
            self.assertEqual(client.request("may do(a)"), "yes")
            os.kill(manager.pid, signal.SIGSTOP)
            try:
                client.send("may do(b)")
                wait_until(lambda: "ixm_front_up 1\n" in page(self.folder, "/metrics"), "it is sent")
                os.kill(front.pid, signal.SIGTERM)
                time.sleep(1.2)
            finally:
                os.kill(manager.pid, signal.SIGCONT)
            self.assertEqual(client.reply(), "yes")
        self.assertEqual(front.stop(), 0)

    def test_stop_goes_through_where_it_is_allowed(self) -> None:
        manager = self.manager()
        front = self.front(manager.path)
        with Client(front.path) as client:
            self.assertEqual(client.request("stop"), "refused 11 word")
            self.assertEqual(client.request("stop now"), "refused 15 words")
        front.stop()
        with Client(self.front(manager.path, "--allow-stop").path) as client:
            self.assertEqual(client.request("stop"), "stopping")
        self.assertEqual(manager.wait(), 0)

    def test_limits_of_clients_and_of_time(self) -> None:
        front = self.front(self.manager().path, "--clients", "5", "--each", "3", "--line-time", "0.5", "--idle-time", "3",
                           "--page", f"{self.folder}/page")
        wait_until(lambda: "clients 0\n" in page(self.folder, "/health"), "the first connection of this test is over")
        clients = [self.client(front.path) for _ in range(3)]
        for client in clients:
            self.assertEqual(client.request("may do(a)"), "yes")
        with Client(front.path) as fourth:
            self.assertIsNone(fourth.reply())
        clients[0].sock.sendall(b"may do(")
        start = time.monotonic()
        self.assertIsNone(clients[0].reply())
        self.assertLess(time.monotonic() - start, 2.5)
        self.assertIsNone(clients[1].reply())
        with Client(front.path) as another:
            self.assertEqual(another.request("may do(a)"), "yes")
