"""The pages and the file of metrics, the rules for alerts, and the dashboard."""

from __future__ import annotations

import json
import os
import re
import shutil
import signal
import socket
import subprocess
import time
import unittest
import urllib.error
import urllib.request

from .support import FRONT, HERE, Client, Place, metric, page, wait_until

MONITORING = f"{HERE}/../monitoring"
OWN = re.compile(r"\b(?:ixm|process)_[a-z_]+")


def free_port() -> int:
    """A port on which nobody listens."""
    with socket.socket() as sock:
        sock.bind(("127.0.0.1", 0))
        return int(sock.getsockname()[1])


class Metrics(Place):
    def test_up_is_health_and_the_file_is_removed(self) -> None:
        manager = self.manager()
        front = self.paged(manager.path, "--file", f"{self.folder}/ixm.prom", "--every", "0.2")
        wait_until(lambda: os.path.exists(f"{self.folder}/ixm.prom"), "the file is written")
        wait_until(lambda: metric(self.folder, "ixm_front_up") == 1, "the manager answers")
        self.assertEqual(metric(self.folder, "ixm_history_length"), 0)
        os.kill(manager.pid, signal.SIGSTOP)
        try:
            wait_until(lambda: metric(self.folder, "ixm_front_up") == 0, "the manager has hung")
            self.assertIn(" 503 ", page(self.folder, "/ready"))
            self.assertIn(" 200 OK", page(self.folder, "/live"))
        finally:
            os.kill(manager.pid, signal.SIGCONT)
        wait_until(lambda: metric(self.folder, "ixm_front_up") == 1, "it goes on")
        manager.kill()
        wait_until(lambda: metric(self.folder, "ixm_front_up") == 0, "the manager is gone")
        self.assertIsNone(metric(self.folder, "ixm_history_length"))
        front.stop()
        self.assertFalse(os.path.exists(f"{self.folder}/ixm.prom"))

    def test_what_the_alerts_look_at(self) -> None:
        manager = self.manager()
        front = self.paged(manager.path, "--nodes", "5000")
        with Client(front.path) as holder, Client(front.path) as waiting:
            holder.request("watch n do(a)")
            holder.ticket("do(a)")
            waiting.send("ask do(b) 1000")
            wait_until(lambda: metric(self.folder, "ixm_front_waiting") == 1, "it waits")
            time.sleep(0.2)
            self.assertGreater(metric(self.folder, "ixm_front_oldest_wait_seconds") or 0, 0.1)
            holder_of = f'ixm_reservation_age_seconds{{user="uid {os.getuid()}"}}'
            self.assertGreater(metric(self.folder, holder_of) or 0, 0.1)
            for name, value in (("ixm_watches", 1), ("ixm_watches_limit", 4096), ("ixm_boots", 1),
                                ("ixm_boots_limit", 1000000), ("ixm_history_limit", 1000000), ("ixm_nodes_limit", 5000),
                                ("ixm_front_log_well", 1)):
                self.assertEqual(metric(self.folder, name), value, name)

    def test_the_page_on_this_machines_network(self) -> None:
        port = free_port()
        front = self.front(self.manager().path, "--page", f"127.0.0.1:{port}")
        with Client(front.path) as client:
            self.assertEqual(client.request("may do(a)"), "yes")
        url = f"http://127.0.0.1:{port}"
        with urllib.request.urlopen(f"{url}/metrics?name=x") as reply:
            self.assertIn(b"\nixm_front_up 1\n", reply.read())
        with urllib.request.urlopen(urllib.request.Request(f"{url}/ready", method="HEAD")) as reply:
            self.assertEqual((reply.status, reply.read()), (200, b""))
        with self.assertRaises(urllib.error.HTTPError) as other:
            urllib.request.urlopen(urllib.request.Request(f"{url}/ready", method="POST"))
        self.assertEqual(other.exception.code, 405)
        other.exception.close()
        front.stop()
        words = [FRONT, "manager", "front", "--page", "0.0.0.0:9464"]
        self.assertEqual(subprocess.run(words, stderr=subprocess.DEVNULL, timeout=60).returncode, 2)

    def test_the_version(self) -> None:
        told = subprocess.run([FRONT, "--version"], stdout=subprocess.PIPE, text=True, timeout=60).stdout
        self.assertRegex(told, r"^ixm-front (unknown|[0-9]+\.[0-9]+\S*)\n$")


class Rules(Place):
    def names_told(self) -> set[str]:
        """The names of the metrics that a front tells once it has done everything."""
        with open(f"{self.folder}/records", "w", encoding="ascii") as file:
            file.write("1 1\n")
        front = self.paged(self.manager().path, "--allow-stop", "--records", f"{self.folder}/records")
        with Client(front.path) as client:
            client.request("ask do(a) 60000")
            text = page(self.folder, "/metrics")
        return {name for name in OWN.findall(text)}

    def test_each_metric_of_the_rules_and_the_dashboard_is_told(self) -> None:
        told = self.names_told()
        with open(f"{MONITORING}/rules.yml") as file:
            rules = [line.partition("expr:")[2] for line in file if "expr:" in line]
        self.assertGreater(len(rules), 8)
        with open(f"{MONITORING}/dashboard.json") as file:
            panels = json.load(file)["panels"]
        asked = [target["expr"] for panel in panels for target in panel.get("targets", ())]
        self.assertGreater(len(asked), 8)
        for expression in (*rules, *asked):
            self.assertLessEqual(set(OWN.findall(expression)), told, expression)
        self.assertEqual(len({panel["id"] for panel in panels}), len(panels))

    @unittest.skipUnless(shutil.which("promtool"), "promtool isn't installed")
    def test_the_rules_fire_where_they_should(self) -> None:
        for words in (["check", "rules", "rules.yml"], ["test", "rules", "rules_test.yml"]):
            ran = subprocess.run(["promtool", *words], cwd=MONITORING, text=True,
                                 stdout=subprocess.PIPE, stderr=subprocess.STDOUT)
            self.assertEqual(ran.returncode, 0, ran.stdout)

    @unittest.skipUnless(shutil.which("promtool"), "promtool isn't installed")
    def test_the_metrics_are_in_the_form_that_is_read(self) -> None:
        front = self.paged(self.manager().path)
        with Client(front.path) as client:
            client.request("ask do(a) 60000")
            text = page(self.folder, "/metrics").partition("\n\n")[2]
        ran = subprocess.run(["promtool", "check", "metrics"], input=text, stdout=subprocess.PIPE,
                             stderr=subprocess.STDOUT, text=True)
        # 3 is told for matters of style alone.
        self.assertIn(ran.returncode, (0, 3), ran.stdout)
