"""What a fault of the front's own leads to: it ends with 1, to be started again, or the fault costs one connection."""

from __future__ import annotations

import fcntl
import os
import resource
import signal
import socket
import subprocess
import time

from .support import HERE, TIMEOUT, Client, Front, Managed, Place, listens, metric, page, read_records, records, wait_until

# Each task of its own and each call that comes from outside, with what raises there.
ENDING = ("link.Link._connect", "front.Front.sweep", "front.Front.ask_status", "pages.Pages.write", "front.Front.take",
          "front.Front.replied", "link.Link.flush", "log.LogFile.put", "log.LogFile.rendered", "front.Front.welcome",
          "asks.Asks._look", "main.Program.look_at_names", "main.notify", "front.Front.read_policy", "log.LogFile.open_again")


class Faults(Managed):
    def faulty(self, name: str, fault: str, *options: str) -> Front:
        """A front in which this function raises as soon as the file `now` is there."""
        front = Front(self.folder, self.run_of.path, "--page", f"{self.folder}/page", "--every", "0.2", *options)
        front.words[:1] = [f"{HERE}/faulty", name, fault, f"{self.folder}/now"]
        front.environment = {**os.environ, "WATCHDOG_USEC": "200000"}
        front.stderr = subprocess.DEVNULL
        self.addCleanup(front.stop, signal.SIGKILL)
        return front.start()

    def work(self, front: Front) -> None:
        """Has all parts of a front do something, until it ends."""
        end = time.monotonic() + TIMEOUT / 2
        while front.status() is None and time.monotonic() < end:
            os.kill(front.pid, signal.SIGHUP)
            try:
                with Client(front.path, timeout=2) as holder, Client(front.path, timeout=2) as other:
                    other.request("front wait 10")
                    ticket = holder.ticket("do(a)", 300)
                    other.request("ask do(b) 300")
                    holder.request(f"confirm {ticket}")
            except (OSError, AssertionError):
                pass
            time.sleep(0.05)

    def test_a_fault_of_its_own_ends_it_with_1(self) -> None:
        for name in ENDING:
            with self.subTest(name):
                front = self.faulty(name, "ValueError", "--file", f"{self.folder}/file")
                with open(f"{self.folder}/now", "w"):
                    pass
                if name == "link.Link._connect":
                    self.run_of.kill()
                    self.run_of.start()
                self.work(front)
                os.unlink(f"{self.folder}/now")
                self.assertEqual(front.status(), 1)
                self.assertFalse(os.path.exists(f"{self.folder}/file"), "the metrics tell of nobody")
                front.process = None
                if not name.startswith("log."):
                    self.assertEqual(read_records(f"{self.folder}/log")[-1]["event"], "fault")

    def test_a_fault_at_a_page_costs_its_reader_the_page(self) -> None:
        front = self.faulty("pages.Pages.page", "ValueError")
        with open(f"{self.folder}/now", "w"):
            pass
        self.assertEqual(page(self.folder, "/metrics"), "")
        self.assertIn(" 200 OK", page(self.folder, "/live"))
        self.assertEqual(metric(self.folder, "ixm_front_faults_passed_total"), 1)
        self.assertEqual(front.stop(), 0)

    def test_no_open_file_is_free_as_the_manager_ends(self) -> None:
        front = self.front(self.run_of.path, "--page", f"{self.folder}/page")
        with Client(front.path) as client:
            self.assertEqual(client.request("may do(a)"), "yes")
            before = front.allow(resource.RLIMIT_NOFILE, 5)
            self.run_of.kill()
            self.run_of.start()
            time.sleep(1)
            front.allow(resource.RLIMIT_NOFILE, before)
            self.assertEqual(client.request("may do(a)"), "yes")
        wait_until(lambda: " 200 OK" in page(self.folder, "/health"), "all is well again")

    def test_readers_of_the_page_do_not_end_it(self) -> None:
        """With no open file left, more connections come to the page and to the front."""
        front = self.front(self.run_of.path, "--page", f"{self.folder}/page")
        before = front.allow(resource.RLIMIT_NOFILE, 60)
        socks = [socket.socket(socket.AF_UNIX) for _ in range(300)]
        with Client(front.path) as client:
            self.assertEqual(client.request("may do(a)"), "yes")
            for place, sock in enumerate(socks):
                sock.connect(front.path if place % 2 else f"{self.folder}/page")
            time.sleep(0.5)
            self.assertEqual(client.request("may do(a)"), "yes")
            for sock in socks:
                sock.close()
            front.allow(resource.RLIMIT_NOFILE, before)
            self.assertEqual(client.request("may do(a)"), "yes")
        wait_until(lambda: " 200 OK" in page(self.folder, "/health"), "the page has places again")

    def test_readers_of_the_page_have_a_limit_of_their_own(self) -> None:
        """Those above it are closed at once and told in the log, and nobody else is kept waiting."""
        front = self.front(self.run_of.path, "--page", f"{self.folder}/page")
        socks = [socket.socket(socket.AF_UNIX) for _ in range(40)]
        for sock in socks:
            sock.settimeout(TIMEOUT)
            sock.connect(f"{self.folder}/page")
        self.assertEqual([sock.recv(1) for sock in socks[32:]], [b""] * 8)
        with Client(front.path) as client:
            self.assertEqual(client.request("may do(a)"), "yes")
        for sock in socks:
            sock.close()
        found = records(self.folder, lambda found: any(it.get("event") == "turned away" for it in found))
        away = [it for it in found if it.get("event") == "turned away"]
        self.assertEqual({(it["limit"], it["uid"], it["pid"]) for it in away}, {("readers", os.getuid(), os.getpid())})
        counted = 'ixm_front_turned_away_total{limit="readers"}'
        wait_until(lambda: (metric(self.folder, counted) or 0) >= 8, "it is counted")

    def test_the_file_of_its_socket_is_gone(self) -> None:
        front = Front(self.folder, self.run_of.path)
        front.stderr = subprocess.DEVNULL
        self.addCleanup(front.stop, signal.SIGKILL)
        front.start()
        os.unlink(front.path)
        wait_until(lambda: front.status() == 1, "it ends, since nobody finds it")
        front.process = None

    def test_the_metrics_cannot_be_written(self) -> None:
        front = self.front(self.run_of.path, "--file", f"{self.folder}/absent/file", "--every", "0.1")
        time.sleep(0.5)
        with Client(front.path) as client:
            self.assertEqual(client.request("may do(a)"), "yes")


class Doors(Place):
    def test_of_two_that_start_at_once_one_runs(self) -> None:
        manager = self.manager()
        fronts = [Front(self.folder, manager.path) for _ in range(4)]
        processes = [subprocess.Popen(front.words, stderr=subprocess.DEVNULL) for front in fronts]
        wait_until(lambda: sum(process.poll() is None for process in processes) == 1, "the others end")
        wait_until(lambda: listens(fronts[0].path), "one listens")
        self.assertEqual(sorted(process.poll() or 0 for process in processes), [0, 1, 1, 1])
        with Client(fronts[0].path) as client:
            self.assertEqual(client.request("may do(a)"), "yes")
        for process in processes:
            if process.poll() is None:
                process.terminate()
                self.assertEqual(process.wait(TIMEOUT), 0)
        self.assertFalse(os.path.exists(fronts[0].path))

    def test_the_modes_of_its_sockets(self) -> None:
        self.paged(self.manager().path, "--mode", "660", "--group", str(os.getgid()), "--page-mode", "644")
        self.assertEqual(os.stat(f"{self.folder}/front").st_mode & 0o777, 0o660)
        self.assertEqual(os.stat(f"{self.folder}/front").st_gid, os.getgid())
        self.assertEqual(os.stat(f"{self.folder}/page").st_mode & 0o777, 0o644)

    def test_sockets_that_are_handed_over_outlive_it(self) -> None:
        """As systemd does it: who connects while no front runs is served by the next one. It is told of each start."""
        manager = self.manager()
        paths = [f"{self.folder}/front", f"{self.folder}/page"]
        with socket.socket(socket.AF_UNIX, socket.SOCK_DGRAM) as told:
            told.bind(f"{self.folder}/told")
            told.settimeout(TIMEOUT)
            socks = [socket.socket(socket.AF_UNIX) for _ in paths]
            for sock, path in zip(socks, paths):
                sock.bind(path)
                sock.listen(16)
            for expected in ("yes", "no"):
                client = self.client(paths[0])
                client.send("may do(a)")
                process = self.started([sock.fileno() for sock in socks], manager.path)
                while (said := told.recv(4096)).startswith(b"FDSTORE=1\n"):
                    pass  # what the one before handed over, which nobody keeps here
                self.assertEqual(said, b"READY=1")
                self.assertEqual(told.recv(4096), b"WATCHDOG=1")
                self.assertEqual(client.reply(), "yes", expected)
                self.assertIn("the front answers\n", page(self.folder, "/live"))
                process.terminate()
                self.assertEqual(process.wait(TIMEOUT), 0)
                while told.recv(4096) != b"STOPPING=1":
                    pass
                self.assertTrue(all(map(os.path.exists, paths)))
            for sock in socks:
                sock.close()

    def started(self, files: list[int], manager: str) -> subprocess.Popen[bytes]:
        """A front to which these open files are handed over, as 3 and 4."""
        script = ('import os, sys; os.dup2(int(sys.argv[1]), 3); os.dup2(int(sys.argv[2]), 4); '
                  'os.environ["LISTEN_PID"] = str(os.getpid()); os.execv(sys.argv[3], sys.argv[3:])')
        high = [fcntl.fcntl(file, fcntl.F_DUPFD, 10) for file in files]  # out of the way of 3 and 4
        environment = {**os.environ, "LISTEN_FDS": "2", "LISTEN_FDNAMES": "ixm-front.socket:page",
                       "NOTIFY_SOCKET": f"{self.folder}/told", "WATCHDOG_USEC": "200000"}
        words = ["python3", "-c", script, *map(str, high), f"{HERE}/../ixm-front", manager, "--log", f"{self.folder}/log"]
        process = subprocess.Popen(words, pass_fds=high, env=environment)
        for file in high:
            os.close(file)
        return process
