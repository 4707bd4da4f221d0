"""A front that is started again by systemd hands this machine's clients over to the next one, and cuts nobody off."""

from __future__ import annotations

import array
import fcntl
import os
import signal
import socket
import subprocess
import sys
import threading
import time

from .support import AUDIT, FRONT, TIMEOUT, Client, Manager, Place, page, read_records, wait_until

# Gives the open files that it is told the numbers from 3 on, and becomes the front.
STARTER = ("import os, sys; files = sys.argv[1].split(','); "
           "[os.dup2(int(file), 3 + place) for place, file in enumerate(files)]; "
           "os.environ['LISTEN_PID'] = str(os.getpid()); os.execv(sys.argv[2], sys.argv[2:])")


class Systemd(threading.Thread):
    """What systemd does for a front: listens for it, keeps what it hands over, and starts it with all of that."""

    def __init__(self, folder: str, manager: str, *options: str) -> None:
        super().__init__(daemon=True)
        self.folder = folder
        self.words = [FRONT, manager, "--log", f"{folder}/log", *options]
        self.sock = socket.socket(socket.AF_UNIX)
        self.sock.bind(f"{folder}/front")
        self.sock.listen(64)
        self.told = socket.socket(socket.AF_UNIX, socket.SOCK_DGRAM)
        self.told.bind(f"{folder}/told")
        self.kept: list[tuple[str, int]] = []
        self.said: list[str] = []
        self.process: subprocess.Popen[bytes] | None = None
        self.start()

    def run(self) -> None:
        """Hears what the front says."""
        room = socket.CMSG_SPACE(4 * 200)
        while (message := self.told.recvmsg(4096, room))[0] != b"end":
            lines = dict(line.split("=", 1) for line in message[0].decode().split("\n"))
            files = array.array("i")
            for _, _, data in message[1]:
                files.frombytes(data)
            if "FDSTORE" in lines:
                self.kept += [(lines["FDNAME"], file) for file in files]
            if "FDSTOREREMOVE" in lines:
                for name, file in [each for each in self.kept if each[0] == lines["FDNAME"]]:
                    os.close(file)
                    self.kept.remove((name, file))
            self.said.append(message[0].decode())

    def begin(self) -> None:
        """Starts a front, and waits until it is ready."""
        self.said.clear()
        given = [("front", self.sock.fileno()), *self.kept]
        files = [fcntl.fcntl(file, fcntl.F_DUPFD, 1000) for _, file in given]  # out of the way of 3 and those behind it
        environment = {**os.environ, "LISTEN_FDS": str(len(given)), "LISTEN_FDNAMES": ":".join(name for name, _ in given),
                       "NOTIFY_SOCKET": f"{self.folder}/told"}
        words = [sys.executable, "-c", STARTER, ",".join(map(str, files)), *self.words]
        self.process = subprocess.Popen(words, pass_fds=files, env=environment)
        for file in files:
            os.close(file)
        wait_until(lambda: "READY=1" in self.said, "the front is ready")

    def end(self) -> int:
        """Ends the front, and gives its status."""
        assert self.process is not None
        self.process.terminate()
        status = self.process.wait(TIMEOUT)
        with socket.socket(socket.AF_UNIX, socket.SOCK_DGRAM) as sock:
            wait_until(lambda: "STOPPING=1" in self.said, "it says that it ends")
            sock.sendto(b"HEARD=1", f"{self.folder}/told")
        wait_until(lambda: "HEARD=1" in self.said, "all that it said is heard")
        return status

    def close(self) -> None:
        """Ends everything."""
        if self.process is not None and self.process.poll() is None:
            self.process.kill()
            self.process.wait()
        with socket.socket(socket.AF_UNIX, socket.SOCK_DGRAM) as sock:
            sock.sendto(b"end", f"{self.folder}/told")
        self.join(TIMEOUT)
        for _, file in self.kept:
            os.close(file)
        self.sock.close()
        self.told.close()


class HandedOver(Place):
    run_of: Manager

    def systemd(self, *options: str) -> Systemd:
        self.run_of = self.manager()
        systemd = Systemd(self.folder, self.run_of.path, "--page", f"{self.folder}/page", *options)
        self.addCleanup(systemd.close)
        systemd.begin()
        return systemd

    def again(self, systemd: Systemd) -> None:
        self.assertEqual(systemd.end(), 0)
        systemd.begin()

    def test_whoever_is_connected_stays_so(self) -> None:
        """One that is idle, one that holds a ticket, one with half a line, and one that doesn't want to wait."""
        systemd = self.systemd()
        idle, holder, half, rude = (self.client(f"{self.folder}/front") for _ in range(4))
        for client in (idle, half):
            self.assertEqual(client.request("may do(a)"), "yes")
        self.assertEqual(rude.request("front wait 0"), "yes")
        ticket = holder.ticket("do(a)")
        half.sock.sendall(b"may do(")
        time.sleep(0.2)
        self.again(systemd)
        self.assertEqual([name for name, _ in systemd.kept], [])
        self.assertEqual(idle.request("may do(b)"), "yes")
        self.assertTrue(rude.told("ask do(b) 1000").startswith("refused 20 busy until "))
        half.send("c)")
        self.assertEqual(half.reply(), "yes")
        # The one that holds the reservation doesn't wait for itself.
        self.assertTrue(holder.told("ask do(b) 1000").startswith("refused 20 busy until "))
        self.assertEqual(holder.request(f"confirm {ticket}"), "confirmed 1")
        idle.close()
        wait_until(lambda: "clients 3\n" in page(self.folder, "/health"), "one that closes is gone")

    def test_asks_keep_their_places(self) -> None:
        systemd = self.systemd()
        holder = self.client(f"{self.folder}/front")
        ticket = holder.ticket("do(a)")
        clients = [self.client(f"{self.folder}/front") for _ in range(12)]
        for number, client in enumerate(clients):
            client.send(f"ask do(w{number}) 60000", "status")
            wait_until(lambda: f"waiting {number + 1}\n" in page(self.folder, "/health"), "it waits")
        self.again(systemd)
        wait_until(lambda: "waiting 12\n" in page(self.folder, "/health"), "they wait again")
        for number, client in enumerate(clients):
            self.assertEqual(holder.request(f"confirm {ticket}"), f"confirmed {number + 1}")
            ticket = (client.reply() or "").removeprefix("granted ")
            self.assertTrue((client.reply() or "").startswith("status "))
            holder = client
        found = [it["request"] for it in read_records(f"{self.folder}/log") if it.get("reply", "").startswith("granted ")]
        self.assertEqual(found[1:], [f"ask do(w{number}) 60000" for number in range(len(found) - 1)])

    def test_tickets_stay_whose_they_are(self) -> None:
        """Also with a policy, by which one from before a front's start is nobody's else."""
        with open(f"{self.folder}/policy", "w") as file:
            file.write(f"user {os.getuid()} requests all actions *\n")
        systemd = self.systemd("--policy", f"{self.folder}/policy")
        client = self.client(f"{self.folder}/front")
        ticket = client.ticket("do(a)")
        self.again(systemd)
        self.assertEqual(client.request(f"confirm {ticket}"), "confirmed 1")

    def test_a_reply_that_is_due_comes_first(self) -> None:
        """Many at once, again and again: each line gets its one reply, whatever it was at."""
        systemd = self.systemd()
        clients = [self.client(f"{self.folder}/front") for _ in range(20)]
        for turn in range(3):
            for client in clients:
                client.send(*["may do(a)"] * 30)
            self.again(systemd)
            for client in clients:
                self.assertEqual([client.reply() for _ in range(30)], ["yes"] * 30)

    def test_a_wait_is_no_unfinished_line(self) -> None:
        """An ask that has waited for long stays, while the front waits in vain for another client's reply."""
        systemd = self.systemd("--line-time", "0.5", "--again", "60000")
        holder, waiting, due = (self.client(f"{self.folder}/front") for _ in range(3))
        ticket = holder.ticket("do(a)")
        waiting.send("ask do(b) 60000")
        time.sleep(1)
        os.kill(self.run_of.pid, signal.SIGSTOP)
        try:
            due.send("status")
            time.sleep(0.2)
            self.assertEqual(systemd.end(), 0)
            self.assertIsNone(due.reply())
        finally:
            os.kill(self.run_of.pid, signal.SIGCONT)
        systemd.begin()
        self.assertEqual(holder.request(f"confirm {ticket}"), "confirmed 1")
        self.assertTrue((waiting.reply() or "").startswith("granted "))

    def test_engines_go_on_over_restarts(self) -> None:
        self.go_on(self.systemd())

    def test_engines_go_on_where_the_log_must_have_all(self) -> None:
        self.go_on(self.systemd("--log-must"))

    def go_on(self, systemd: Systemd) -> None:
        """Engines keep their connections over restarts, and what they are told is so."""
        told: list[int] = []
        ends = threading.Event()
        engines = [threading.Thread(target=self.work, args=(number, ends, told)) for number in range(8)]
        for engine in engines:
            engine.start()
        try:
            for _ in range(3):
                time.sleep(0.5)
                self.again(systemd)
        finally:
            ends.set()
            for engine in engines:
                engine.join(TIMEOUT)
        self.assertEqual(systemd.end(), 0)
        self.assertEqual(sorted(told), list(range(1, len(told) + 1)))
        self.assertGreater(len(told), 20)
        said = subprocess.run([AUDIT, f"{self.folder}/journal", f"{self.folder}/log"], stdout=subprocess.PIPE, text=True)
        self.assertEqual(said.returncode, 0, said.stdout[-1000:])

    def work(self, number: int, ends: threading.Event, told: list[int]) -> None:
        """Does one action after the other over one connection; ends at once where it is told something else."""
        with Client(f"{self.folder}/front") as client:
            count = 0
            while not ends.is_set():
                count += 1
                reply = client.told(f"confirm {client.ticket(f'do(e{number}_{count})')}")
                if not reply.startswith("confirmed "):
                    raise AssertionError(reply)
                told.append(int(reply.split()[1]))

    def test_where_systemd_keeps_nothing_they_are_closed(self) -> None:
        systemd = self.systemd()
        with Client(f"{self.folder}/front") as client:
            self.assertEqual(client.request("may do(a)"), "yes")
            self.assertEqual(systemd.end(), 0)
            while systemd.kept:
                os.close(systemd.kept.pop()[1])
            self.assertIsNone(client.reply())
