"""Clients that mean no good cost the others nothing: the front's memory is bounded, and others are answered."""

from __future__ import annotations

import multiprocessing
import os
import resource
import socket
import time
from collections.abc import Callable
from multiprocessing.synchronize import Event

from .support import Client, Place, records

Hostility = Callable[[str, Event], None]

WITHIN = 0.1  # seconds in which others are answered, beside what they take without anybody hostile
TRIES = 10
MEMORY = 40 << 20  # bytes by which the front may grow
GIGABYTE = 1 << 30


def open_files(wanted: int) -> int:
    """Lets this process have so many open files, or as many as it may; gives how many."""
    _, hard = resource.getrlimit(resource.RLIMIT_NOFILE)
    allowed = wanted if hard == resource.RLIM_INFINITY else min(wanted, hard)
    resource.setrlimit(resource.RLIMIT_NOFILE, (allowed, hard))
    return allowed


def endless_line(path: str, ready: Event) -> None:
    """Sends a gigabyte with no line end."""
    data = b"x" * (1 << 20)
    with socket.socket(socket.AF_UNIX) as sock:
        sock.connect(path)
        sock.settimeout(60)
        ready.set()
        for _ in range(GIGABYTE // len(data)):
            sock.sendall(data)
        sock.sendall(b"\nmay do(a)\n")
        told = sock.makefile("rb")
        if (told.readline(), told.readline()) != (b"refused 10 line too long\n", b"yes\n"):
            raise SystemExit("a gigabyte was answered otherwise")


def connect_often(path: str, ready: Event) -> None:
    """Opens ten thousand connections and keeps them."""
    count = min(10000, open_files(10100) - 100)
    kept = []
    for number in range(count):
        sock = socket.socket(socket.AF_UNIX)
        sock.connect(path)
        kept.append(sock)
        if number == 500:
            ready.set()
    time.sleep(0.5)
    for sock in kept:
        sock.close()


def read_slowly(path: str, ready: Event) -> None:
    """Asks for much and reads a byte at a time."""
    socks = [socket.socket(socket.AF_UNIX) for _ in range(5)]
    for sock in socks:
        sock.connect(path)
        sock.setblocking(False)
    ready.set()
    for _ in range(30):
        for sock in socks:
            try:
                sock.send(b"status\n" * 500)
            except OSError:
                pass
            try:
                sock.recv(1)
            except OSError:
                pass
        time.sleep(0.05)
    for sock in socks:
        sock.close()


def send_slowly(path: str, ready: Event) -> None:
    """Sends a byte at a time, and half lines, and lines of 513 bytes."""
    socks = [socket.socket(socket.AF_UNIX) for _ in range(50)]
    for sock in socks:
        sock.connect(path)
    ready.set()
    for _ in range(30):
        for number, sock in enumerate(socks):
            try:
                sock.send(b"m" if number % 2 else b"x" * 513 + b"\n")
            except OSError:
                pass
        time.sleep(0.05)
    for sock in socks:
        sock.close()


def busy(path: str, ready: Event) -> None:
    """Takes as much of a processor as a hostile client, and connects to nobody."""
    ready.set()
    end = time.monotonic() + 1
    while time.monotonic() < end:
        socket.socket(socket.AF_UNIX).close()


class Hostile(Place):
    def setUp(self) -> None:
        super().setUp()
        self.through = self.front(self.manager().path, "--line-time", "30", "--read-time", "30")

    def answered(self, holds: Callable[[], bool]) -> list[float]:
        """How long requests of another take as long as this holds, one each 5 milliseconds."""
        took = []
        with Client(self.through.path) as client:
            while holds():
                start = time.monotonic()
                self.assertTrue(client.told("status").startswith("status "))
                took.append(time.monotonic() - start)
                time.sleep(0.005)
        return took

    def attack(self, hostile: Hostility) -> None:
        """The front's memory is bounded, and others are answered soon enough. The machine may be busy with other things,
        so the times are measured up to ten times."""
        for _ in range(TRIES):
            late = self.slowest(hostile)
            if late < WITHIN:
                return
        self.fail(f"others were answered {late} seconds later than without it")

    def slowest(self, hostile: Hostility) -> float:
        """How much later others were answered at worst than while a process that means no harm is as busy."""
        before = self.answered_beside(busy)
        memory = self.through.memory()
        meanwhile = self.answered_beside(hostile)
        self.assertGreater(len(meanwhile), 5)
        self.assertLess(self.through.memory() - memory, MEMORY)
        return max(meanwhile) - max(before)

    def answered_beside(self, other: Hostility) -> list[float]:
        """How long requests take while another process runs."""
        fork = multiprocessing.get_context("fork")
        ready = fork.Event()
        process = fork.Process(target=other, args=(self.through.path, ready))
        process.start()
        self.assertTrue(ready.wait(30))
        took = self.answered(process.is_alive)
        process.join()
        self.assertEqual(process.exitcode, 0)
        return took

    def test_a_gigabyte_with_no_line_end(self) -> None:
        self.attack(endless_line)

    def test_ten_thousand_connections(self) -> None:
        self.attack(connect_often)

    def test_replies_that_are_read_a_byte_at_a_time(self) -> None:
        self.attack(read_slowly)

    def test_bytes_that_come_one_at_a_time_and_lines_too_long(self) -> None:
        self.attack(send_slowly)

    def test_replies_that_nobody_reads_end_the_connection(self) -> None:
        self.through.stop()
        front = self.front(self.through.words[1], "--read-time", "0.5")
        with Client(front.path) as client:
            client.sock.setblocking(False)
            taken, end = 0, time.monotonic() + 0.4
            while time.monotonic() < end:
                try:
                    taken += client.sock.send(b"status\n" * 1000)
                except BlockingIOError:
                    time.sleep(0.001)
            # The system's buffers hold some hundred kilobytes.
            self.assertLess(taken, 1 << 20)
            records(self.folder, lambda found: any(it.get("cause") == "unread replies" for it in found))
        self.assertTrue(os.path.exists(front.path))
