"""Two hundred processes: nobody is starved, and through kills of the manager and of the front nothing is lost and
nothing is confirmed twice."""

from __future__ import annotations

import json
import multiprocessing
import random
import signal
import time
from collections.abc import Callable
from multiprocessing.connection import Connection
from typing import Any

from .replayed import check_run
from .support import Client, Managed, wait_until
from .tap import Tap

ENGINES = 200
LEASE = 5000  # milliseconds
Moment = Any  # a number that processes share
Told = tuple[list[tuple[int, str]], list[str]]


def engine(number: int, path: str, begin: Moment, end: Moment, pipe: Connection) -> None:
    """Asks and confirms until the end, each time an action of its own. Puts what it was answered `confirmed` with the
    number, and what it sent a confirm of."""
    confirmed: list[tuple[int, str]] = []
    sent: list[str] = []
    count = 0
    while time.monotonic() < begin.value:
        time.sleep(0.01)
    while time.monotonic() < end.value:
        try:
            with Client(path) as client:
                while time.monotonic() < end.value:
                    count += 1
                    action = f"do(e{number}_{count})"
                    ticket = client.told(f"ask {action} {LEASE}").removeprefix("granted ")
                    sent.append(action)
                    reply = client.told(f"confirm {ticket}")
                    if reply.startswith("confirmed "):
                        confirmed.append((int(reply.split()[1]), action))
        except OSError:
            # Closed in front of a reply.
            time.sleep(0.05)
    pipe.send_bytes(json.dumps((confirmed, sent)).encode())
    pipe.close()


class Many(Managed):
    def engines(self, path: str, seconds: float, meanwhile: Callable[[float], None] = lambda end: None) -> list[Told]:
        """What the engines were answered and sent, each for itself."""
        fork = multiprocessing.get_context("fork")
        begin, end = fork.Value("d", float("inf"), lock=False), fork.Value("d", float("inf"), lock=False)
        processes, pipes = [], []
        for number in range(ENGINES):
            receiver, sender = fork.Pipe(duplex=False)
            processes.append(fork.Process(target=engine, args=(number, path, begin, end, sender)))
            processes[-1].start()
            sender.close()
            pipes.append(receiver)
        begin.value = time.monotonic()
        end.value = begin.value + seconds
        meanwhile(end.value)
        told = [json.loads(pipe.recv_bytes()) for pipe in pipes]
        for process in processes:
            process.join()
        return told

    def check_log(self, told: list[Told]) -> int:
        """Each `confirmed N` is the log's N-th, each entry was sent, and none stands there twice. The front has ended."""
        with Client(self.run_of.path) as client:
            length = int(client.told("status").split()[2])
            log: list[str] = []
            for number in range(1, length + 1, 100):
                numbers = range(number, min(number + 100, length + 1))
                client.send(*(f"log {each}" for each in numbers))
                log += [(client.reply() or "").removeprefix(f"entry {each} ") for each in numbers]
        self.assertEqual(len(set(log)), length)
        self.assertLessEqual(set(log), {action for _, sent in told for action in sent})
        for confirmed, _ in told:
            for number, action in confirmed:
                self.assertEqual(log[number - 1], action)
        return length

    def test_nobody_is_starved(self) -> None:
        tap = Tap(f"{self.folder}/tap", self.run_of.path)
        self.addCleanup(tap.close)
        front = self.front(tap.path)
        told = self.engines(front.path, 5)
        done = [len(confirmed) for confirmed, _ in told]
        self.assertGreater(min(done), 0)
        self.assertLessEqual(max(done), 2 * min(done))
        front.stop()
        session = tap.sessions[-1]
        wait_until(session.is_over.is_set, "the last replies")
        self.check_log(told)
        check_run(self, self.folder, self.run_of.runs[0], [session.pairs()])
        self.assertFalse([pair for pair in session.pairs() if pair[1] and pair[1].startswith(b"refused ")])

    def test_kills_of_the_manager_and_of_the_front(self) -> None:
        tap = Tap(f"{self.folder}/tap", self.run_of.path)
        self.addCleanup(tap.close)
        front = self.front(tap.path)
        runs = [len(tap.sessions)]  # behind each kill of the manager: the sessions so far
        rng = random.Random(3)

        def kill(end: float) -> None:
            for turn in range(6):
                time.sleep(0.5 + rng.random() / 2)
                if turn % 2:
                    front.stop(signal.SIGKILL)
                    front.start()
                else:
                    self.run_of.kill()
                    wait_until(lambda: all(session.is_over.is_set() for session in tap.sessions), "the tap has all")
                    runs.append(len(tap.sessions))
                    self.run_of.start()

        told = self.engines(front.path, 6, kill)
        front.stop()
        wait_until(lambda: all(session.is_over.is_set() for session in tap.sessions), "the tap has all")
        length = self.check_log(told)
        self.assertGreaterEqual(length, sum(len(confirmed) for confirmed, _ in told))
        self.assertGreater(length, 0)
        runs.append(len(tap.sessions))
        bounds = [0, *runs[1:]]
        for journal, first, behind in zip(self.run_of.runs, bounds, bounds[1:]):
            check_run(self, self.folder, journal, [session.pairs() for session in tap.sessions[first:behind]])
