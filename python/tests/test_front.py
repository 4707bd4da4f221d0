"""Engines behind the front of this repository, at a real manager: each action is done once, and an ask waits in the front's
line for its turn."""

import os
import subprocess
import sys
import threading
import unittest

from ixm import trials
from ixm.engine import Engine, MemoryStore

FRONT = os.path.join(os.path.dirname(os.path.abspath(__file__)), "..", "..", "front", "ixm-front")
ENGINES, EACH = 8, 4


class TestFront(unittest.TestCase):
    def test_many_engines(self) -> None:
        told: list[list[str]] = []

        def tell(line: str, reply: list[str]) -> None:
            if line.startswith("front wait "):
                told.append(reply)

        def run(name: str) -> None:
            engine = Engine(front, name, tell=tell, pause=0.05)
            for number in range(EACH):
                engine.activity(f"do({name}_{number})", store=MemoryStore())

        with trials.folder() as folder, trials.Manager(folder, trials.ANYTHING) as manager:
            front = f"{folder}/front"
            words = [sys.executable, FRONT, manager.path, front, "--log", f"{folder}/log"]
            with subprocess.Popen(words) as process:
                try:
                    trials.wait_until(lambda: trials.listens(front), "the front listens")
                    threads = [threading.Thread(target=run, args=(f"e{it}",)) for it in range(ENGINES)]
                    for thread in threads:
                        thread.start()
                    for thread in threads:
                        thread.join()
                finally:
                    process.terminate()
            with manager.connect() as connection:
                count = ENGINES * EACH
                log = [connection.request(f"log {it}")[0].split()[2] for it in range(1, count + 1)]
                self.assertEqual(connection.request(f"log {count + 1}"), ["refused 42 no such entry"])
            manager.stop()
        wanted = [f"do(e{engine}_{number})" for engine in range(ENGINES) for number in range(EACH)]
        self.assertEqual(sorted(log), sorted(wanted))
        self.assertEqual(told, [["yes"]] * count)


if __name__ == "__main__":
    trials.built()
    unittest.main()
