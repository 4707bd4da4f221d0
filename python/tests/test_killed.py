"""An engine whose process is killed with -9 at each step of its own, and started again over the
same store: what it says is done is done, and exactly once. Over a manager that is played, and over
a real one; with both kinds of stores."""

import itertools
import multiprocessing
import unittest
from collections.abc import Callable

from ixm import trials
from ixm.played import Faulty, Machine, Played
from tests import killed

LEASE = 100  # milliseconds: so long a grant of a killed engine keeps the next run waiting
KILLED = -9
SERVER = multiprocessing.get_context("forkserver")
SERVER.set_forkserver_preload(["tests.killed"])


class TestKilled(unittest.TestCase):
    def run_once(self, path: str, store: str, action: str, step: int) -> tuple[int | None, int | None]:
        """The status and the number of an engine that kills itself at this step, 0 being none."""
        receiver, sender = SERVER.Pipe(duplex=False)
        process = SERVER.Process(target=killed.main, args=(path, store, action, LEASE, step, sender))
        process.start()
        sender.close()
        process.join(60)
        number = receiver.recv() if process.exitcode == 0 else None
        receiver.close()
        return process.exitcode, number

    def kill_at_each_step(self, path: str, folder: str, kind: str, actions: Callable[[], list[str]]) -> int:
        """How many steps there are. `actions` gives those of the history."""
        for step in itertools.count(1):
            action, store = f"do({kind}{step})", f"{kind}:{folder}/{kind}{step}"
            status, number = self.run_once(path, store, action, step)
            if status == 0:
                # Once more, without a manager.
                self.assertEqual(self.run_once(folder + "/none", store, action, 0), (0, number))
                return step - 1
            self.assertEqual(status, KILLED, f"step {step}")
            self.assertLessEqual(actions().count(action), 1, f"step {step}")
            status, number = self.run_once(path, store, action, 0)
            self.assertEqual(actions().count(action), 1, f"step {step}")
            self.assertEqual((status, number), (0, actions().index(action) + 1), f"step {step}")
        raise AssertionError("an engine has finitely many steps")

    def test_over_a_manager_that_is_played(self) -> None:
        for kind, least in (("file", 20), ("sqlite", 14)):
            with trials.folder() as folder, self.subTest(kind):
                machine = Machine()
                with Played(folder + "/socket", Faulty(machine)):
                    steps = self.kill_at_each_step(folder + "/socket", folder, kind, lambda: machine.actions)
                self.assertGreaterEqual(steps, least)

    def test_over_a_real_manager(self) -> None:
        with trials.folder() as folder, trials.Manager(folder, trials.ANYTHING) as manager:
            def actions() -> list[str]:
                with manager.connect() as connection:
                    length = int(connection.request("status")[0].split()[2])
                    return [connection.request(f"log {it}")[0].split()[2] for it in range(1, length + 1)]

            self.kill_at_each_step(manager.path, folder, "file", actions)
            manager.stop()


if __name__ == "__main__":
    trials.built()
    unittest.main()
