"""An activity that is killed, or whose link or manager is, at each of its steps, and that goes on
over the same store: its action has to be in the history exactly once, and never kept as done if it
isn't there.

No time passes here and nothing is sent: the machine is asked directly, and what goes wrong at which
step is a list. All lists of up to three faults are tried.
"""

import contextlib
import itertools
import random
import unittest
from collections.abc import AsyncIterator, Generator
from typing import Any

from ixm.activity import Activity
from ixm.core import drive
from ixm.errors import NotKept, TooLate
from ixm.played import Machine
from ixm.store import MemoryStore, read_record

A = "call(anna,xray)"
LEASE = 100  # milliseconds
STEPS = 9  # so many steps an activity has that meets nothing, and one more


class _Suspended:
    """Lets another run go on."""

    def __await__(self) -> Generator[None, None, None]:
        yield


class Killed(BaseException):
    """The process of the engine has ended."""


# What goes wrong at a step: before it was done, or behind it.
FAULTS = ("lost", "unheard", "killed", "killed behind", "restart", "restart behind", "late")


class World:
    """A machine, a store, and what becomes of each step."""

    def __init__(self, faults: dict[int, str], is_shared: bool = False) -> None:
        self.now, self.steps, self.faults, self.is_shared = 0, 0, faults, is_shared
        self.machine = Machine(clock=lambda: self.now)
        self.store = MemoryStore()

    async def before(self) -> str:
        """What goes wrong at this step. Each step takes a millisecond."""
        if self.is_shared:
            await _Suspended()
        self.now += 1
        self.steps += 1
        fault = self.faults.get(self.steps, "")
        if fault == "late":  # the lease ends in front of this step
            self.now += LEASE
        if fault == "restart":
            self.machine.restart()
        if fault == "killed":
            raise Killed
        return fault

    def behind(self, fault: str) -> None:
        if fault == "restart behind":
            self.machine.restart()
        if fault == "killed behind":
            raise Killed

    async def request(self, line: str) -> str:
        fault = await self.before()
        if fault in ("lost", "restart"):
            raise ConnectionError
        reply = self.machine.answer(line)[0]
        self.behind(fault)
        if fault in ("unheard", "restart behind"):
            raise ConnectionError
        return reply

    def is_true(self) -> bool:
        """Whether what is kept as done is there, and nothing twice."""
        kept = None if self.store.text is None else read_record(self.store.text)
        found = self.machine.history.count
        if self.machine.actions.count(A) > 1:
            return False
        if kept is None or kept.state != "done":
            return True
        return found((kept.ticket, A)) == 1 and self.machine.history[kept.number - 1] == (kept.ticket, A)


class Talk:
    def __init__(self, world: World) -> None:
        self.world = world

    async def ask(self, line: str) -> str:
        return await self.world.request(line)


class Outside:
    """What an activity meets in a world. A store's step is done or not, whatever becomes of the
    process."""

    def __init__(self, world: World) -> None:
        self.world = world

    @contextlib.asynccontextmanager
    async def turn(self) -> AsyncIterator[Talk]:
        await self.world.request("status")
        yield Talk(self.world)

    async def load(self) -> str | None:
        fault = await self.world.before()
        self.world.behind(fault)
        return self.world.store.load()

    async def swap(self, old: str | None, new: str) -> bool:
        fault = await self.world.before()
        if fault == "lost":
            raise OSError("the disk is full")
        is_kept = self.world.store.swap(old, new)
        self.world.behind(fault)
        if fault == "unheard":
            raise OSError("the folder wasn't synced")
        return is_kept

    async def wait_for(self, action: str) -> None:
        raise AssertionError("everything is permitted")


class NoPause:
    """No time passes between two tries, and there are many."""

    def __init__(self) -> None:
        self.left = 100

    def is_over(self) -> bool:
        return self.left == 0

    async def wait(self) -> None:
        self.left -= 1


class TestSteps(unittest.TestCase):
    def run_through(self, faults: dict[int, str]) -> World:
        """A run with these faults: whoever was killed is started again, and whose store failed
        calls again."""
        world = World(faults)
        for _ in range(20):
            # The lease of a grant that nobody knows has to end.
            world.now += LEASE
            try:
                number = drive(Activity(Outside(world), A, LEASE).bring_about(NoPause()))
                self.assertEqual(world.machine.actions[number - 1], A, faults)
                return world
            except (Killed, NotKept, TooLate):
                self.assertTrue(world.is_true(), faults)
        self.fail(f"{faults}: it doesn't come to its end")

    def check(self, faults: dict[int, str]) -> None:
        world = self.run_through(faults)
        self.assertTrue(world.is_true(), faults)
        self.assertEqual(world.machine.actions, [A], faults)
        kept = read_record(world.store.text or "")
        self.assertEqual((kept.state, kept.action) if kept else None, ("done", A), faults)

    def test_nothing_goes_wrong(self) -> None:
        world = self.run_through({})
        self.assertEqual(world.steps, STEPS - 3)  # load, turn, ask, keep, confirm, keep

    def test_each_list_of_up_to_two_faults(self) -> None:
        for count in (1, 2):
            for places in itertools.combinations(range(1, STEPS + 6 * (count - 1)), count):
                for kinds in itertools.product(FAULTS, repeat=count):
                    self.check(dict(zip(places, kinds)))

    def test_many_faults_by_chance(self) -> None:
        chance = random.Random(1)
        for _ in range(5000):
            places = chance.sample(range(1, 60), chance.randrange(3, 25))
            self.check({place: chance.choice(FAULTS) for place in places})

    def test_runs_that_overlap_do_it_once(self) -> None:
        """Two or three runs over one store, whose steps come in any order, over a front that reads
        them all."""
        for seed in range(5000):
            chance = random.Random(seed)
            places = chance.sample(range(1, 40), chance.randrange(8))
            faults = {it: chance.choice(("lost", "unheard", "restart", "restart behind", "late")) for it in places}
            world = World(faults, is_shared=True)
            runs: list[Any] = [
                Activity(Outside(world), A, LEASE).bring_about(NoPause()) for _ in range(chance.choice((2, 3)))
            ]
            while runs:
                run = chance.choice(runs)
                try:
                    run.send(None)
                except StopIteration as end:
                    runs.remove(run)
                    self.assertEqual(world.machine.actions[end.value - 1], A, seed)
                except (NotKept, TooLate):
                    runs.remove(run)
                self.assertTrue(world.is_true(), seed)
            self.assertLessEqual(len(world.machine.actions), 1, seed)


if __name__ == "__main__":
    unittest.main()
