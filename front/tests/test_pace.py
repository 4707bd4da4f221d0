"""How many asks a user may bring in a second."""

from __future__ import annotations

import os
import random
import signal
import time
import unittest

from ixm_front.pace import Pace
from ixm_front.policy import PolicyFault, permission_of

from .support import Client, Place, metric, records
from .test_policy import USER, Other

REFUSED = "ask other(a) 1000"  # an ask that the rules refuse, so that the next one needn't wait
BURST = 8
MOST = 3
BUSY = "refused 20 busy until "


class ByItsClock(unittest.TestCase):
    """The clock is the test's own, in eighths of a second, which are exact."""

    def test_each_second_has_as_many_as_may_be(self) -> None:
        for seed in range(200):
            chance = random.Random(seed)
            most, pace, now = chance.randint(1, 6), Pace(), 0.0
            through: list[float] = []
            for _ in range(200):
                now += chance.choice((0.0, 0.125, 0.125, 0.25, 0.5, 2.0))
                within = [moment for moment in through if now - moment < 1]
                until = pace.refused_until("a", most, now)
                if until is None:
                    self.assertLess(len(within), most)
                    through.append(now)
                else:
                    self.assertEqual((len(within), until), (most, within[0] + 1))

    def test_one_user_is_nothing_to_another_and_is_forgotten(self) -> None:
        pace = Pace()
        for user in ("a", "b"):
            self.assertIsNone(pace.refused_until(user, 1, 0.0))
            self.assertEqual(pace.refused_until(user, 1, 0.875), 1.0)
        self.assertIsNone(pace.refused_until("a", 1, 1.0))
        self.assertEqual(len(pace), 1)

    def test_a_number_that_becomes_smaller(self) -> None:
        pace = Pace()
        for eighth in range(4):
            self.assertIsNone(pace.refused_until("a", 4, eighth / 8))
        self.assertEqual(pace.refused_until("a", 2, 0.5), 1.25)
        self.assertEqual(pace.refused_until("a", 4, 0.5), 1.0)

    def test_its_words(self) -> None:
        self.assertEqual(permission_of("anybody requests ask actions * asks 5").asks, 5)
        self.assertIsNone(permission_of("anybody requests ask actions *").asks)
        for words in ("0", "100001", "", "1 2", "x"):
            with self.assertRaises(PolicyFault) as fault:
                permission_of(f"anybody requests ask actions * asks {words}")
            self.assertEqual(str(fault.exception), "`asks` wants one number from 1 to 100000")


class ByAFront(Place):
    def check_burst(self, client: Client) -> None:
        """Of asks that come at once so many go on; the others are told from when on the next one will."""
        before = time.time()
        client.send(*[REFUSED] * BURST)
        replies = [client.reply() or "closed" for _ in range(BURST)]
        self.assertEqual(replies[:MOST], ["refused 21 not permitted"] * MOST)
        until = [int(reply.removeprefix(BUSY)) / 1000 for reply in replies[MOST:]]
        for moment in until:
            self.assertGreaterEqual(moment, before + 1)
            self.assertLess(moment, time.time() + 1.01)
        time.sleep(max(until[0] - time.time(), 0))
        self.assertEqual(client.request(REFUSED), "refused 21 not permitted")

    def test_all_users_have_the_same_without_a_policy(self) -> None:
        front = self.paged(self.manager().path, "--asks", str(MOST))
        with Client(front.path) as client, Client(front.path) as other:
            self.check_burst(client)
            self.assertIn(BUSY, [other.told(REFUSED)[:len(BUSY)] for _ in range(MOST + 1)])  # it is the same user
            self.assertEqual(client.request("may do(a)"), "yes")
        found = [it for it in records(self.folder, lambda found: True) if it.get("denied") == "asks"]
        self.assertGreaterEqual(len(found), BURST - MOST)
        self.assertEqual({(it["request"], it["reply"][:len(BUSY)], it["uid"]) for it in found}, {(REFUSED, BUSY, os.getuid())})
        self.assertGreaterEqual(metric(self.folder, 'ixm_front_denied_total{cause="asks"}') or 0, BURST - MOST)

    @unittest.skipUnless(os.getuid() == 0, "clients of other users are made by root")
    def test_one_user_is_slowed_by_the_policy_and_others_are_not(self) -> None:
        self.write(f"user {USER} requests ask,may actions do($x) asks 1\n"
                   f"user {USER} requests ask actions other($x) asks {MOST}\n")
        front = self.paged(self.manager().path, "--mode", "666", "--policy", f"{self.folder}/policy")
        slow = Other(front.path)
        self.addCleanup(slow.close)
        self.assertEqual(slow.request("ask do(a,b) 1000"), "refused 21 not permitted")  # isn't counted
        with Client(front.path) as engine:
            replies = []
            for number in range(BURST):
                replies.append(slow.request(REFUSED))
                start = time.monotonic()
                self.assertEqual(engine.request(f"cancel {engine.ticket(f'do(v{number})')}"), f"cancelled 1-{number + 1}")
                self.assertLess(time.monotonic() - start, 0.5)
            self.assertEqual(replies[:MOST], ["refused 21 not permitted"] * MOST)
            self.assertTrue(all(reply.startswith(BUSY) for reply in replies[MOST:]), replies)
        # The file is read again, and the new number holds at once.
        self.write(f"user {USER} requests ask actions * asks 1000\n")
        os.kill(front.pid, signal.SIGHUP)
        records(self.folder, lambda found: any(it.get("event") == "policy read" for it in found))
        self.assertEqual([slow.request(REFUSED) for _ in range(BURST)], ["refused 21 not permitted"] * BURST)

    def write(self, text: str) -> None:
        """The policy, by which this user may do everything."""
        with open(f"{self.folder}/policy", "w", encoding="ascii") as file:
            file.write(f"user {os.getuid()} requests all actions *\n{text}")
