"""The conformance run sees each client that is wrong in one way, by a case that shows it, and finds
nothing in the same client if it is wrong in none."""

import concurrent.futures
import sys
import unittest

from ixm.conformance.cases import Case, cases
from ixm.conformance.judge import RULES, Judge
from ixm.conformance.run import Client, run_case
from tests.wrong import WAYS


def judged(way: str, case: Case) -> Judge:
    return run_case(Client([sys.executable, "tests/wrong.py", way], keeps=True, seconds=2), case)


class TestJudge(unittest.TestCase):
    def test_what_a_client_may_put(self) -> None:
        granted, lost = ("ask a 1", b"granted 1-1\n"), ("confirm 1-1", b"")
        outcome = ("outcome 1-1", b"outcome confirmed 1\n")
        rows: list[tuple[list[tuple[str, bytes]], set[str]]] = [
            ([granted], set()),
            ([granted, ("confirm 1-1", b"confirmed 1\n")], {"done 1"}),
            ([granted, ("confirm 1-1", b"refused 31 expired\n")], set()),
            ([granted, lost], {"unsure 1-1"}),
            ([granted, lost, ("outcome 1-1", b"outcome never\n")], set()),
            ([granted, lost, ("outcome 1-1", b"outcome open\n")], {"unsure 1-1"}),
            ([granted, lost, outcome], {"done 1", "unsure 1-1"}),
            ([granted, lost, outcome, ("log 1", b"entry 1 a\n")], {"done 1"}),
            ([granted, lost, outcome, ("log 1", b"entry 1 b\n")], {"unsure 1-1"}),
        ]
        for lines, wanted in rows:
            judge = Judge("a")
            for line, sent in lines:
                judge.hear(line, sent)
            with self.subTest(str(lines)):
                self.assertEqual((judge.wanted(), judge.broken), (wanted, []))


class TestConformance(unittest.TestCase):
    def test_each_wrong_way_is_seen(self) -> None:
        named = {it.name: it for it in cases()}
        for way, (name, rule) in WAYS.items():
            with self.subTest(way):
                self.assertIn(rule, {number for number, _ in judged(way, named[name]).broken})

    def test_a_right_one_breaks_nothing_and_meets_each_rule(self) -> None:
        with concurrent.futures.ThreadPoolExecutor(3) as pool:
            judges = list(pool.map(lambda it: judged("none", it), cases()))
        self.assertEqual([judge.broken for judge in judges if judge.broken], [])
        self.assertEqual({number for judge in judges for number in judge.met}, set(RULES))


if __name__ == "__main__":
    unittest.main()
