"""`ixm-desk lint`: what the real program finds, at its place in the file and in a sentence."""

import os
from unittest import mock

from tests.test_desk import EXAMPLE, TOP, Case, run

KEEPS = "each value that had an action here is remembered for ever, because this can't begin again"

# Rules in which something looks wrong, what is said of it, and the nearest rules of which nothing is said.
FINDINGS = [
    ("let v($p) = call($p);\nany $p v($p)\n| call(anna,xray)",
     "3:3: the number of values of call is 2 here and mostly 1, as at 1:13: these are different actions",
     "let v($p) = calls($p);\nany $p v($p)\n| call(anna,xray)"),
    ("// ä\nb | /* ä */ every $p a($p)", "2:13: nothing completes this: something is always open", "b | every $p ?a($p)"),
    ("let v($p) = any $x (a($p,$x) |\n a($x,$p));\nall $p *v($p)",
     "3:1: one action may belong to two values of this all, as at 1:21 and 2:2: it may come twice",
     "all $p *any $x (a($p,$x) | b($x,$p))"),
    ("b -\n any $p b", "2:2: nothing in this names $p", "any $p a($p)"),
    ("let v($p) = a(p,$p);\nany $p v($p)",
     "1:13: p is one value here, and a parameter around it has the same name: is $p meant?",
     "let v($p) = a(p,$p);\nany $q v($q)"),
    ("*a\n& *(a - b(x))", "2:1: only one side of this & knows b (number of values: 1), so it never comes here: is @ meant?",
     "*a @ *(a - b(x))"),
    ("sync $p\n?a($p)", f"1:1: {KEEPS}", "sync $p *a($p)"),
]


class TestLint(Case):
    def test_each_kind_of_finding(self) -> None:
        for source, line, right in FINDINGS:
            with self.subTest(source):
                path = self.file(source)
                self.assertEqual(run("lint", path), (1, f"{path}:{line}\n", ""))
                self.assertEqual(run("lint", self.file(right)), (0, "", ""))

    def test_a_part_that_is_used_twice_is_told_once(self) -> None:
        path = self.file("let once = all $p ?sign($p);\n(examine - send | once) @ once")
        self.assertEqual(run("lint", path), (1, f"{path}:1:12: {KEEPS}\n", ""))

    def test_the_example(self) -> None:
        path = f"{EXAMPLE}/rules"
        told = [f"{path}:{where}: {KEEPS}\n" for where in ("14:3", "15:3", "15:10")]
        self.assertEqual(run("lint", path), (1, "".join(told), ""))
        self.assertEqual(run("lint", f"{TOP}/examples/hospital/expression"), (0, "", ""))

    def test_faults(self) -> None:
        for source, sentence in (("*(open -\n", "1:9: the text ends here, and something is missing"),
                                 ("let = a; b", "1:5: after let comes the name of a part, which begins with a letter")):
            path = self.file(source)
            self.assertEqual(run("lint", path), (2, "", f"{path}:{sentence}\n"))

    def test_a_finding_that_the_desk_does_not_know(self) -> None:
        path, played = self.file("a"), self.file("#!/bin/sh\necho at 0: odd\n", "played")
        os.chmod(played, 0o755)
        with mock.patch.dict(os.environ, IXM=played):
            line = f"ixm-desk: {played} finds what the desk doesn't know: at 0: odd\n"
            self.assertEqual(run("lint", path), (2, "", line))
