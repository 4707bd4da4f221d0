"""The first example of docs/engines.md, as it stands there, over a manager that is played."""

import os
import tempfile
import textwrap
import unittest

from ixm.played import Faulty, Machine, Played

PAGE = os.path.join(os.path.dirname(os.path.abspath(__file__)), "..", "..", "docs", "engines.md")


def first_example() -> str:
    with open(PAGE) as page:
        chapter = page.read().partition("## With the package\n")[2]
    lines = chapter.lstrip("\n").split("\n")
    end = next(number for number, line in enumerate(lines) if line and not line.startswith("    "))
    return textwrap.dedent("\n".join(lines[:end]))


class TestPages(unittest.TestCase):
    def test_the_first_example(self) -> None:
        machine, examined = Machine(), list[tuple[str, str]]()
        with tempfile.TemporaryDirectory() as folder:
            code = first_example().replace("/run/ixm/socket", f"{folder}/socket")
            code = code.replace("/var/lib/admissions", folder)
            with Played(f"{folder}/socket", Faulty(machine)):
                for _ in range(2):  # run again, as after a crash
                    exec(code, {"examine": lambda *words: examined.append(words)})
        self.assertEqual(machine.actions, ["call(anna,xray)", "perform(anna,xray)"])
        self.assertEqual(examined, [("anna", "xray")] * 2)


if __name__ == "__main__":
    unittest.main()
