#!/usr/bin/env python3
"""`./ixc --unproved` and `./ixm --unproved`: that a program is compiled once, kept and run at once, and compiled anew of a
changed source. What `rt` compiles is tried once, in a copy of the sources; the rest with a stand-in for `rt` that makes a
script of its own and counts its calls."""

from __future__ import annotations

import os
import shutil
import subprocess
import sys
import tempfile
import time
import unittest

TOP = os.path.dirname(os.path.dirname(os.path.abspath(__file__)))
UNREAD = "out", "must-fail", "specs", "proofs"  # no program is compiled of what lies in these folders
SOON = 2.0  # seconds within which a kept program has run, at least once in three times
# What it makes says which sources it is of. Without words it ends with 2, as ixm does.
STAND_IN = """#!/bin/bash
[ "$1" = try ] || { echo a kit; exit; }
echo call >>"$CALLS"
while [ "$1" != -- ]; do shift; done
shift
if [ -e "$REFUSES" ]; then echo 'error: it is wrong'; echo 'run=none proved=no'; exit 1; fi
mkdir "$TMPDIR/made"
program=$TMPDIR/made/program
if [ -e "$HIDES" ]; then program=$HIDES/program; fi
cat >"$program" <<END
#!/bin/bash
[ \\$# -gt 0 ] || exit 2
[ "\\$1" != trace ] || cat "\\$2" >/dev/null
[ ! -S "\\$1" ] || python3 -c 'import socket, sys; s = socket.socket(1); s.connect(sys.argv[1]); s.recv(1)' "\\$1"
echo "$(cat ../*/src/*.rt | sha256sum | head -c 8)" "\\$PWD" "\\$@"
cat
exit 7
END
chmod +x "$program"
"$program" "$@" </dev/null
status=$?
if [ -e "$EDITS" ]; then cat "$EDITS" >>src/main.rt; rm "$EDITS"; fi
echo "run=ended status=$status proved=no"
exit $status
"""


class Copy(unittest.TestCase):
    """A copy of what the programs are compiled of, and a cache of its own."""

    def setUp(self) -> None:
        made = tempfile.TemporaryDirectory()
        self.addCleanup(made.cleanup)
        self.folder = os.path.realpath(made.name)
        self.tree = f"{self.folder}/tree"
        for name in ("crates", "tools"):
            shutil.copytree(f"{TOP}/{name}", f"{self.tree}/{name}", ignore=shutil.ignore_patterns(*UNREAD))
        for name in ("crates.txt", "ixm", "ixc"):
            shutil.copy(f"{TOP}/{name}", self.tree)
        self.environment = {**os.environ, "XDG_CACHE_HOME": f"{self.folder}/cache"}

    def begin(self, name: str, *words: str, given: bytes = b"") -> subprocess.Popen[bytes]:
        with open(f"{self.folder}/given", "wb") as file:
            file.write(given)
        with open(f"{self.folder}/given", "rb") as file:
            return subprocess.Popen([f"{self.tree}/{name}", "--unproved", *words], cwd=self.folder, stdin=file,
                                    env=self.environment, stdout=subprocess.PIPE, stderr=subprocess.PIPE)

    def run_it(self, name: str, *words: str, given: bytes = b"") -> tuple[int, str, str]:
        """Its status, what it put, and what was said."""
        process = self.begin(name, *words, given=given)
        put, said = process.communicate()
        return process.returncode, put.decode(), said.decode()

    def kept(self) -> list[str]:
        return sorted(os.listdir(f"{self.folder}/cache/ixm"))

    def append(self, name: str, text: str) -> None:
        """Adds to a file of the copy, which is made with its folder where it isn't there."""
        os.makedirs(os.path.dirname(f"{self.tree}/{name}"), exist_ok=True)
        with open(f"{self.tree}/{name}", "a") as file:
            file.write(text)


class Compiled(Copy):
    """By the kit's `rt`."""

    def test_ixc_is_compiled_once_and_again_where_a_comment_changes(self) -> None:
        usage = (0, "ixc SOCKET ACTION MILLIS\n")
        status, put, said = self.run_it("ixc")
        self.assertEqual((status, put), usage, said)
        self.assertIn("is compiled with checks first", said)
        took = []
        for _ in range(3):
            begun = time.monotonic()
            status, put, said = self.run_it("ixc")
            took.append(time.monotonic() - begun)
            self.assertEqual((status, put), usage, said)
            self.assertNotIn("is compiled", said)
            self.assertIn("NOTHING IS PROVED", said)
        self.assertLess(min(took), SOON)
        self.assertEqual(self.run_it("ixc", "absent", "a", "5")[:2], (6, "refused link\n"))
        self.append("crates/ix_ixc/src/main.rt", "// A comment more.\n")
        status, put, said = self.run_it("ixc")
        self.assertEqual((status, put), usage, said)
        self.assertIn("is compiled with checks first", said)
        self.assertEqual(len(self.kept()), 2)


class WithStandIn(Copy):
    """By a stand-in for `rt`."""

    def setUp(self) -> None:
        super().setUp()
        os.mkdir(f"{self.folder}/bin")
        with open(f"{self.folder}/bin/rt", "w") as file:
            file.write(STAND_IN)
        os.chmod(f"{self.folder}/bin/rt", 0o755)
        self.environment["PATH"] = f"{self.folder}/bin:{os.environ['PATH']}"
        for name in ("CALLS", "REFUSES", "HIDES", "EDITS"):
            self.environment[name] = f"{self.folder}/{name}"

    def calls(self) -> int:
        with open(f"{self.folder}/CALLS") as file:
            return len(file.readlines())

    def test_words_streams_folder_and_status_are_the_programs(self) -> None:
        for _ in range(2):
            status, put, _ = self.run_it("ixm", "a b", "", given=b"text\n")
            self.assertEqual((status, put.split(" ", 1)[1]), (7, f"{self.folder} a b \ntext\n"))
        self.assertEqual(self.calls(), 1)

    def test_a_changed_source_is_compiled_anew_and_an_old_program_never_run(self) -> None:
        firsts = set()
        for count, file in enumerate(("ix_ixm/src/main.rt", "ix_ixm/src/more.rt", "ix_lines/src/lib.rt"), 1):
            self.append(f"crates/{file}", "// A comment more.\n")
            firsts.add(self.run_it("ixm", "x")[1].split()[0])
            self.assertEqual((len(firsts), self.calls()), (count, count))
        self.append("crates.txt", "# A comment more.\n")
        self.run_it("ixm", "x")
        self.assertEqual(self.calls(), 4)
        for folder in UNREAD:
            self.append(f"crates/ix_lines/{folder}/more.rt", "// Read by nobody.\n")
        self.run_it("ixm", "x")
        self.assertEqual(self.calls(), 4)

    def test_a_source_that_changes_meanwhile_is_compiled_again(self) -> None:
        with open(f"{self.folder}/EDITS", "w") as file:
            file.write("// A comment more.\n")
        first = self.run_it("ixm", "x")[1]
        self.assertEqual((self.calls(), len(self.kept())), (2, 1))
        self.assertEqual(self.run_it("ixm", "x")[1], first)
        self.assertEqual(self.calls(), 2)

    def test_two_at_once(self) -> None:
        both = [self.begin("ixm", "x") for _ in range(2)]
        puts = [process.communicate()[0] for process in both]
        self.assertEqual([process.returncode for process in both], [7, 7])
        self.assertEqual(puts[0], puts[1])
        self.assertEqual(len(self.kept()), 1)

    def test_the_four_that_were_used_last_are_left(self) -> None:
        self.run_it("ixc", "x")
        others = self.kept()
        for _ in range(6):
            self.append("crates/ix_ixm/src/main.rt", "// A comment more.\n")
            self.run_it("ixm", "x")
        kept = self.kept()
        self.assertEqual((len(kept), kept[0]), (5, others[0]))
        self.run_it("ixm", "x")
        self.assertEqual(self.calls(), 7)

    def test_what_cannot_be_compiled_ends_with_the_status_of_rt(self) -> None:
        self.append("../REFUSES", "")
        status, put, said = self.run_it("ixm", "x")
        self.assertEqual((status, put), (1, ""))
        self.assertIn("error: it is wrong", said)
        self.assertEqual(self.kept(), [])

    def test_what_cannot_be_kept_is_run_by_rt(self) -> None:
        os.mkdir(f"{self.folder}/HIDES")
        status, put, said = self.run_it("ixm", "HIDES", "absent")
        self.assertEqual(status, 7)
        self.assertIn(f"/crates/ix_ixm {self.folder}/HIDES absent\n", put)
        self.assertIn("is ended after 86400 seconds", said)
        os.rmdir(f"{self.folder}/cache/ixm")
        with open(f"{self.folder}/cache/ixm", "w"):
            pass
        self.assertEqual(self.run_it("ixm", "x")[0], 7)


if __name__ == "__main__":
    sys.dont_write_bytecode = True
    unittest.main()
