#!/usr/bin/env python3
"""plants.py NAME..: runs `rt plant` on these crates, and writes what it counted into the table tools/minutes.

The last columns of a crate's row say how many planted bodies were refused, how many couldn't be judged, and the day; a
crate that has no row gets one. What was let through is a list in docs/gate.md, which is written by hand. It ends with 1
if a run of `rt plant` doesn't end or leaves bodies out, and if a body is let through of a crate that isn't in the list."""

from __future__ import annotations

import datetime
import re
import subprocess
import sys
from typing import NamedTuple

TABLE = "tools/minutes"
PAGE = "docs/gate.md"  # the list of what was let through
KEPT = 46  # columns of a row that stand before these


class Counted(NamedTuple):
    """What `rt plant` found in a crate."""

    counts: dict[str, int]  # those of its last line, by their names
    let_through: list[str]  # the rows of what its contracts let through


def count(crate: str) -> Counted:
    """Runs `rt plant` on a crate."""
    words = ["rt", "plant", "--minutes", "90", "--max", "2000"]
    run = subprocess.run(words, cwd=f"crates/{crate}", stdout=subprocess.PIPE, stderr=subprocess.STDOUT)
    lines = run.stdout.decode().splitlines()
    last = next((line for line in reversed(lines) if line.startswith("plants crate=")), None)
    if last is None:
        raise SystemExit(f"{crate}: rt plant didn't end: {lines[-1:]}")
    found = {name: int(number) for name, number in re.findall(r"([\w-]+)=(\d+)", last)}
    if found.get("not-run"):
        raise SystemExit(f"{crate}: rt plant left {found['not-run']} bodies out")
    return Counted(found, [line for line in lines if line.startswith(("proves", "no-ensures", "untested"))])


def with_row(table: str, crate: str, found: dict[str, int]) -> str:
    """The table with the crate's row."""
    day = datetime.date.today().isoformat()
    counted = f" {found['refused']:8} {found['not-judged'] or '':>11}  {day}"
    row = re.compile(rf"(?m)^    {crate}\b.*$")
    if row.search(table):
        return row.sub(lambda it: it[0][:KEPT].ljust(KEPT) + counted, table)
    end = list(re.finditer(r"(?m)^    ix_\w+.*\n", table))[-1].end()
    return table[:end] + f"    {crate}".ljust(KEPT) + counted + "\n" + table[end:]


def main() -> None:
    is_right = True
    for crate in sys.argv[1:]:
        found, let_through = count(crate)
        with open(TABLE) as file:
            table = with_row(file.read(), crate, found)
        with open(TABLE, "w") as file:
            file.write(table)
        with open(PAGE) as file:
            is_listed = re.search(rf"(?m)^- `{crate}`:", file.read()) is not None
        print(crate, found["refused"], "refused,", found["not-judged"], "not judged,", found["proves"], "let through")
        for line in let_through:
            print("   ", line)
        is_right = is_right and (is_listed or not found["proves"])
    sys.exit(0 if is_right else 1)


main()
