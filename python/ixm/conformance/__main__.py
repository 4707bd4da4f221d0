"""Whether a client keeps the rules of docs/client.md.

    python -m ixm.conformance [--keeps-nothing] [--kills N] [--seconds N] [--seed N] COMMAND..

It says yes or no for each rule, and of each no what broke it. Ends with 0 if none was broken. With
--kills N the client also brings N actions about at a real manager ($IXM), while that and the client
are killed. A client that writes no ticket down is run with --keeps-nothing; it isn't killed then,
and not asked for rules 2 and 7.
"""

import argparse
import concurrent.futures
import random
import sys

from ixm import trials
from ixm.conformance.cases import cases
from ixm.conformance.judge import RULES, Judge
from ixm.conformance.run import Client, run_case, run_real

AT_ONCE = 3  # cases that are run side by side
SHOWN = 5  # ways in which a rule was broken that are put


def main() -> int:
    usage = (__doc__ or "").split("\n\n")[1].strip()
    parser = argparse.ArgumentParser(prog="python -m ixm.conformance", usage=usage)
    parser.add_argument("--keeps-nothing", action="store_true")
    parser.add_argument("--kills", type=int, default=0, metavar="N")
    parser.add_argument("--seconds", type=int, default=5, metavar="N")
    parser.add_argument("--seed", type=int, default=1, metavar="N")
    parser.add_argument("command", nargs=argparse.REMAINDER)
    words = parser.parse_args()
    if not words.command:
        parser.error("a COMMAND is wanted")
    client = Client(words.command, not words.keeps_nothing, words.seconds)
    asked = [it for it in cases() if client.keeps or not (it.kills or it.has_no_store or it.runs > 1)]
    with concurrent.futures.ThreadPoolExecutor(AT_ONCE) as pool:
        judged = [(it.name, judge) for it, judge in zip(asked, pool.map(lambda it: run_case(client, it), asked))]
    if words.kills:
        trials.built()
        judges, kills = run_real(client, words.kills, random.Random(words.seed))
        judged += [(f"{it.action} at a real manager", it) for it in judges]
        print(f"at a real manager, killed {kills} times: {words.kills} actions")
    return tell(judged, client.keeps)


def tell(judged: list[tuple[str, Judge]], keeps: bool) -> int:
    """Puts a line for each rule, and one for each way in which it was broken."""
    for rule, text in RULES.items():
        broken = [(name, how) for name, judge in judged for number, how in judge.broken if number == rule]
        count = sum(rule in judge.met for _, judge in judged)
        answer = "no" if broken else "yes" if count else "not met"
        if not keeps and rule in (2, 7):
            answer = "not asked" if not broken else answer
        print(f"{rule} {answer}, {count} cases: {text}")
        for name, how in broken[:SHOWN]:
            print(f"    {name}: {how}")
        if broken[SHOWN:]:
            print(f"    and {len(broken) - SHOWN} more")
    return 1 if any(judge.broken for _, judge in judged) else 0


if __name__ == "__main__":
    sys.exit(main())
