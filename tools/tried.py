#!/usr/bin/env python3
"""Runs the tests below the current folder, or those that are named, and says last which this machine couldn't try.

    tools/tried.py [TEST..]

Ends with 0 where each was tried and passed, with 1 where one failed, and with 77 where all passed that could be tried."""

from __future__ import annotations

import os
import sys
import unittest


def status_of(result: unittest.TestResult) -> int:
    """The status, behind a line for each test that wasn't tried."""
    for test, why in result.skipped:
        print(f"NOT TRIED: {test.id()}: {why}", file=sys.stderr)
    return 1 if not result.wasSuccessful() else 77 if result.skipped else 0


if __name__ == "__main__":
    sys.dont_write_bytecode = True
    sys.path[0] = os.getcwd()
    sys.exit(status_of(unittest.main(module=None, exit=False).result))
