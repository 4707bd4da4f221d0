"""Whether the replies of a manager's run are those of one run of the machine over the lines that it was sent: `ixm
replay` over the same lines, compared byte for byte."""

from __future__ import annotations

import shutil
import subprocess
import unittest

from .support import IXM
from .tap import Pairs


def moments_of(pairs: Pairs) -> list[int]:
    """A moment for each line at which its reply is the right one. A 20 names the deadline of the reservation, and so
    the moment of its ask; other moments only have to be in front of a deadline or not."""
    inferred = deadlines_told(pairs)
    moment = 0
    deadline: int | None = None
    moments: list[int] = []
    for place, (line, reply) in enumerate(pairs):
        words = line.split(b" ")
        if reply is None:
            pass
        elif reply.startswith(b"granted "):
            moment = max(moment, inferred.get(place, 0), deadline or 0)
            deadline = moment + int(words[2])
        elif reply.startswith((b"refused 2", b"refused 90")) and words[0] == b"ask":
            if not reply.startswith(b"refused 20 "):
                moment, deadline = max(moment, deadline or 0), None
        elif reply == b"refused 31 expired\n":
            moment = max(moment, deadline or 0)
        elif reply.startswith((b"confirmed ", b"cancelled ")):
            deadline = None
        moments.append(moment)
    return moments


def deadlines_told(pairs: Pairs) -> dict[int, int]:
    """The moment of each granted ask whose deadline a later 20 names."""
    told: dict[int, int] = {}
    granted: int | None = None
    for place, (line, reply) in enumerate(pairs):
        if reply is not None and reply.startswith(b"granted "):
            granted = place
        elif reply is not None and granted is not None and reply.startswith(b"refused 20 "):
            told[granted] = int(reply.split()[-1]) - int(pairs[granted][0].split(b" ")[2])
    return told


def check_run(test: unittest.TestCase, folder: str, journal: str, sessions: list[Pairs]) -> int:
    """Replays the sessions of one run of the manager, in their order, on the journal that it found."""
    pairs = [pair for session in sessions for pair in session]
    answered = [reply for _, reply in pairs if reply is not None]
    moments = iter(moments_of(pairs))
    script = bytearray()
    for session in sessions:
        moment = 0
        for line, _ in session:
            moment = next(moments)
            test.assertFalse(line.endswith(b"\\") or line == b"!", "a script has no such line")
            script += b"%d 0 %b\n" % (moment, line)
        script += b"%d 0 !\n" % moment
    with open(f"{folder}/script", "wb") as file:
        file.write(script)
    copy = f"{folder}/replayed"
    open(copy, "wb").close()
    try:
        shutil.copy(journal, copy)
    except FileNotFoundError:
        pass
    put = subprocess.run([IXM, "replay", "expression", copy, "script"], cwd=folder, stdout=subprocess.PIPE, check=True)
    replies = b"".join(answered)
    wanted = b"".join(b"0 " + line + b"\n" for line in replies.split(b"\n")[:-1])
    got = put.stdout.partition(b"\n")[2]
    # What a manager that was killed had no time to reply may be missing at the end.
    test.assertEqual(got[:len(wanted)], wanted)
    if all(reply is not None for _, reply in pairs):
        test.assertEqual(len(got), len(wanted))
    return len(answered)
