"""The runs of bench/calls in which each call of the disk on a journal fails, one after the other.

What a run calls on its file, and what it puts, stands here as docs/journal.md says it. So the bytes
that are left where a call fails are those of the calls before it. Behind each such run a start on
what was left has to put, and to leave, what journals.py says of these bytes."""

from __future__ import annotations

import os
import re
import subprocess
from collections.abc import Iterator
from dataclasses import dataclass

from journals import Reader

OPEN, CLOSED = b"\xA5", b"\x00"
SYNC, CUT, WRITE, READ = "fdatasync", "ftruncate", "pwrite64", "pread64"
PATIENCE = 600.0  # seconds; an unproved build is slow under strace


@dataclass(frozen=True)
class Call:
    """A call on the file that changes it or syncs it: where it writes, or to which length it cuts."""

    name: str
    at: int = 0
    data: bytes = b""

    def behind(self, file: bytes) -> bytes:
        """The file behind it."""
        if self.name == WRITE:
            return file[:self.at] + self.data + file[self.at + len(self.data):]
        return file[:self.at] if self.name == CUT else file


@dataclass(frozen=True)
class Stage:
    """Calls of a run in their order, what it has put before them, and what one that fails lets it
    put."""

    calls: list[Call]
    before: str
    fault: str = "refused disk\n"


@dataclass(frozen=True)
class Run:
    """A run with these words over these files, of which one is looked at: its calls on that, and
    what it puts where none fails."""

    words: tuple[str, ...]
    files: dict[str, bytes]
    name: str
    stages: list[Stage]
    wanted: str

    def calls(self) -> Iterator[tuple[Stage, Call]]:
        for stage in self.stages:
            yield from ((stage, call) for call in stage.calls)


def counted(text: bytes) -> bytes:
    return len(text).to_bytes(2, "big") + text


def write(at: int, data: bytes) -> list[Call]:
    """A write with the sync behind it."""
    return [Call(WRITE, at, data), Call(SYNC)]


def begun(file: bytes, header: bytes) -> list[Call]:
    """What a file is begun again with: its first byte, unless that is 00, and a cut to it, if there
    are more; then the header with a closed gate, and the head gate."""
    first = [] if file[:1] == CLOSED else [Call(WRITE, 0, CLOSED)]
    if file:
        first.append(Call(CUT, 1))
    return [*first, Call(SYNC), *write(1, header + CLOSED), *write(0, OPEN)]


def appended(gate: int, text: bytes) -> list[Call]:
    """A record with a closed gate behind the first closed gate, and then that gate."""
    return [*write(gate + 1, counted(text) + CLOSED), *write(gate, OPEN)]


def replay(file: bytes, text: bytes, gate: int, history: int, boot: int, actions: tuple[bytes, ...],
           is_begun: bool) -> Run:
    """A replay over this file that confirms these actions. Its expression has this text, and the
    first closed gate is at this place; the boot is the next one."""
    record = b"boot %d" % boot
    calls = [Call(SYNC), *(begun(file, b"IXJ2" + counted(text)) if is_begun else [])]
    stages = [Stage([*calls, *appended(gate, record)], "")]
    gate += 3 + len(record)
    script, put = "", f"history {history}\n"
    for number, action in enumerate(actions, 1):
        script += f"1 0 ask {action.decode()} 9\n1 0 confirm {boot}-{number}\n"
        put += f"0 granted {boot}-{number}\n"
        record = b"%d-%d %s" % (boot, number, action)
        stages.append(Stage(appended(gate, record), put, "0 refused 91 disk\nrefused disk\n"))
        gate += 3 + len(record)
        put += f"0 confirmed {history + number}\n"
    files = {"expression": text, "script": script.encode()} | ({"journal": file} if file else {})
    return Run(("replay", "expression", "journal", "script"), files, "journal", stages, put)


TEXT = b"a - b"
LONGEST = b"%s(%s,%s,%s,%s)" % (b"n" * 32, *(sign * 32 for sign in (b"v", b"w", b"x", b"y")))
EMPTY = b"\xA5IXJ1\x00\x05a - b\x00"
UNOPENED = b"\x7FIXJ1\x00\x05a - b\x00"
RENEWED = b"\xA5IXJ3\x00\x05a - b\xA5\x00\x0Brenewed 2 1\x00"
OF_A = b"\xA5IXJ1\x00\x05a - b\xA5\x00\x01a\x00"
BOTH = b"a", b"b"


def runs() -> list[Run]:
    """Replays over an absent, an unfinished, an unopened and a good file, over one of a renewal, and
    with longest actions; and a renewal."""
    again = b"*" + LONGEST
    long = OPEN + b"IXJ1" + counted(again) + CLOSED
    # The header of a new journal of this text ends before byte 12, where the first gate is.
    renewal = [Call(SYNC), *begun(b"", b"IXJ3" + counted(TEXT)),
               *write(13, counted(b"a") + OPEN + counted(b"renewed 1 0") + CLOSED), *write(12, OPEN)]
    return [
        replay(b"", TEXT, 12, 0, 1, BOTH, True),
        replay(b"\x00IXJ", TEXT, 12, 0, 1, BOTH, True),
        replay(UNOPENED, TEXT, 12, 0, 1, (), True),
        replay(EMPTY, TEXT, 12, 0, 1, BOTH, False),
        replay(RENEWED, TEXT, 26, 2, 2, BOTH, False),
        replay(long, again, len(long) - 1, 0, 1, (LONGEST, LONGEST), False),
        Run(("renew", "expression", "journal", "new"), {"expression": TEXT, "journal": OF_A}, "new",
            [Stage(renewal, "")], "renewed 1 0 carried 1\n"),
    ]


# Journals with records, their texts, and how many reads at least there are of them: one, and that
# of the header and three of 3,000 records of 4 bytes.
MANY = OPEN + b"IXJ1\x00\x02*a" + b"\xA5\x00\x01a" * 3000 + CLOSED
READ_IN_PIECES = ((OF_A, TEXT, 1), (MANY, b"*a", 4))

PIECE = 4096  # the most bytes of one read


class Place:
    """A folder of its own in which runs are traced."""

    def __init__(self, program: str, folder: str) -> None:
        self.program, self.folder = program, folder

    def lay(self, files: dict[str, bytes]) -> None:
        """These files alone are there."""
        for name in os.listdir(self.folder):
            os.remove(f"{self.folder}/{name}")
        for name, data in files.items():
            with open(f"{self.folder}/{name}", "wb") as file:
                file.write(data)

    def read(self, name: str) -> bytes:
        path = f"{self.folder}/{name}"
        if not os.path.exists(path):
            return b""
        with open(path, "rb") as file:
            return file.read()

    def run(self, *words: str, trace: tuple[str, ...] = ()) -> tuple[str, int]:
        """What a run puts, and its status; under strace where there are options for it."""
        traced = ("strace", "-f", *trace, "-o", f"{self.folder}.log") if trace else ()
        done = subprocess.run([*traced, self.program, *words], cwd=self.folder, timeout=PATIENCE,
                              stdin=subprocess.DEVNULL, stdout=subprocess.PIPE, stderr=subprocess.DEVNULL)
        return done.stdout.decode(), done.returncode

    def logged(self) -> str:
        with open(f"{self.folder}.log", encoding="utf-8", errors="replace") as file:
            return file.read()

    def failed(self, run: Run, call: str, number: int) -> tuple[tuple[str, int], bool]:
        """How the run ends where this call fails once on its file, and whether there was one."""
        self.lay(run.files)
        inject = "-P", f"{self.folder}/{run.name}", "-e", f"inject={call}:error=EIO:when={number}"
        ended = self.run(*run.words, trace=inject)
        return ended, "(INJECTED)" in self.logged()

    def started(self, text: bytes, data: bytes) -> str:
        """What is wrong with a start on this file, or an empty text."""
        said = Reader(data, text.decode(), lambda actions: "").start()
        self.lay({"expression": text, "journal": data})
        got = self.run("replay", "expression", "journal", os.devnull)
        left = self.read("journal")
        if got != (f"{said.line}\n", 0) or left != said.data:
            return f"a start on {data[-60:]!r} went {got} and left {left[-60:]!r}"
        return ""


def compared(place: Place, run: Run, call: str, number: int, wanted: str, left: bytes) -> str:
    """What is wrong with the run where this call fails once, or an empty text."""
    ended, was_there = place.failed(run, call, number)
    if not was_there:
        return "there was no such call"
    got = place.read(run.name)
    if ended != (wanted, 5) or got != left:
        return f"it went {ended} and left {got[-60:]!r}, where {wanted!r} and {left[-60:]!r} are wanted"
    return place.started(run.files["expression"], left)


def changing(place: Place, run: Run) -> Iterator[str]:
    """What is wrong where each call that changes or syncs the file fails, one text for each; and
    where one more of each kind would fail, which there isn't."""
    file, counts = run.files.get(run.name, b""), {WRITE: 0, SYNC: 0, CUT: 0}
    of = f"of {run.words[0]} over {file[:60]!r}"
    for stage, call in run.calls():
        counts[call.name] += 1
        wrong = compared(place, run, call.name, counts[call.name], stage.before + stage.fault, file)
        yield wrong and f"{call.name} {counts[call.name]} {of}: {wrong}"
        file = call.behind(file)
    for name, count in counts.items():
        ended, was_there = place.failed(run, name, count + 1)
        left = place.read(run.name)
        is_right = ended == (run.wanted, 0) and left == file and not was_there
        yield "" if is_right else f"{name} {count + 1} {of}: it went {ended} and left {left[-60:]!r}"


def reading(place: Place, file: bytes, text: bytes, least: int) -> Iterator[str]:
    """The same where each read fails: the file stays, and a start opens it then."""
    files = {"expression": text, "journal": file}
    run = Run(("replay", "expression", "journal", os.devnull), files, "journal", [], "")
    number = 0
    while place.failed(run, READ, number + 1)[1]:
        number += 1
        wrong = compared(place, run, READ, number, "refused disk\n", file)
        yield wrong and f"{READ} {number} of {len(file)} bytes: {wrong}"
    if number < least:
        yield f"{len(file)} bytes were read in {number} pieces"


def far(place: Place) -> str:
    """A journal with 1,100,000 actions is read in pieces, and not behind the one that makes too
    many. It stands in one of the first 979 pieces, because each gives 4,092 bytes at least."""
    front = OPEN + b"IXJ1\x00\x02*a"
    place.lay({"expression": b"*a", "journal": front + b"\xA5\x00\x01a" * 1_100_000 + CLOSED})
    trace = "-P", f"{place.folder}/journal", "-e", f"trace={READ}"
    ended = place.run("replay", "expression", "journal", os.devnull, trace=trace)
    reads = [(int(size), int(at)) for size, at in re.findall(r", (\d+), (\d+)\) += \d+", place.logged())]
    most, end = max(size for size, _ in reads), max(size + at for size, at in reads)
    # The record behind a million of 4 bytes, and a piece that begins with its last byte.
    is_near = len(reads) <= 5 + 979 and most <= PIECE and end <= len(front) + 4_000_004 + PIECE
    is_right = ended == ("refused journal many\n", 8) and is_near
    return "" if is_right else f"it went {ended} by {len(reads)} reads of {most} bytes at most, up to {end}"


def faults(program: str, folder: str) -> tuple[int, list[str]]:
    """How many runs there were with a fault, and what was wrong with some."""
    os.mkdir(folder)
    place = Place(program, folder)
    told = [wrong for run in runs() for wrong in changing(place, run)]
    told += [wrong for row in READ_IN_PIECES for wrong in reading(place, *row)]
    told.append(far(place))
    return len(told), [wrong for wrong in told if wrong]
