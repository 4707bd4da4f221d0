"""Runs a client through the cases, and over a real manager that is killed, and judges what it sent
and put."""

import os
import random
import signal
import subprocess
from collections.abc import Callable
from dataclasses import dataclass
from typing import Protocol

from ixm import trials
from ixm.conformance.cases import ACTION, Case
from ixm.conformance.judge import Judge
from ixm.engine import Connection
from ixm.played import LOST, UNHEARD, Fate, Machine, Played

LONGEST = 30.0  # seconds that a run may take beyond those it is told
LEASE = 500  # milliseconds
REPLY = 10.0  # seconds in which a real manager answers


@dataclass
class Client:
    """How a client is run. If it keeps nothing, it is called with the first three words alone."""

    command: list[str]
    keeps: bool
    seconds: int

    def start(self, path: str, action: str, store: str) -> "subprocess.Popen[str]":
        more = [store, str(self.seconds)] if self.keeps else []
        words = [*self.command, path, action, str(LEASE), *more]
        return subprocess.Popen(words, stdout=subprocess.PIPE, text=True, start_new_session=True)


class Answers(Protocol):
    """What is behind the line: a machine or a real manager."""

    def answer(self, line: str) -> list[str]: ...

    def restart(self) -> None: ...


# What becomes of a line, by its first word; the second says that the client is killed there.
Decides = Callable[[str], tuple[Fate, bool]]


class Line:
    """The way between a client and a manager. Whatever the client sends and is sent, the judge
    hears."""

    def __init__(self, manager: Answers, judge: Judge, decides: Decides) -> None:
        self.manager, self.judge, self.decides = manager, judge, decides
        self.process: subprocess.Popen[str] | None = None

    def begin(self) -> None:
        pass

    def end(self) -> None:
        pass

    def answer(self, line: str) -> Fate:
        fate, is_killed = self.decides(line.split(" ")[0])
        try:
            reply = self.manager.answer(line) if fate.is_handled else []
        except OSError:  # a real manager was killed meanwhile
            reply, fate = [], LOST
        if fate.restarts:
            self.manager.restart()
        sends = fate.sends if fate.sends is not None else "".join(it + "\n" for it in reply).encode()
        if is_killed and self.process is not None:
            sends = b""
            os.killpg(self.process.pid, signal.SIGKILL)
        self.judge.hear(line, sends)
        return Fate(sends=sends, closes=fate.closes or is_killed)

    def run(self, client: Client, path: str, store: str) -> str | None:
        """What a run of the client put, or None if it was killed."""
        self.judge.begin(client.keeps)
        self.process = client.start(path, self.judge.action, store)
        try:
            put, _ = self.process.communicate(timeout=client.seconds + LONGEST)
        except subprocess.TimeoutExpired:
            os.killpg(self.process.pid, signal.SIGKILL)
            put, _ = self.process.communicate()
            self.judge.broken.append((5, "it didn't come to an end"))
        return None if self.process.returncode == -signal.SIGKILL else put.removesuffix("\n")


def run_case(client: Client, case: Case) -> Judge:
    """What the judge says of a client in one case."""
    machine, judge = Machine(), Judge(ACTION)
    machine.boots = case.boots
    kills = list(case.kills)
    fates = {verb: list(listed) for verb, listed in case.fates.items()}

    def decide(verb: str) -> tuple[Fate, bool]:
        if kills and kills[0][0] == verb:
            return Fate(is_handled=kills.pop(0)[1]), True
        listed = fates.get(verb)
        return (listed.pop(0) if listed else None) or Fate(), False

    with trials.folder() as folder:
        line = Line(machine, judge, decide)
        store = f"{folder}/none/kept" if case.has_no_store else f"{folder}/kept"
        with Played(f"{folder}/socket", line):
            ended = 0
            while ended < case.runs:
                put = line.run(client, f"{folder}/socket", store)
                if put is None:
                    case.between(machine)
                    continue
                ended += 1
                judge_end(judge, case, machine.actions, put)
    return judge


def judge_end(judge: Judge, case: Case, history: list[str], put: str) -> None:
    """Judges what was put, by what the client was told and by what is so."""
    judge.end(put, case.rule)
    if put.startswith("done ") and not case.is_faked and put not in found(history, judge.action):
        judge.broken.append((case.rule, f"it put {put!r}, and the history is {history}"))
    if case.must_be_done and not put.startswith("done "):
        judge.broken.append((case.rule, f"it put {put!r}, where nothing stayed wrong"))


def found(history: list[str], action: str) -> list[str]:
    return [f"done {number}" for number, it in enumerate(history, 1) if it == action]


class Real:
    """A real manager, killed by chance in the middle of a request."""

    def __init__(self, manager: trials.Manager, chance: random.Random) -> None:
        self.manager, self.chance = manager, chance
        self.kills = 0

    def answer(self, line: str) -> list[str]:
        with Connection(self.manager.path, REPLY) as connection:
            if self.chance.random() > 0.12:
                return connection.request(line)
            connection.socket.sendall(line.encode("ascii", "replace") + b"\n")
            connection.socket.settimeout(self.chance.uniform(0.0001, 0.003))
            try:
                connection.socket.recv(1, 0)
            finally:
                self.restart()
            raise ConnectionError

    def restart(self) -> None:
        self.manager.kill()
        self.manager.start()
        self.kills += 1


def run_real(client: Client, count: int, chance: random.Random) -> tuple[list[Judge], int]:
    """What the judge says of so many actions, one after the other, at a real manager; and how often
    that was killed."""

    def decide(verb: str) -> tuple[Fate, bool]:
        drawn, is_handled = chance.random(), chance.random() < 0.5
        if client.keeps and drawn < 0.1:
            return Fate(is_handled=is_handled), True
        return Fate() if drawn < 0.9 else UNHEARD if is_handled else LOST, False

    judges: list[Judge] = []
    with trials.folder() as folder, trials.Manager(folder, trials.ANYTHING) as manager:
        real = Real(manager, chance)
        for number in range(count):
            judges.append(Judge(f"do(v{number})"))
            line = Line(real, judges[-1], decide)
            put: str | None = None
            with Played(f"{folder}/line", line):
                while put is None or client.keeps and not put.startswith("done "):
                    put = line.run(client, f"{folder}/line", f"{folder}/kept{number}")
                    if put is not None:
                        judges[-1].end(put, 5)
            judge_log(judges[-1], client, actions_of(manager), put)
        manager.stop()
    return judges, real.kills


def judge_log(judge: Judge, client: Client, history: list[str], put: str) -> None:
    """Judges what the client put at last by the log: its action is there once, where it said so."""
    there = found(history, judge.action)
    if len(there) > 1:
        judge.broken.append((6, f"{judge.action} is there {len(there)} times"))
    if put.startswith("done ") and put not in there:
        judge.broken.append((5, f"it put {put!r}, and the log says {there}"))
    if not put.startswith(("done ", "unsure ", "left out ")) and there:
        judge.broken.append((5, f"it put {put!r}, and {judge.action} is there"))


def actions_of(manager: trials.Manager) -> list[str]:
    with manager.connect() as connection:
        length = int(connection.request("status")[0].split()[2])
        return [connection.request(f"log {it}")[0].split()[2] for it in range(1, length + 1)]
