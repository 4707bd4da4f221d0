"""What may go wrong between a client and its manager, case by case."""

from collections.abc import Callable
from dataclasses import dataclass, field

from ixm.played import KILLED, KILLED_BEHIND, LOST, UNHEARD, Fate, Machine

ACTION = "call(anna,xray)"
OTHER = "call(ben,xray)"
MOST = 2**64 - 1


def says(line: str, *, is_handled: bool = False, behind: str = "\n") -> Fate:
    """A reply in place of the manager's."""
    return Fate(is_handled=is_handled, sends=(line + behind).encode("latin-1"))


def cut(part: str, *, is_handled: bool = False) -> Fate:
    """A part of a line, and then the end of the connection."""
    return Fate(is_handled=is_handled, sends=part.encode(), closes=True)


# For each first word what becomes of such lines, one after the other; None lets one pass.
Fates = dict[str, list[Fate | None]]


@dataclass
class Case:
    """`rule` is the one that it is about. The client is killed at the lines of `kills`: a first
    word and its how many-th, the machine having handled it or not. `between` is done to the machine
    before each further run. `runs` is how often the client is run if it isn't killed."""

    name: str
    rule: int
    fates: Fates = field(default_factory=dict)
    kills: list[tuple[str, bool]] = field(default_factory=list)
    between: Callable[[Machine], None] = lambda machine: None
    runs: int = 1
    boots: int = 1
    is_faked: bool = False  # numbers are made up, so the log doesn't have them
    has_no_store: bool = False  # STORE can't be written
    must_be_done: bool = False  # nothing stays wrong, so a client that keeps tickets comes to its end


ODD = ["yes", "", "confirmed", "confirmed 01", "confirmed 1 ", "confirmed 1\r", " confirmed 1",
       "confirmed  1", "Confirmed 1", "confirmed 1x", "confirmed +1", f"confirmed {MOST + 1}",
       "confirmed " + 300 * "1", "confirmed \xe9", "cancelled 1-1", "refused 30 no such ticket",
       "refused 91 disk", "refused 31", "refused 31 expired ", "outcome confirmed 1", "outcome never",
       "granted 1-1"]
NO_GRANT = ["granted", "granted 1", "granted 01-1", "granted 1-01", "granted 1-1 ", "granted 1-1\r",
            "Granted 1-1", "granted 1 1", f"granted {MOST + 1}-1", "granted 1-1 5", "yes", "",
            "granted " + 300 * "1" + "-1", "refused 90 memory", "refused 20", "refused 12 action"]
NO_OUTCOME = ["outcome", "outcome confirmed", "outcome confirmed 01", "outcome confirmed 1 ",
              f"outcome confirmed {MOST + 1}", "confirmed 1", "outcome never ", "outcome neve", "never",
              "outcome open ", "refused 30 no such ticket", "refused 11 word", "outcome confirmed 1\r",
              "refused 32 left out", "refused 32", "refused 33 left out",
              "", "outcome confirmed \xe9"]


def put_back(machine: Machine) -> None:
    """The journal of before is put back, and its next ticket and place are another action's."""
    ticket = f"{machine.boots}-1"
    machine.history, machine.last, machine.reserved = [(ticket, OTHER)], 1, None


def another(machine: Machine) -> None:
    """Another journal is put in its place."""
    machine.history, machine.boots, machine.last, machine.reserved = [], 1, 0, None


def cases() -> list[Case]:
    return [*asks(), *confirms(), *outcomes(), *crashes(), *numbers()]


def asks() -> list[Case]:
    refused = ["refused 20 busy until 9", "refused 21 not permitted"]
    return [
        Case("nothing goes wrong", 5, must_be_done=True),
        Case("the ask is lost", 1, {"ask": [LOST]}),
        Case("the reply to the ask is lost", 1, {"ask": [UNHEARD]}),
        Case("half of a grant", 1, {"ask": [cut("granted 1-1", is_handled=True)]}),
        Case("the manager is started again behind its grant", 3, {"ask": [Fate(restarts=True)]}),
        *(Case(f"an ask is answered {it!r}", 1, {"ask": [says(it)]}) for it in [*NO_GRANT, *refused]),
    ]


def confirms() -> list[Case]:
    return [
        Case("the confirm is lost", 3, {"confirm": [LOST]}),
        Case("the reply to the confirm is lost", 3, {"confirm": [UNHEARD]}),
        Case("the manager is killed before the confirm", 3, {"confirm": [KILLED]}),
        Case("the manager is killed behind the confirm", 3, {"confirm": [KILLED_BEHIND]}),
        Case("half of a reply to the confirm", 3, {"confirm": [cut("confirmed 1")]}),
        Case("the confirm is answered `refused 31 expired`", 3, {"confirm": [says("refused 31 expired")]}),
        Case("three confirms are lost, and their outcomes", 6, {"confirm": [LOST] * 3, "outcome": [LOST, None] * 3}),
        Case("what can't be written down isn't confirmed", 2, has_no_store=True),
        Case("the same, and the cancel is lost", 8, {"cancel": [LOST]}, has_no_store=True),
        *(Case(f"a confirm is answered {it!r}", 3, {"confirm": [says(it)]}) for it in ODD),
        *(Case(f"a confirm that counts is answered {it!r}", 3, {"confirm": [says(it, is_handled=True)]})
          for it in ODD[::5]),
    ]


def outcomes() -> list[Case]:
    lost: Fates = {"confirm": [UNHEARD]}
    return [
        Case("the outcome is lost", 4, {**lost, "outcome": [LOST]}),
        Case("its reply is lost", 4, {**lost, "outcome": [UNHEARD]}),
        Case("half of its reply", 4, {**lost, "outcome": [cut("outcome confirmed 1")]}),
        Case("the outcome is lost for ever", 4, {**lost, "outcome": [LOST] * 10000}),
        Case("the outcome is open, and the confirm lost again", 4, {"confirm": [LOST, UNHEARD]}),
        Case("the outcome is open, and it ends then", 4, {"confirm": [LOST, says("refused 31 expired")]}),
        Case("the log's reply is lost", 7, {**lost, "log": [LOST]}),
        *(Case(f"an outcome is answered {it!r}", 4, {**lost, "outcome": [says(it)]}) for it in NO_OUTCOME),
    ]


def crashes() -> list[Case]:
    kills = [("ask", False), ("ask", True), ("confirm", False), ("confirm", True)]
    lost, counts = [("confirm", False)], [("confirm", True)]
    return [
        *(Case(f"the client is killed at its {verb}, which was {'handled' if it else 'lost'}", 7,
               kills=[(verb, it)], must_be_done=True) for verb, it in kills),
        Case("the client is killed twice", 7, {"confirm": [None, LOST]},
             kills=[*lost, ("outcome", True)], must_be_done=True),
        Case("the client is killed, and the manager too", 7, kills=counts, between=Machine.restart,
             must_be_done=True),
        Case("both are killed before the confirm", 7, kills=lost, between=Machine.restart,
             must_be_done=True),
        Case("the client is killed behind its confirm, and the journal renewed", 4, kills=counts, between=Machine.renew),
        Case("the client is killed before its confirm, and the journal renewed", 4, kills=lost, between=Machine.renew),
        Case("the entry of a done action is left out", 7, {"log": [says("refused 33 left out")]}, kills=counts),
        Case("it is run again behind done", 7, runs=2, must_be_done=True),
        Case("its ticket is another action's since a journal was put back", 7, kills=counts,
             between=put_back),
        Case("its ticket is no ticket of the journal", 7, kills=counts, boots=3, between=another),
    ]


def numbers() -> list[Case]:
    most = f"{MOST}-{MOST}"
    big: Fates = {"ask": [says(f"granted {most}")], "confirm": [says(f"confirmed {MOST}")]}
    outcome: Fates = {"ask": [says(f"granted {most}")], "confirm": [LOST],
                      "outcome": [says(f"outcome confirmed {MOST}")],
                      "log": [says(f"entry {MOST} {ACTION}")]}
    return [
        Case("the largest numbers", 9, big, is_faked=True),
        Case("the largest numbers of an outcome", 9, outcome, is_faked=True),
        Case("another line behind never", 9, {"confirm": [says("refused 31 expired\nconfirmed 1")]}),
        Case("another line behind open", 9, {"confirm": [LOST, says("refused 31 expired")],
                                             "outcome": [says("outcome open\nconfirmed 1")]}),
    ]
