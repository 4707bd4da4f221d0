"""Tests of both engines over a manager that is played: what it is sent has to be the lines of a
table, connection by connection, and it answers by the table."""

import asyncio
import contextlib
import itertools
import os
import ssl
import tempfile
import threading
import time
import unittest
from collections.abc import Callable
from typing import Any, Protocol

from ixm import trials
from ixm.engine import (
    LEFT_OUT, NEVER, Address, AsyncConnection, AsyncEngine, Connection, Done, Engine, FileStore, ForPeople, LeftOut,
    MemoryStore, NotKept, Pending, SqliteStore, Store, TooLate, settle,
)
from ixm.played import (
    CLOSE, KILLED, KILLED_BEHIND, LOST as LOST_LINE, SILENCE, UNHEARD, Fate, Faulty, Machine, Played,
    Rows,
)
from ixm.store import Record, read_record

Row = list[tuple[str, str]]

A = "call(anna,xray)"
ASK = f"ask {A} 5000"
TURN = ("front wait 60000", "refused 11 word")
WATCH = f"watch e_1 {A}"
DROPPED = [(f"drop e_1 {A}", "dropped")]
DONE = [TURN, (ASK, "granted 1-3"), ("confirm 1-3", "confirmed 8")]
LOST = [TURN, (ASK, "granted 1-3"), ("confirm 1-3", CLOSE)]
OUTCOME = "outcome 1-3"
AGAIN = [(ASK, "granted 2-1"), ("confirm 2-1", "confirmed 10")]
REFUSED = [TURN, (ASK, "refused 21 not permitted")]
OPEN = f"open 1-3 {A}"
KEPT = f"done 1-3 8 {A}"


def log(number: int, action: str = A) -> tuple[str, str]:
    return (f"log {number}", f"entry {number} {action}")


class Engines(Protocol):
    """What both engines have, blocking."""

    def activity(self, action: str, *, store: Store, within: float | None = None) -> int: ...

    def do(self, action: str, *, within: float | None = None, ticket: str | None = None) -> int: ...


class Awaited:
    """An `AsyncEngine` whose calls are run to their end."""

    def __init__(self, sockets: Address | list[Address], name: str, **options: Any) -> None:
        self.engine = AsyncEngine(sockets, name, **options)

    def activity(self, action: str, *, store: Store, within: float | None = None) -> int:
        return asyncio.run(self.engine.activity(action, store=store, within=within))

    def do(self, action: str, *, within: float | None = None, ticket: str | None = None) -> int:
        return asyncio.run(self.engine.do(action, within=within, ticket=ticket))


class Place(unittest.TestCase):
    def setUp(self) -> None:
        folder = tempfile.TemporaryDirectory()
        self.addCleanup(folder.cleanup)
        self.folder, self.path = folder.name, os.path.join(folder.name, "socket")


class TestEngine(Place):
    make: Callable[..., Engines] = Engine

    def engine(self, sockets: Address | list[Address] | None = None, **options: Any) -> Engines:
        return type(self).make(self.path if sockets is None else sockets, "e", **{"pause": 0.01, "turn": 5.0, **options})

    def play(self, rows: list[Row], run: Callable[[Engines], Any], **options: Any) -> Any:
        """What `run` gives over an engine whose manager is played by the rows, all of which have to
        come."""
        plays = Rows(rows)
        try:
            with Played(self.path, plays):
                return run(self.engine(**options))
        finally:
            self.assertEqual(plays.faults, [])
            self.assertEqual(plays.rows, [], "not all connections came")

    def test_an_action_is_done_over_all_that_may_pass(self) -> None:
        rows = [
            ("at once", [DONE], 8),
            ("behind a front", [[("front wait 60000", "yes"), *DONE[1:]]], 8),
            ("busy", [[TURN, (ASK, "refused 20 busy until 9")], DONE], 8),
            ("not permitted until a poll tells", [
                REFUSED, [(WATCH, "watching no")], [("poll e_1", "changes 0")], [("poll e_1", f"changes 1\nyes {A}")],
                DROPPED, DONE], 8),
            ("permitted again meanwhile", [REFUSED, [(WATCH, "watching yes")], DROPPED, DONE], 8),
            ("a poll is lost", [
                REFUSED, [(WATCH, "watching no")], [("poll e_1", CLOSE)], [(WATCH, "watching yes")], DROPPED, DONE], 8),
            ("no watches are left", [REFUSED, [(WATCH, "refused 40 watches full")], DROPPED, DONE], 8),
            ("expired", [[TURN, (ASK, "granted 1-2"), ("confirm 1-2", "refused 31 expired")], DONE], 8),
            ("the turn is lost", [[(TURN[0], CLOSE)], DONE], 8),
            ("the ask is lost", [[TURN, (ASK, CLOSE)], DONE], 8),
            ("the confirm is lost and counts", [LOST, [TURN, (OUTCOME, "outcome confirmed 9"), log(9)]], 9),
            ("a confirm without a reservation says nothing", [
                [*DONE[:2], ("confirm 1-3", "refused 30 no such ticket")],
                [TURN, (OUTCOME, "outcome confirmed 9"), log(9)]], 9),
            ("the confirm is lost and the reservation is open", [
                LOST, [TURN, (OUTCOME, "outcome open"), ("confirm 1-3", "confirmed 10"), log(10)]], 10),
            ("it is open, and ends meanwhile", [
                LOST, [TURN, (OUTCOME, "outcome open"), ("confirm 1-3", "refused 31 expired"), *AGAIN]], 10),
            ("the confirm is lost and doesn't count", [LOST, [TURN, (OUTCOME, "outcome never"), *AGAIN]], 10),
            ("the answer is lost too", [
                LOST, [TURN, (OUTCOME, CLOSE)], [TURN, (OUTCOME, "outcome confirmed 9"), log(9)]], 9),
            ("the log's answer is lost", [
                LOST, [TURN, (OUTCOME, "outcome confirmed 9"), ("log 9", CLOSE)],
                [TURN, (OUTCOME, "outcome confirmed 9"), log(9)]], 9),
            ("a line that nobody asked for comes behind a reply", [
                LOST, [TURN, (OUTCOME, "outcome open\nconfirmed 9")],
                [TURN, (OUTCOME, "outcome never"), *AGAIN]], 10),
            ("a line is longer than a reply", [
                [*DONE[:2], ("confirm 1-3", "confirmed " + 300 * "8")],
                [TURN, (OUTCOME, "outcome never"), *AGAIN]], 10),
            ("a number has 65 bits", [
                [*DONE[:2], ("confirm 1-3", f"confirmed {2**64}")], [TURN, (OUTCOME, "outcome never"), *AGAIN]], 10),
        ]
        for name, connections, number in rows:
            with self.subTest(name):
                store = MemoryStore()
                done = self.play(connections, lambda engine: engine.activity(A, store=store, within=100))
                self.assertEqual(done, number)
                kept = read_record(store.text or "")
                self.assertEqual((kept.state, kept.number) if kept else None, ("done", number))

    def test_what_only_people_can_mend_is_raised(self) -> None:
        granted = [TURN, (ASK, "granted 1-3")]
        rows = [
            ([TURN, (ASK, "refused 22 large 100000")], None),
            ([TURN, (ASK, "refused 23 full")], None),
            ([TURN, (ASK, "refused 90 memory")], None),
            ([TURN, (ASK, "refused 12 action")], None),
            ([TURN, (ASK, "granted 01-3")], None),
            ([*granted, ("confirm 1-3", "refused 91 disk")], "1-3"),
        ]
        for row, ticket in rows:
            store = MemoryStore()
            with self.subTest(row[-1]), self.assertRaises(ForPeople) as raised:
                self.play([row], lambda engine: engine.activity(A, store=store, within=100))
            self.assertEqual((raised.exception.ticket, raised.exception.may_count), (ticket, ticket is not None))
            self.assertEqual(store.text, OPEN if ticket else None)

    def test_a_ticket_of_another_action_is_never_believed(self) -> None:
        rows = [
            ("of another action", [(OUTCOME, "outcome confirmed 8"), log(8, "call(ben,xray)")]),
            ("of another action, and open", [
                (OUTCOME, "outcome open"), ("confirm 1-3", "confirmed 8"), log(8, "call(ben,xray)")]),
            ("of no entry", [(OUTCOME, "outcome confirmed 8"), ("log 8", "refused 42 no such entry")]),
            ("that the journal never granted", [(OUTCOME, "refused 30 no such ticket")]),
            ("of a stranger", [(OUTCOME, "confirmed 8")]),
            ("that is left out", [(OUTCOME, "refused 32 left out")]),
            ("whose entry is left out", [(OUTCOME, "outcome confirmed 8"), ("log 8", "refused 33 left out")]),
        ]
        for name, row in rows:
            store = MemoryStore(OPEN)
            with self.subTest(name), self.assertRaises(ForPeople) as raised:
                self.play([[TURN, *row]], lambda engine: engine.activity(A, store=store, within=100))
            self.assertEqual((raised.exception.ticket, store.text), ("1-3", OPEN))
            self.assertEqual(isinstance(raised.exception, LeftOut), "left out" in name)

    def test_settling_says_what_became_of_a_grant(self) -> None:
        class Told:
            def __init__(self, reply: str) -> None:
                self.reply = reply

            def request(self, line: str) -> list[str]:
                return [self.reply if line == OUTCOME else "refused 11 word"]

        rows = [("outcome confirmed 8", Done(8)), ("outcome never", NEVER), ("refused 32 left out", LEFT_OUT)]
        for reply, wanted in rows:
            with self.subTest(reply):
                self.assertEqual(settle(Told(reply), Pending("1-3", A)), wanted)

    def test_a_store_decides_what_is_asked(self) -> None:
        settled = [TURN, (OUTCOME, "outcome confirmed 8"), log(8)]
        rows: list[tuple[str | None, list[Row]]] = [
            (None, [DONE]), (OPEN, [settled]), (f"never 1-2 {A}", [DONE]), (KEPT, [])]
        for text, connections in rows:
            store = MemoryStore(text)
            with self.subTest(str(text)):
                self.assertEqual(self.play(connections, lambda engine: engine.activity(A, store=store, within=100)), 8)
                self.assertEqual(store.text, KEPT)

    def test_a_store_of_something_else_is_refused(self) -> None:
        for text in ("", "open", f"open 1 {A}", f"open 01-3 {A}", f"done 1-3 x {A}", f"open 1-3 {A} x", f"lost 1-3 {A}",
                     "open 1-3 call(ben,xray)", "done 1-3 8 call(ben,xray)"):
            with self.subTest(text), self.assertRaises(ForPeople):
                self.play([], lambda engine: engine.activity(A, store=MemoryStore(text), within=100))

    def test_a_store_that_fails_gives_the_grant_up(self) -> None:
        class Full(MemoryStore):
            def swap(self, old: str | None, new: str) -> bool:
                raise OSError("no space left")

        rows = [*DONE[:2], ("cancel 1-3", "cancelled 1-3")]
        with self.assertRaises(NotKept) as raised:
            self.play([rows], lambda engine: engine.activity(A, store=Full(), within=100))
        self.assertIsNone(raised.exception.ticket)

        class FullBehind(MemoryStore):
            def swap(self, old: str | None, new: str) -> bool:
                return super().swap(old, new) if new.startswith("open ") else Full().swap(old, new)

        with self.assertRaises(NotKept) as raised:
            self.play([DONE], lambda engine: engine.activity(A, store=FullBehind(), within=100))
        self.assertEqual(raised.exception.ticket, "1-3")

    def test_a_ticket_beside_another_run_s_is_given_up(self) -> None:
        class Met(MemoryStore):
            """Another run is done between the ask and its keeping."""

            def swap(self, old: str | None, new: str) -> bool:
                self.text = KEPT
                return super().swap(old, new)

        rows = [*DONE[:1], (ASK, "granted 1-4"), ("cancel 1-4", "cancelled 1-4")]
        self.assertEqual(self.play([rows], lambda engine: engine.activity(A, store=Met(), within=100)), 8)

    def test_a_store_that_says_another_thing_is_for_people(self) -> None:
        class Contrary(MemoryStore):
            """Another run kept that the ticket, which is confirmed here, never will be."""

            def swap(self, old: str | None, new: str) -> bool:
                self.text = new if new.startswith("open ") else f"never 1-3 {A}"
                return self.text == new

        with self.assertRaises(ForPeople) as raised:
            self.play([DONE], lambda engine: engine.activity(A, store=Contrary(), within=100))
        self.assertEqual(raised.exception.ticket, "1-3")

    def test_no_ask_is_sent_before_the_turn_came(self) -> None:
        self.assertEqual(self.play([[(TURN[0], SILENCE)], DONE], lambda engine: engine.do(A, within=100), turn=0.2), 8)

    def test_the_ticket_that_its_caller_kept_is_asked_for_first(self) -> None:
        row = [TURN, (OUTCOME, "outcome confirmed 8"), log(8)]
        self.assertEqual(self.play([row], lambda engine: engine.do(A, within=100, ticket="1-3")), 8)

    def test_the_time_of_the_caller(self) -> None:
        with self.assertRaises(TooLate) as raised:
            self.engine().do(A, within=0.1)  # nobody listens
        self.assertIsNone(raised.exception.ticket)
        machine = Machine()
        plays = Faulty(machine, lambda number, line: UNHEARD if line[0] in "co" else None)
        with Played(self.path, plays), self.assertRaises(TooLate) as raised:
            self.engine().do(A, within=0.3)
        self.assertEqual((raised.exception.ticket, machine.actions), ("1-1", [A]))
        # A front is told how long there is.
        self.assertLessEqual(int(plays.heard[0][0].removeprefix("front wait ")), 300)

    def test_a_manager_that_dies_at_each_line(self) -> None:
        for place, fate in itertools.product(range(1, 8), (LOST_LINE, UNHEARD, KILLED, KILLED_BEHIND)):
            machine, store = Machine(), MemoryStore()
            plays = Faulty(machine, lambda number, line: fate if number == place else None)
            with self.subTest((place, fate)), Played(self.path, plays):
                self.assertEqual(self.engine(lease=50).activity(A, store=store, within=100), 1)
                self.assertEqual(machine.actions, [A])

    def test_a_turn_isn_t_waited_for_beyond_the_caller_s_time(self) -> None:
        begun = time.monotonic()
        with Played(self.path, Rows([[("status", SILENCE)]])), Connection(self.path) as first:
            first.socket.sendall(b"status\n")  # so that nobody else is read
            with self.assertRaises(TooLate):
                self.engine(turn=60.0).do(A, within=0.3)
        self.assertLess(time.monotonic() - begun, 10)

    def test_a_rule_is_waited_for_no_longer_than_the_caller_says(self) -> None:
        machine = Machine(permits=lambda history, action: False)
        with Played(self.path, Faulty(machine)), self.assertRaises(TooLate) as raised:
            self.engine().do(A, within=0.3)
        self.assertIsNone(raised.exception.ticket)
        self.assertEqual(machine.watched, {}, "its watch is dropped")

    def test_an_engine_has_a_socket(self) -> None:
        with self.assertRaises(ValueError):
            self.engine([])

    def test_a_manager_that_comes_later(self) -> None:
        with Played(self.path + "2", Rows([DONE])):
            threading.Timer(0.1, os.link, (self.path + "2", self.path)).start()
            self.assertEqual(self.engine().do(A), 8)

    def test_a_socket_that_may_not_be_opened_is_for_people(self) -> None:
        class Forbidden:
            def __fspath__(self) -> str:
                raise PermissionError("permission denied")

        with self.assertRaises(ForPeople) as raised:
            self.engine(Forbidden()).do(A)
        self.assertIsNone(raised.exception.ticket)

    def test_the_first_socket_that_answers_is_used(self) -> None:
        machine = Machine()
        with Played(self.path, Faulty(machine)):
            engine = self.engine([self.path + "none", self.path])
            self.assertEqual([engine.do(A), engine.do(A)], [1, 2])

    def test_a_socket_that_stays_silent_is_left(self) -> None:
        machine, silent = Machine(), [[(TURN[0], SILENCE)]]
        with Played(self.path + "2", Rows(silent)), Played(self.path, Faulty(machine)):
            self.assertEqual(self.engine([self.path + "2", self.path], turn=0.3).do(A), 1)

    def test_an_action_that_is_no_line_is_refused_before_it_is_sent(self) -> None:
        with self.assertRaises(ValueError):
            self.play([[TURN]], lambda engine: engine.do("call(anna)\nstop"))

    def test_over_tls(self) -> None:
        certificate = trials.make_certificate(self.folder)
        if certificate is None:
            self.skipTest("openssl isn't here")
        context = ssl.SSLContext(ssl.PROTOCOL_TLS_SERVER)
        context.load_cert_chain(certificate)
        machine = Machine()
        with Played("127.0.0.1", Faulty(machine), is_far=True, tls=context) as played:
            address = ("localhost", played.port)
            known = ssl.create_default_context(cafile=certificate)
            self.assertEqual(self.engine(address, tls=known).do(A), 1)
            with self.assertRaises(ForPeople):
                self.engine(address, tls=ssl.create_default_context()).do(A)
        self.assertEqual(machine.actions, [A])


class TestAsyncEngine(TestEngine):
    make: Callable[..., Engines] = Awaited

    def test_a_call_that_is_cancelled_goes_on(self) -> None:
        """Cancelled while it waits for each of the replies in turn; the next call with the same
        store finds out."""
        for place in range(1, 4):
            machine, store = Machine(), MemoryStore()
            plays = Faulty(machine)

            async def run() -> int:
                engine = AsyncEngine(self.path, "e", pause=0.01, lease=50)
                first = asyncio.ensure_future(engine.activity(A, store=store, within=100))
                while len(plays.heard) < place:
                    await asyncio.sleep(0.001)
                first.cancel()
                with contextlib.suppress(asyncio.CancelledError):
                    await first
                return await engine.activity(A, store=store, within=100)

            with self.subTest(place), Played(self.path, plays):
                self.assertEqual(asyncio.run(run()), 1)
                self.assertEqual(machine.actions, [A])

    def test_many_at_once(self) -> None:
        async def run() -> list[int]:
            engine = AsyncEngine(self.path, "e", pause=0.01)
            return await asyncio.gather(*(engine.activity(f"do({it})", store=MemoryStore()) for it in range(20)))

        machine = Machine()
        with Played(self.path, Faulty(machine)):
            self.assertEqual(sorted(asyncio.run(run())), list(range(1, 21)))
        self.assertEqual(sorted(machine.actions), sorted(f"do({it})" for it in range(20)))


class TestBlocking(Place):
    """What the engine that blocks has alone, or shares by its code."""

    def confirmed(self, action: str, number: int) -> list[tuple[str, str]]:
        return [TURN, (f"ask {action} 5000", "granted 2-1"), ("confirm 2-1", f"confirmed {number}")]

    def test_work_is_between_two_actions_and_its_undo_is_a_third(self) -> None:
        for fails, second in ((False, "b"), (True, "c")):
            plays = Rows([self.confirmed("a", 1), self.confirmed(second, 2)])
            with Played(self.path, plays), contextlib.suppress(KeyError):
                with Engine(self.path, "e", pause=0.01).between("a", "b", undo="c"):
                    if fails:
                        raise KeyError
            self.assertEqual((plays.faults, plays.rows), ([], []))

    def test_each_waiter_has_a_name_of_its_own(self) -> None:
        core = Engine(self.path, "e")._core
        first, second = core.take_name(), core.take_name()
        core.give_name(first)
        self.assertEqual((first, second, core.take_name()), ("e_1", "e_2", "e_1"))

    def test_a_late_reply_is_never_taken_for_another_one(self) -> None:
        async def twice() -> None:
            connection = await AsyncConnection.open(self.path)
            with self.assertRaises(OSError):
                await connection.request("status", 0.05)
            await asyncio.sleep(0.3)
            with self.assertRaises(OSError):
                await connection.request("log 1", 1.0)
            await connection.close()

        late = Fate(waits=0.2)
        with Played(self.path, Faulty(Machine(), lambda number, line: late if line == "status" else None)):
            with Connection(self.path, 0.05) as connection:
                with self.assertRaises(OSError):
                    connection.request("status")
                time.sleep(0.3)
                with self.assertRaises(OSError):
                    connection.request("log 1")
            asyncio.run(twice())

    def test_many_threads(self) -> None:
        machine, numbers = Machine(), list[int]()
        with Played(self.path, Faulty(machine)):
            engine = Engine(self.path, "e", pause=0.01)
            threads = [
                threading.Thread(target=lambda it=it: numbers.append(engine.do(f"do({it})"))) for it in range(20)
            ]
            for thread in threads:
                thread.start()
            for thread in threads:
                thread.join()
        self.assertEqual(sorted(numbers), list(range(1, 21)))


class TestStores(Place):
    def stores(self) -> list[Callable[[], Store]]:
        """Each opens the same store anew."""
        return [lambda: FileStore(self.folder + "/kept"), lambda: SqliteStore(self.folder + "/kept.db", "a")]

    def test_what_was_swapped_in_is_there(self) -> None:
        for again in self.stores():
            self.assertIsNone(again().load())
            self.assertFalse(again().swap("x", "y"))
            self.assertTrue(again().swap(None, "x"))
            self.assertFalse(again().swap(None, "y"))
            self.assertFalse(again().swap("y", "z"))
            self.assertTrue(again().swap("x", "y"))
            self.assertEqual(again().load(), "y")

    def test_of_many_that_swap_at_once_one_does(self) -> None:
        for again in self.stores():
            swapped: list[bool] = []
            threads = [
                threading.Thread(target=lambda it=it: swapped.append(again().swap(None, f"{it}"))) for it in range(10)
            ]
            for thread in threads:
                thread.start()
            for thread in threads:
                thread.join()
            self.assertEqual(sorted(swapped), [False] * 9 + [True])

    def test_rows_of_a_database_are_apart(self) -> None:
        first, second = (SqliteStore(self.folder + "/kept.db", key) for key in "ab")
        self.assertTrue(first.swap(None, "x"))
        self.assertIsNone(second.load())

    def test_a_folder_that_is_not_there(self) -> None:
        store = FileStore(self.folder + "/none/kept")
        self.assertIsNone(store.load())
        with self.assertRaises(FileNotFoundError):
            store.swap(None, "x")

    def test_a_record_is_read_as_it_was_written(self) -> None:
        for record in (Record("open", "1-3", A), Record("never", "1-3", A), Record("done", "1-3", A, 2**64 - 1)):
            self.assertEqual(read_record(record.text()), record)


if __name__ == "__main__":
    unittest.main()
