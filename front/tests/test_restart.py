"""What the front does when the manager's connection breaks: nothing is answered that no manager said."""

from __future__ import annotations

import contextlib
import socket
import threading

from .replayed import check_run
from .support import Client, Place, wait_until
from .tap import Tap

Reply = str | None
Answers = dict[str, Reply | list[Reply]]


class StandIn:
    """Stands in for a manager, and says what a test tells it to: `answers` gives a reply for a line, and a line that it
    has none for breaks the connection. `heard` holds the lines of each connection."""

    def __init__(self, path: str) -> None:
        self.path = path
        self.answers: Answers = {}
        self.heard: list[list[str]] = []
        self.listener = socket.socket(socket.AF_UNIX)
        self.listener.bind(path)
        self.listener.listen(16)
        threading.Thread(target=self._serve, daemon=True).start()

    def _serve(self) -> None:
        while True:
            try:
                sock, _ = self.listener.accept()
            except OSError:
                return
            lines: list[str] = []
            self.heard.append(lines)
            with contextlib.suppress(ConnectionError), sock, sock.makefile("rb") as file:
                for line in file:
                    lines.append(line.decode().rstrip("\n"))
                    reply = "status complete 0 nodes 1" if lines[-1] == "status" else self.answers.get(lines[-1])
                    if isinstance(reply, list):
                        reply = reply.pop(0) if reply else None
                    if reply is None:
                        break
                    sock.sendall(reply.encode() + b"\n")

    def close(self) -> None:
        self.listener.close()


class Broken(Place):
    """The stand-in breaks off in front of a reply, and is there again at once."""

    def setUp(self) -> None:
        super().setUp()
        self.stand_in = StandIn(f"{self.folder}/stand-in")
        self.addCleanup(self.stand_in.close)
        self.through = self.front(self.stand_in.path, "--allow-stop")

    def broken(self, lines: list[str], answers: Answers) -> tuple[str | None, list[str]]:
        """What a client gets for the last of these lines, and what the connection behind the break heard."""
        self.stand_in.answers = answers
        heard = self.stand_in.heard
        wait_until(lambda: bool(heard and heard[-1]), "the stand-in is asked")
        before = len(heard)
        with Client(self.through.path) as client:
            for line in lines[:-1]:
                self.assertIsNotNone(client.request(line))
            reply = client.request(lines[-1])
        wait_until(lambda: len(heard) > before and bool(heard[-1]), "the next connection")
        return reply, heard[before]

    def test_a_confirm_is_answered_by_what_its_outcome_is(self) -> None:
        rows: tuple[tuple[str, str | None], ...] = (
            ("outcome confirmed 7", "confirmed 7"),
            ("outcome never", "refused 30 no such ticket"),
            ("refused 30 no such ticket", None),
            ("refused 11 word", None),
        )
        for outcome, wanted in rows:
            with self.subTest(outcome):
                answers: Answers = {"ask do(a) 9000": "granted 1-1", "outcome 1-1": outcome}
                reply, heard = self.broken(["ask do(a) 9000", "confirm 1-1"], answers)
                self.assertEqual((reply, heard), (wanted, ["status", "outcome 1-1"]))

    def test_a_cancel_is_answered_by_what_its_outcome_is(self) -> None:
        for outcome in ("outcome confirmed 7", "outcome never"):
            with self.subTest(outcome):
                reply, heard = self.broken(["cancel 1-1"], {"outcome 1-1": outcome})
                self.assertEqual((reply, heard), ("refused 30 no such ticket", ["status", "outcome 1-1"]))

    def test_a_confirm_goes_on_where_its_reservation_is_still_open(self) -> None:
        answers: Answers = {"outcome 1-1": "outcome open", "confirm 1-1": [None, "confirmed 3"]}
        reply, heard = self.broken(["confirm 1-1"], answers)
        self.assertEqual((reply, heard), ("confirmed 3", ["status", "outcome 1-1", "confirm 1-1"]))

    def test_what_changes_nothing_is_sent_again(self) -> None:
        rows = {"ask do(a) 9000": "granted 1-1", "may do(a)": "yes", "drop n do(a)": "dropped", "poll n": "changes 0",
                "log 1": "entry 1 do(a)", "outcome 1-1": "outcome never", "watch n do(a)": "watching no"}
        for line, wanted in rows.items():
            with self.subTest(line):
                reply, heard = self.broken([line], {line: [None, wanted]})
                self.assertEqual((reply, heard), (wanted, ["status", line]))

    def test_what_might_change_something_is_not(self) -> None:
        for line in ("stop", "spot", "confirm", "extend 1 5"):
            with self.subTest(line):
                reply, heard = self.broken([line], {})
                self.assertEqual((reply, heard), (None, ["status"]))


class Restarted(Place):
    """The real manager, killed and started again on its journal."""

    expression = "a - b | *c"

    def setUp(self) -> None:
        super().setUp()
        self.run_of = self.manager()
        self.tap = Tap(f"{self.folder}/tap", self.run_of.path)
        self.addCleanup(self.tap.close)
        self.through = self.front(self.tap.path)

    def restart(self) -> None:
        self.run_of.kill()
        self.run_of.start()

    def check(self) -> None:
        """Each run of the manager replied as the machine does."""
        for journal, session in zip(self.run_of.runs, self.tap.sessions):
            check_run(self, self.folder, journal, [session.pairs()])

    def test_watches_are_set_again_and_nothing_is_missed(self) -> None:
        with Client(self.through.path) as client, Client(self.through.path) as other:
            for line, reply in (("watch n b", "watching no"), ("watch n a", "watching yes"), ("watch n c", "watching yes"),
                                ("watch m b", "watching no"), ("drop m b", "dropped"), ("poll n", "changes 0")):
                self.assertEqual(client.request(line), reply)
            ticket = other.told("ask a 60000").split()[1]
            self.assertEqual(other.request(f"confirm {ticket}"), "confirmed 1")
            self.restart()
            # Without the restart it would be told this.
            self.assertEqual(client.request("poll n"), "changes 3\nyes b\nno a\nno c")
            self.assertEqual(client.request("poll n"), "changes 0")
            ticket = other.told("ask b 60000").split()[1]
            self.assertEqual(other.request(f"confirm {ticket}"), "confirmed 2")
            self.assertEqual(client.request("poll n"), "changes 1\nno b")
        own = [line for line, _ in self.tap.sessions[-1].pairs()][:4]
        self.assertEqual(own, [b"status", b"watch n b", b"watch n a", b"watch n c"])
        self.check()

    def test_who_has_a_reservation_is_told_and_others_go_on(self) -> None:
        with (Client(self.through.path) as holder, Client(self.through.path) as waiting,
              Client(self.through.path) as silent):
            self.assertEqual(silent.request("may c"), "yes")
            self.assertTrue(holder.told("ask c 60000").startswith("granted "))
            waiting.send("ask c 60000")
            self.assertEqual(silent.request("may c"), "yes")
            self.restart()
            # Its reservation has ended, so its connection is closed, as it would be without a front.
            self.assertIsNone(holder.reply())
            ticket = (waiting.reply() or "").split()
            self.assertEqual(ticket[0], "granted")
            self.assertEqual(waiting.request(f"confirm {ticket[1]}"), "confirmed 1")
            self.assertEqual(silent.request("log 1"), "entry 1 c")
        self.check()

    def test_a_line_waits_for_the_manager_and_not_for_ever(self) -> None:
        self.through.stop()
        self.through = self.front(self.tap.path, "--manager-time", "1", "--wait", "200")
        self.run_of.kill()
        with Client(self.through.path) as asks, Client(self.through.path) as looks:
            asks.send("ask c 60000")
            looks.send("may c")
            self.assertIsNone(asks.reply())
            self.assertIsNone(looks.reply())
        with Client(self.through.path) as client:
            client.send("may c", "ask c 60000")
            self.run_of.start()
            self.assertEqual(client.reply(), "yes")
            self.assertTrue((client.reply() or "").startswith("granted "))
