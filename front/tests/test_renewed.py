"""A journal that is renewed between two runs of the manager: the front passes on what was left out, and the audit goes on."""

from __future__ import annotations

import json
import os
import signal
import subprocess

from .support import HERE, IXM, Client, Managed, Manager, last_record, metric, page, wait_until
from .test_log import audit

OLD = "old-journal"


class Renewed(Managed):
    def renew(self, manager: Manager) -> None:
        """Ends the manager, renews its journal, and starts it on the new one."""
        manager.kill()
        subprocess.run([IXM, "renew", "expression", "journal", "new"], cwd=self.folder, stdout=subprocess.DEVNULL, check=True)
        os.rename(f"{self.folder}/journal", f"{self.folder}/{OLD}")
        os.rename(f"{self.folder}/new", f"{self.folder}/journal")
        manager.start()

    def do(self, client: Client, action: str) -> tuple[str, str]:
        """The ticket of an action and the reply to its confirm."""
        ticket = client.ticket(action)
        return ticket, client.told(f"confirm {ticket}")

    def test_what_was_left_out_is_passed_on_and_the_audit_goes_on(self) -> None:
        front = self.front(self.run_of.path)
        client = self.client(front.path)
        first, told = self.do(client, "do(a)")
        self.assertEqual(told, "confirmed 1")
        self.assertEqual(self.do(client, "do(b)")[1], "confirmed 2")
        self.renew(self.run_of)
        for line, reply in ((f"outcome {first}", "refused 32 left out"), ("outcome 1-99", "refused 32 left out"),
                            ("outcome 9-1", "refused 30 no such ticket"), ("log 1", "refused 33 left out"),
                            ("log 2", "refused 33 left out"), ("log 3", "refused 42 no such entry")):
            self.assertEqual(client.told(line), reply, line)
        self.assertTrue(client.told("status").startswith("status complete 2 "))
        second, told = self.do(client, "do(c)")
        self.assertEqual((second, told), ("2-1", "confirmed 3"))
        self.assertEqual(client.told("log 3"), "entry 3 do(c)")
        self.assertEqual(client.told(f"outcome {second}"), "outcome confirmed 3")
        log, journal, old = (f"{self.folder}/{name}" for name in ("log", "journal", OLD))
        wait_until(lambda: last_record(log).get("reply") == "confirmed 3", "the log has it")
        status, lines = audit("--missing", journal, log)
        self.assertEqual((status, lines), (0, ["left out are the first 2 actions: --old names the journal that has them",
                                               "1 actions: all asked for and confirmed by the log, whose chain is whole"]))
        status, lines = audit("--missing", "--old", old, journal, log)
        self.assertEqual((status, lines), (0, ["3 actions: all asked for and confirmed by the log, whose chain is whole"]))
        self.assertTrue(audit("--old", old, journal, log)[1][1].startswith(f"2 1-2 do(b): asked by uid {os.getuid()} "))
        # Of the old journal alone the log tells too much, and without the second one there is a gap.
        self.assertEqual(audit("--missing", old, log)[1][0], "confirmed 3 by ticket 2-1: not in the journal")
        first_one = f"{self.folder}/first"
        os.rename(old, first_one)
        self.renew(self.run_of)
        self.assertEqual(self.do(client, "do(d)")[1], "confirmed 4")
        wait_until(lambda: last_record(log).get("reply") == "confirmed 4", "the log has it")
        self.assertEqual(audit("--old", first_one, journal, log)[0], 2)
        status, lines = audit("--missing", "--old", first_one, "--old", old, journal, log)
        self.assertEqual((status, lines), (0, ["4 actions: all asked for and confirmed by the log, whose chain is whole"]))

    def test_a_confirm_that_was_cut_off_and_left_out_breaks_its_connection(self) -> None:
        front = self.front(self.run_of.path)
        client = self.client(front.path)
        ticket = client.ticket("do(a)")
        os.kill(self.run_of.pid, signal.SIGSTOP)
        client.send(f"confirm {ticket}")
        with Client(front.path) as other:
            other.send("may do(b)")  # behind the confirm, so the front has passed on both
            self.renew(self.run_of)
            self.assertIsNone(client.reply())
            self.assertEqual(other.reply(), "yes")
            self.assertEqual(other.request(f"outcome {ticket}"), "refused 32 left out")

    def test_the_view_names_no_action_that_was_left_out(self) -> None:
        front = self.paged(self.run_of.path, "--page-actions", "--every", "0.1")
        with Client(front.path) as client:
            self.do(client, "do(a)")
            self.renew(self.run_of)
            self.do(client, "do(b)")
        front.stop()
        front.start()
        wait_until(lambda: self.last_ones() == ["do(b)", "left out"], "both are told")

    def test_the_metrics_tell_what_the_renewed_file_holds(self) -> None:
        records = f"{self.folder}/kept.records"
        front = self.paged(self.run_of.path, "--records", records, "--every", "0.1")
        with Client(front.path) as client:
            for action in ("do(a)", "do(b)", "do(c)"):
                self.do(client, action)
            self.assertIsNone(metric(self.folder, "ixm_journal_actions"))
            self.look(front.path)
            wait_until(lambda: metric(self.folder, "ixm_journal_actions") == 3, "what look has written")
            self.renew(self.run_of)
            self.do(client, "do(d)")
            self.look(front.path)
        with open(records, encoding="ascii") as file:
            actions, boots = (int(word) for word in file.read().split())
        # The rules permit each action at any time, so nothing is carried.
        self.assertEqual((actions, boots), (1, 1))
        wait_until(lambda: metric(self.folder, "ixm_journal_actions") == 1, "what look has written")
        told = [metric(self.folder, f"ixm_{name}") for name in ("journal_boots", "history_length", "boots")]
        self.assertEqual(told, [1, 4, 2])
        counts = json.loads(page(self.folder, "/now").partition("\n\n")[2])["counts"]
        self.assertEqual((counts["history"], counts["boots"]), ([1, 1000000], [1, 1000000]))

    def look(self, socket: str) -> None:
        """Has `look` write down what the journal holds."""
        words = ["--front", socket, "--journal", f"{self.folder}/journal", socket, f"{self.folder}/kept", "100000"]
        subprocess.run([f"{HERE}/../../service/look", *words], stdout=subprocess.DEVNULL, check=True)

    def last_ones(self) -> list[str | None]:
        """The names of the last actions that the page has."""
        text = page(self.folder, "/now").partition("\n\n")[2]
        return [done["action"] for done in json.loads(text or '{"last": []}')["last"]]
