"""The log: whole, in order, never in the way, and a proof of who did what."""

from __future__ import annotations

import json
import os
import resource
import signal
import subprocess
import time

from .support import AUDIT, Client, Front, Managed, Manager, Place, last_record, metric, page, read_records, records, wait_until


def audit(*words: str) -> tuple[int, list[str]]:
    """The status and the lines of front/audit."""
    ran = subprocess.run([AUDIT, *words], stdout=subprocess.PIPE, text=True)
    return ran.returncode, ran.stdout.split("\n")[:-1]


class Logged(Managed):
    def logged(self) -> str:
        return f"{self.folder}/log"

    def act(self, front: Front, *actions: str) -> list[str]:
        """Does these actions, and gives their tickets."""
        tickets = []
        with Client(front.path) as client:
            for action in actions:
                tickets.append(client.ticket(action))
                self.assertTrue(client.told(f"confirm {tickets[-1]}").startswith("confirmed "))
        return tickets

    def test_a_reader_of_the_log_that_stands_still_holds_up_nobody(self) -> None:
        front = Front(self.folder, self.run_of.path, "--page", f"{self.folder}/page")
        front.words[front.words.index("--log") + 1] = "-"
        self.addCleanup(front.stop, signal.SIGKILL)
        reader, writer = os.pipe()
        front.process = subprocess.Popen(front.words, stdout=writer)
        os.close(writer)
        wait_until(lambda: os.path.exists(front.path), "it listens")
        with Client(front.path) as client:
            for _ in range(700):  # a pipe holds 64 kilobytes
                self.assertTrue(client.told("cancel 1-99").startswith("refused 30 "))
            wait_until(lambda: metric(self.folder, "ixm_front_log_well") == 0, "it is told that the log isn't written")
            self.assertIn("the log isn't written\n", page(self.folder, "/health"))
            self.assertIn(" 200 OK", page(self.folder, "/health"))
        start = time.monotonic()
        self.assertEqual(front.stop(), 0)
        self.assertLess(time.monotonic() - start, 10)
        os.close(reader)

    def test_a_log_that_cannot_be_opened_again_stays(self) -> None:
        front = self.front(self.run_of.path)
        self.act(front, "do(a)")
        os.mkdir(f"{self.folder}/old")
        os.rename(self.logged(), f"{self.folder}/old/log")
        os.mkdir(self.logged())  # so that it can't be opened
        os.kill(front.pid, signal.SIGHUP)
        kept = f"{self.folder}/old/log"
        wait_until(lambda: last_record(kept).get("event") == "log not opened again", "it is told")
        self.act(front, "do(b)")
        wait_until(lambda: last_record(kept).get("reply") == "confirmed 2", "it goes on in the old file")
        os.rmdir(self.logged())
        os.kill(front.pid, signal.SIGHUP)
        wait_until(lambda: os.path.exists(self.logged()), "the new file")
        self.act(front, "do(c)")
        wait_until(lambda: last_record(self.logged()).get("reply") == "confirmed 3", "it goes on in the new file")
        status, lines = audit(f"{self.folder}/journal", kept, self.logged())
        self.assertEqual((status, lines[-1]), (0, "3 actions: all asked for and confirmed by the log, whose chain is whole"))

    def test_a_full_disk_tears_one_line_and_loses_none(self) -> None:
        front = self.paged(self.run_of.path)
        self.act(front, "do(a)")
        wait_until(lambda: last_record(self.logged()).get("reply") == "confirmed 1", "it is written")
        front.allow(resource.RLIMIT_FSIZE, os.path.getsize(self.logged()) + 100)
        self.act(front, *[f"do(b{number})" for number in range(20)])
        wait_until(lambda: metric(self.folder, "ixm_front_log_well") == 0, "it is told that the log isn't written")
        front.allow(resource.RLIMIT_FSIZE, resource.RLIM_INFINITY)
        wait_until(lambda: metric(self.folder, "ixm_front_log_well") == 1, "it is written again")
        with open(self.logged(), "rb") as file:
            lines = file.read().split(b"\n")[:-1]
        torn = [line for line in lines if not line.endswith(b"}")]
        self.assertEqual(len(torn), 1)
        numbers = [json.loads(line)["n"] for line in lines if line not in torn]
        self.assertEqual(numbers, list(range(1, len(numbers) + 1)))
        self.assertEqual(metric(self.folder, "ixm_front_log_lost_total"), 0)
        status, lines_told = audit(f"{self.folder}/journal", self.logged())
        self.assertEqual((status, lines_told[-1]),
                         (0, "21 actions: all asked for and confirmed by the log, whose chain is whole"))

    def test_with_log_must_nothing_is_answered_that_the_log_does_not_have(self) -> None:
        front = self.paged(self.run_of.path, "--log-must", "--log-sync")
        self.act(front, "do(a)")
        with Client(front.path) as holder, Client(front.path) as client:
            ticket = holder.ticket("do(h)")
            front.allow(resource.RLIMIT_FSIZE, os.path.getsize(self.logged()) + 50)
            holder.send(f"confirm {ticket}")
            wait_until(lambda: metric(self.folder, "ixm_front_log_well") == 0, "it is told that the log isn't written")
            self.assertIn(" 503 ", page(self.folder, "/ready"))
            client.request("front wait 0")
            self.assertTrue(client.told("ask do(b) 1000").startswith("refused 20 busy until "))
            # The confirm isn't sent before the log has it.
            with Client(self.folder + "/front") as other:
                self.assertEqual(other.request("log 2"), "refused 42 no such entry")
            front.allow(resource.RLIMIT_FSIZE, resource.RLIM_INFINITY)
            self.assertEqual(holder.reply(), "confirmed 2")
            self.assertTrue(client.told("ask do(b) 1000").startswith("granted "))
        found = read_records(self.logged())
        sent = [it["n"] for it in found if it.get("event") == "sends" and it["request"] == f"confirm {ticket}"]
        told = [it["n"] for it in found if it.get("reply") == "confirmed 2"]
        self.assertLess(sent[0], told[0])

    def test_who_connected_and_what_was_read(self) -> None:
        front = self.front(self.run_of.path, "--log-reads")
        with Client(front.path) as client:
            for line in ("may do(a)", "log 1", "watch n do(a)", "poll n", "drop n do(a)", "outcome 1-1", "status"):
                self.assertIsNotNone(client.request(line))
        found = records(self.folder, lambda found: any(it.get("request") == "status" for it in found))
        self.assertEqual([it["request"].split()[0] for it in found if "request" in it],
                         ["may", "log", "watch", "poll", "drop", "outcome", "status"])
        connected = [it for it in found if it.get("event") == "connected" and it["pid"] == os.getpid()][-1]
        with open("/proc/self/cgroup") as file:
            cgroup = file.readline().rpartition(":")[2].rstrip("\n")
        self.assertEqual((connected["uid"], connected["gid"], connected["cgroup"]), (os.getuid(), os.getgid(), cgroup))
        self.assertEqual({it["client"] for it in found if "request" in it}, {connected["client"]})

    def test_what_is_missing_is_found_exactly(self) -> None:
        """Lines of the log are taken out, changed and moved; an action goes past the front."""
        front = self.front(self.run_of.path)
        tickets = self.act(front, *[f"do(a{number})" for number in range(5)])
        front.stop()
        with Client(self.run_of.path) as straight:
            past = straight.ticket("do(past)")
            straight.request(f"confirm {past}")
        front.start()
        tickets += [past, *self.act(front, "do(z)")]
        front.stop()
        with open(self.logged()) as file:
            lines = file.read().split("\n")[:-1]
        place = {words: number for number, line in enumerate(lines) for words in (
            f"{json.loads(line).get('request')} -> {json.loads(line).get('reply')}",)}
        asked, confirmed = place[f"ask do(a1) 60000 -> granted {tickets[1]}"], place[f"confirm {tickets[3]} -> confirmed 4"]
        whole = ["6 1-6 do(past): no ask in the log", "6 1-6 do(past): no confirm in the log"]
        rows = (
            (lines, whole),
            ([*lines[:asked], *lines[asked + 1:]],
             [f"2 {tickets[1]} do(a1): no ask in the log", f"record {asked + 1} is missing", *whole]),
            ([*lines[:confirmed], *lines[confirmed + 1:]],
             [f"4 {tickets[3]} do(a3): no confirm in the log", f"record {confirmed + 1} is missing", *whole]),
            ([*lines[:asked], lines[asked].replace("do(a1)", "do(a7)"), *lines[asked + 1:]],
             [f"2 {tickets[1]} do(a1): no ask in the log", f"record {asked + 1} was changed, or one before it", *whole]),
            (lines[2:], whole),
            ([*lines[:4], *lines[1:4], *lines[4:]], whole),  # a batch written again behind a sync that failed
        )
        for changed, wanted in rows:
            with self.subTest(wanted[0]):
                with open(f"{self.folder}/changed", "w") as file:
                    file.write("".join(f"{line}\n" for line in changed))
                status, told = audit("--missing", f"{self.folder}/journal", f"{self.folder}/changed")
                self.assertEqual(status, 1)
                self.assertEqual(sorted(told[:-1]), sorted(wanted))
        status, told = audit(f"{self.folder}/journal", self.logged())
        first = json.loads(lines[place[f"ask do(a0) 60000 -> granted {tickets[0]}"]])
        who = f"uid {os.getuid()} pid {os.getpid()} client {first['client']}"
        self.assertIn(f"1 {tickets[0]} do(a0): asked by {who} at {first['time']}, confirmed by {who} at ", told[0])

    def test_a_front_that_is_killed_leaves_what_is_missing_to_be_found(self) -> None:
        """The confirm is handled, and the front is killed before it has its reply."""
        front = self.front(self.run_of.path)
        with Client(front.path) as client:
            ticket = client.ticket("do(a)")
            records(self.folder, lambda found: any(it.get("reply") == f"granted {ticket}" for it in found))
            os.kill(self.run_of.pid, signal.SIGSTOP)
            client.send(f"confirm {ticket}")
            time.sleep(0.3)
            front.stop(signal.SIGKILL)
            os.kill(self.run_of.pid, signal.SIGCONT)
        with Client(self.run_of.path) as straight:
            self.assertEqual(straight.request("log 1"), "entry 1 do(a)")
        status, told = audit("--missing", f"{self.folder}/journal", self.logged())
        self.assertEqual((status, told[:-1]), (1, [f"1 {ticket} do(a): no confirm in the log"]))

    def test_each_start_goes_on_where_the_log_stands(self) -> None:
        front = self.front(self.run_of.path)
        for turn in range(3):
            self.act(front, f"do(a{turn})")
            wait_until(lambda: last_record(self.logged()).get("reply") == f"confirmed {turn + 1}", "it is written")
            front.stop(signal.SIGKILL if turn else signal.SIGTERM)
            with open(self.logged(), "a") as file:
                file.write('{"n": 9, "ti')  # torn by a loss of power
            front.start()
        front.stop()
        status, told = audit(f"{self.folder}/journal", self.logged())
        self.assertEqual((status, told[-1]), (0, "3 actions: all asked for and confirmed by the log, whose chain is whole"))


class OtherJournal(Place):
    def test_a_journal_that_was_put_back_is_found(self) -> None:
        """The log has actions that the journal doesn't."""
        manager = Manager(self.folder)
        self.addCleanup(manager.kill)
        front = self.front(manager.start().path)
        with Client(front.path) as client:
            for number in range(2):
                ticket = client.ticket(f"do(a{number})")
                client.request(f"confirm {ticket}")
                if not number:
                    with open(f"{self.folder}/journal", "rb") as file:
                        before = file.read()
        front.stop()
        with open(f"{self.folder}/before", "wb") as file:
            file.write(before)
        status, told = audit("--missing", f"{self.folder}/before", f"{self.folder}/log")
        self.assertEqual((status, told[:-1]), (1, ["confirmed 2 by ticket 1-2: not in the journal"]))


