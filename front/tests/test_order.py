"""First come, first served, also among those that don't want to wait."""

from __future__ import annotations

import os
import select
import subprocess
import sys
import time

from .support import HERE, Client, Place, page, wait_until


class Order(Place):
    def test_a_wait_of_0_passes_nobody(self) -> None:
        """While others are in the line, an ask that may not wait is answered 20, whatever is free for a moment."""
        front = self.paged(self.manager().path)
        with Client(front.path) as holder, Client(front.path) as rude:
            rude.request("front wait 0")
            ticket = holder.ticket("do(h)")
            clients = [self.client(front.path) for _ in range(5)]
            for number, client in enumerate(clients):
                client.send(f"ask do(w{number}) 60000")
                wait_until(lambda: f"waiting {number + 1}\n" in page(self.folder, "/health"), "it waits")
            self.assertTrue(rude.told("ask do(rude) 60000").startswith("refused 20 busy until "))
            for client in clients:
                # Both reach the front together, and the ask stands behind the line.
                holder.send(f"confirm {ticket}")
                rude.send("ask do(rude) 60000")
                self.assertTrue((holder.reply() or "").startswith("confirmed "))
                ticket = (client.reply() or "").removeprefix("granted ")
                self.assertTrue((rude.reply() or "").startswith("refused 20 busy until "))
                holder = client
            self.assertTrue(holder.told(f"confirm {ticket}").startswith("confirmed "))
            # With nobody in the line it is served.
            self.assertTrue(rude.told("ask do(rude) 60000").startswith("granted "))

    def test_rude_engines_get_no_more_than_polite_ones(self) -> None:
        """Five that don't wait ask as fast as they can against five that do."""
        front = self.front(self.manager().path)
        polite = [self.client(front.path) for _ in range(5)]
        rude = [self.client(front.path) for _ in range(5)]
        for client in rude:
            client.request("front wait 0")
        done = {id(client): 0 for client in (*polite, *rude)}
        for client in (*polite, *rude):
            client.send("ask do(a) 60000")
        of = {client.sock: client for client in (*polite, *rude)}
        end = time.monotonic() + 3
        while time.monotonic() < end:
            for sock in select.select(list(of), [], [], 1)[0]:
                client = of[sock]
                reply = client.reply() or ""
                if reply.startswith("granted "):
                    client.send(f"confirm {reply.split()[1]}")
                    continue
                done[id(client)] += reply.startswith("confirmed ")
                client.send("ask do(a) 60000")
        least = min(done[id(client)] for client in polite)
        self.assertGreater(least, 0)
        self.assertLessEqual(max(done[id(client)] for client in rude), least + 1)

    def test_an_ask_behind_ones_own_reservation_is_answered_at_once(self) -> None:
        front = self.front(self.manager().path)
        with Client(front.path) as client, Client(front.path) as other:
            ticket = client.ticket("do(a)")
            other.send("ask do(c) 60000")
            start = time.monotonic()
            client.send("ask do(b) 60000", f"confirm {ticket}")
            self.assertTrue((client.reply() or "").startswith("refused 20 busy until "))
            self.assertEqual(client.reply(), "confirmed 1")
            self.assertLess(time.monotonic() - start, 20)
            self.assertTrue((other.reply() or "").startswith("granted "))

    def test_an_engine_on_the_module_keeps_its_place(self) -> None:
        """Its ask waits longer than another reply may take, and is served before one that came later."""
        front = self.paged(self.manager().path)
        engine = f"""
import sys
sys.path.insert(0, {os.path.join(HERE, "../../python")!r})
from ixm import core, engine
core.REPLY = 0.5
print(engine.Engine({front.path!r}, "e").do("do(e)"))
"""
        with Client(front.path) as holder, Client(front.path) as later:
            ticket = holder.ticket("do(a)")
            process = subprocess.Popen([sys.executable, "-c", engine], stdout=subprocess.PIPE, text=True)
            wait_until(lambda: "waiting 1\n" in page(self.folder, "/health"), "its ask waits")
            later.send("ask do(b) 60000")
            time.sleep(1.5)
            holder.request(f"confirm {ticket}")
            self.assertEqual(process.communicate(timeout=60)[0], "2\n")
            self.assertTrue((later.reply() or "").startswith("granted "))

    def test_a_half_line_behind_a_long_wait_costs_nothing(self) -> None:
        front = self.front(self.manager().path, "--line-time", "1")
        with Client(front.path) as holder, Client(front.path) as client:
            ticket = holder.ticket("do(a)")
            client.sock.sendall(b"ask do(b) 60000\nconfirm ")
            time.sleep(2)
            self.assertEqual(holder.request(f"confirm {ticket}"), "confirmed 1")
            granted = (client.reply() or "").split()
            self.assertEqual(granted[0], "granted")
            time.sleep(0.6)
            client.send(granted[1])
            self.assertEqual(client.reply(), "confirmed 2")
