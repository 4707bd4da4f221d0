"""How the clients, the line of asks and the connection to the manager go together."""

from __future__ import annotations

import asyncio
import socket
import time
from functools import partial
from itertools import islice
from time import monotonic

from . import protocol
from .asks import Asks
from .client import Client
from .gate import Gate
from .handing import State, hand_over, is_kept, number_of
from .held import Held
from .link import Link
from .log import Log, quoted
from .loop import TurnSelector
from .metrics import BOOTS_LIMIT, HISTORY_LIMIT, WATCHES_LIMIT, Metrics, Now
from .options import Options
from .places import Places
from .policy import Policy, PolicyFault, Rights, read_policy
from .protocol import GRANTED, KEPT, SPENDING, word
from .records import Records, told
from .request import ClientLine, Line, OwnLine
from .unread import Unread
from .view import FIRST, Asked, Recent, Seen, shown
from .watches import Watches
from .who import Who, peer_of

STUCK = 5.0  # seconds without a reply behind which the manager isn't called well
LEFT_AT_ONCE = 1000  # lines without a reply, above which no more are taken of clients that are gone
GONE_AT_ONCE = 16  # clients that are gone which are dealt with in one turn, so that others aren't kept waiting
OFTEN = 20  # the watches of gone clients are looked at in each so manieth sweep


class Front:
    """Takes each line of each client, and sees to it that it gets its one reply."""

    def __init__(self, options: Options, loop: asyncio.AbstractEventLoop, selector: TurnSelector, log: Log) -> None:
        self.options = options
        self.loop = loop
        self.selector = selector
        self.log = log
        self.records = Records(log, options.log_reads)
        self.metrics = Metrics()
        self.is_ending = False
        self.clients: set[Client] = set()
        self.link = Link(self, options.manager)
        self.policy_well = True
        self._unread = Unread(options.unread_all)
        self._gone: dict[Client, None] = {}  # those that are to be let go
        self._places = Places(options)
        self._asks = Asks(self, options.again)
        self._watches = Watches()
        self._recent = Recent()
        self._held_records = Held(options.records, options.every)
        policy = None if options.policy is None else read_policy(options.policy)
        self._rights = Rights(policy, self._watches, options.lease, options.watches, options.asks)
        self._held: dict[ClientLine, None] = {}  # lines but asks that came while there was no manager
        self._asks_status = False
        self._cut_off: list[ClientLine] = []  # confirms and cancels whose replies were lost with a connection
        self._count = 0  # of connections
        self._sweeps = 0
        self._gate = Gate(log, loop, self._asks.send_next)

    # Clients

    def accept(self, sock: socket.socket) -> None:
        """Takes a connection of this machine."""
        try:
            who = peer_of(sock)
        except OSError:
            sock.close()
            return
        self.welcome(sock, who)

    def welcome(self, sock: socket.socket, who: Who) -> None:
        """Takes a connection, or closes it where there are too many."""
        client = self._let_in(sock, who)
        if client is not None:
            client.serve()

    def _let_in(self, sock: socket.socket, who: Who) -> Client | None:
        """Takes a connection, of which nothing is read yet. None where there are too many."""
        self.metrics.connections += 1
        limit = self._places.take(who)
        if limit is not None:
            self.turn_away(limit, told(who))
            sock.close()
            return None
        sock.setblocking(False)
        self._count += 1
        client = Client(self, sock, who, self._count)
        self.clients.add(client)
        self.records.connected(client)
        return client

    def turn_away(self, limit: str, who: str) -> None:
        """Counts and tells that a connection wasn't taken."""
        self.metrics.turned_away[limit.partition(":")[0]] += 1
        self.records.turned_away(limit, who)

    def close(self, client: Client, cause: str) -> None:
        """Closes a connection. What the manager was sent of it is handled, and its replies are dropped."""
        if client.is_closed:
            return
        request = client.request
        if request is not None:
            self._asks.remove(request)
            if cause != "gone" or request.verb not in KEPT:
                self._held.pop(request, None)
        client.close()
        self._gone.pop(client, None)
        self.clients.discard(client)
        self._places.give(client.who)
        self.metrics.closed[cause] += 1
        if cause not in ("done", "gone"):
            self.records.closed(client, cause, None if request is None else request.line)
        if client.ticket and self.options.cancel_unspent and self.link.is_up:
            self._give_back(client.ticket)

    def is_done(self, client: Client) -> None:
        """A client that sends no more has had all its replies."""
        self.close(client, "done")

    def is_gone(self, client: Client) -> None:
        """A client reads no more replies. It is let go in one of the next turns."""
        if not client.is_closed:
            client.rest()
            self._gone[client] = None

    def turn(self) -> bool:
        """Ends a turn of the loop: sends what was gathered in it, and lets some of those go that are gone. Gives whether
        there are more of them."""
        if self._gone:
            for _ in range(min(len(self._gone), GONE_AT_ONCE)):
                self._let_go_of(next(iter(self._gone)))
        self.link.flush()
        return bool(self._gone)

    def _let_go_of(self, client: Client) -> None:
        """What a client that is gone left behind is still handled where it gives something back or tells that something
        has happened; everything else of it is dropped, and its place is free."""
        for line in client.left():
            verb = line.partition(b" ")[0]
            if verb in KEPT and len(line) <= protocol.LINE_LIMIT and self._may_keep(line):
                if self._rights.refusal(client, verb, line) is None:
                    self._pass(ClientLine(line, client, monotonic()))
        self.close(client, "gone")

    def is_blocked(self, client: Client, length: int) -> None:
        """So many bytes of a client's replies wait until it reads them."""
        if self._unread.set(client, length):
            self.loop.call_soon(self._relieve)
            self.selector.give_way()

    def _relieve(self) -> None:
        """Where too much is unread, whoever has read nothing for longest is cut off."""
        while (client := self._unread.worst()) is not None:
            self.close(client, "unread replies of all")

    def _may_keep(self, line: bytes) -> bool:
        """Whether a line of a client that is gone is taken: where many wait already, only those of the open ticket."""
        waiting = max(len(self.link.unanswered), len(self._held))
        return waiting < LEFT_AT_ONCE or bool(self._asks.ticket and word(line, 1) == self._asks.ticket)

    # Lines

    def take(self, client: Client, line: bytes) -> None:
        """Takes a client's line: it is answered here, waits, or goes to the manager."""
        if self.is_ending:
            self.close(client, "front ends")
            return
        request = client.request = ClientLine(line, client, monotonic())
        if self._is_answered_here(client, request):
            return
        if request.verb == b"ask":
            if client.hung_up():
                client.request = None
            elif self.log.is_must and not self.log.is_well():
                self.give_up(request)
            else:
                self._asks.add(request)
        else:
            self._pass(request)

    def _is_answered_here(self, client: Client, request: ClientLine) -> bool:
        """Answers a line that doesn't go to the manager."""
        line, verb = request.line, request.verb
        reply, why = None, ""
        if len(line) > protocol.LINE_LIMIT:
            reply = protocol.TOO_LONG
        elif verb == b"front":
            reply = self._set_wait(client, line)
        elif line == b"stop" and not self.options.allow_stop:
            reply = protocol.NO_SUCH_WORD
        else:
            refusal = self._rights.refusal(client, verb, line)
            if refusal is not None:
                reply, why = refusal.reply, refusal.why
                self.metrics.denied[why] += 1
        if reply is None:
            return False
        self._finish(request, reply, monotonic(), why)
        return True

    def _set_wait(self, client: Client, line: bytes) -> bytes:
        """The reply to `front wait MILLIS`, the front's one request of its own."""
        words = line.split(b" ")
        if len(words) != 3 or words[1] != b"wait":
            return protocol.WRONG_WORDS
        return protocol.YES if client.set_wait(words[2]) else protocol.BAD_NUMBER

    def _pass(self, request: ClientLine) -> None:
        """Sends a line that is no ask, once the manager is there. Where the log must have it, a confirm stands there
        before it is sent."""
        if self.log.is_must and request.verb == b"confirm":
            number = self.records.sends(request.client, request.line)
            self._gate.once_written(number, partial(self._pass_on, request))
        else:
            self._pass_on(request)

    def _pass_on(self, request: ClientLine) -> None:
        if not self.link.is_up:
            self._held[request] = None
            return
        self.link.send(request)
        if request.verb in SPENDING:
            self._asks.is_spent(request.rest)

    def _give_back(self, ticket: bytes) -> None:
        """Cancels a grant that nobody can spend any more."""
        if self.link.is_up:
            self.link.send(OwnLine(b"cancel " + ticket, monotonic()))
            self._asks.is_spent(ticket)

    # Asks

    def can_ask(self) -> bool:
        """Whether the manager can be sent asks now."""
        return self.link.is_up and (not self.log.is_must or self.log.is_well())

    def send(self, request: Line) -> None:
        """Sends a line to the manager."""
        self.link.send(request)

    def give_up(self, request: ClientLine) -> None:
        """An ask that isn't sent: its client is gone, or its wait is over and it can't be asked for."""
        client = request.client
        if client.hung_up():
            self.is_gone(client)
        elif not self.link.is_up:
            self.close(client, "no manager")
        else:
            self._answer(request, protocol.busy(time.time() + self.options.again / 1000), monotonic())

    # Replies

    def replied(self, request: Line, reply: bytes) -> None:
        """The manager's reply to a line."""
        now, metrics = monotonic(), self.metrics
        metrics.manager.add(now - request.sent)
        if isinstance(request, OwnLine):
            self._learn(request, reply)
        elif request.verb == b"ask" or request.verb in SPENDING:
            if reply.startswith(protocol.CONFIRMED):
                metrics.history = number = int(reply[len(protocol.CONFIRMED):])
                self._recent.confirmed(number, now, request, self._asks.granted)
            if self._asks.replied(request, reply, now):
                metrics.sent_again += 1
            else:
                self._answer(request, reply, now)
            self._asks.send_next()
        else:
            told_reply = self._watches.replied(request, reply)
            if told_reply is None:
                self.close(request.client, "watch lost")
            else:
                self._answer(request, told_reply, now)

    def _answer(self, request: ClientLine, reply: bytes, now: float) -> None:
        self._finish(request, reply, now)
        request.client.serve()

    def _finish(self, request: ClientLine, reply: bytes, now: float, why: str = "") -> None:
        """Counts, logs and sends the reply to a client's line, in this order."""
        verb, took = request.verb, now - request.came
        metrics = self.metrics
        metrics.requests[verb if verb in protocol.KNOWN else b"other", protocol.kind_of(reply)] += 1
        if verb == b"ask":
            metrics.ask.add(took)
        elif verb == b"confirm":
            metrics.confirm.add(took)
        number = self.records.answered(request.client, verb, request.line, reply, took, why)
        if number and self.log.is_must and not reply.startswith(b"refused "):
            self._gate.once_written(number, partial(self._send_late, request, reply))
        else:
            self._send(request, reply, now)

    def _send(self, request: ClientLine, reply: bytes, now: float) -> None:
        """Sends a reply to its client. A ticket that reaches nobody is given back: nobody else knows it."""
        client = request.client
        if reply.startswith(GRANTED):
            ticket = reply[len(GRANTED):-1]
            client.ticket = ticket
            self._rights.granted(ticket, client.who)
            self.metrics.ticket = ticket
            if client.request is not request or not client.answer(reply, now):
                client.ticket = b""
                self._give_back(ticket)
            return
        if request.verb in SPENDING and request.rest == client.ticket:
            client.ticket = b""
        if client.request is request:
            client.answer(reply, now)

    def _send_late(self, request: ClientLine, reply: bytes) -> None:
        self._send(request, reply, monotonic())
        request.client.serve()

    def _learn(self, request: OwnLine, reply: bytes) -> None:
        """The reply to one of the front's own lines."""
        if request.verb == b"status":
            self._asks_status = False
            self._note_status(reply)
        elif request.verb == b"cancel":
            self.records.own(request.line, reply)
            self._asks.send_next()
        elif request.verb == b"watch":
            self._watches.set_again(request.line, reply)
        elif request.verb == b"log":
            if reply.startswith(protocol.ENTRY):
                self._recent.named(int(word(reply, 1)), word(reply, 2))
            elif reply == protocol.ENTRY_LEFT_OUT:
                self._recent.named(int(word(request.line, 1)), b"left out")
        elif request.about is not None:
            self._settle(request.about, reply)

    def _note_status(self, reply: bytes) -> None:
        words = reply.split()
        if len(words) == 5:
            self.metrics.history, self.metrics.nodes = int(words[2]), int(words[4])
            self.metrics.is_complete = words[1] == b"complete"
            if self.link.is_up:
                self._ask_names()

    def _ask_names(self) -> None:
        """Asks for the names of last actions that went past the front, where the view is to show them."""
        lacks = self._recent.lacks(self.metrics.history)
        if self.options.page_actions:
            for number in lacks:
                self.send(OwnLine(b"log %d" % number, monotonic()))

    # The manager's end and its next run

    def is_up(self) -> None:
        """The manager answers: first what was watched is watched again, then the cut off lines are settled."""
        now = monotonic()
        self.metrics.manager_starts += 1
        self.metrics.ticket = b""
        self.records.event("manager answers", f'"history": {self.metrics.history}')
        for line in self._watches.lines():
            self.send(OwnLine(line, now))
        for request in self._cut_off:
            self.send(OwnLine(b"outcome " + word(request.line, 1), now, about=request))
        self._cut_off.clear()
        self._ask_names()
        held, self._held = self._held, {}
        for request in held:
            self._pass_on(request)
        self._asks.send_next()

    def is_lost(self, unanswered: list[Line]) -> None:
        """The connection is gone. Only a line that changes nothing by being sent twice may be sent again."""
        self.records.event("manager is gone", f'"unanswered": {len(unanswered)}')
        self._asks_status = False
        for client in list(self.clients):
            if client.ticket and not (client.request is not None and self._spends(client.request)):
                # Its reservation ended with the run, so it has to notice, as it would without a front.
                self.close(client, "reservation lost")
        asks = []
        again: dict[ClientLine, None] = {}
        for request in unanswered:
            if isinstance(request, OwnLine):
                if request.about is not None:
                    self._cut_off.append(request.about)
            elif request.client.is_closed and request.verb not in SPENDING:
                continue
            elif self._spends(request):
                self._cut_off.append(request)
            elif request.verb not in protocol.REPEATABLE:
                self.close(request.client, "reply lost")
            elif request.verb == b"ask":
                asks.append(request)
            else:
                request.sent = 0.0
                again[request] = None
        self._held = again | self._held
        self._asks.is_lost(asks)

    def _spends(self, request: ClientLine) -> bool:
        """Whether this is a confirm or a cancel of some ticket, which was sent."""
        return request.sent > 0.0 and request.verb in SPENDING and len(request.line.split(b" ")) == 2

    def _settle(self, request: ClientLine, reply: bytes) -> None:
        """What the manager says of the ticket of a confirm or a cancel whose reply was lost. One whose client is gone is
        told to the log alone, and isn't sent again."""
        now = monotonic()
        if reply == b"outcome open\n" and not request.client.is_closed:
            self._pass_on(request)
        elif reply == b"outcome never\n" or (reply.startswith(b"outcome confirmed ") and request.verb == b"cancel"):
            self._answer(request, protocol.NO_SUCH_TICKET, now)
        elif reply.startswith(b"outcome confirmed "):
            self._recent.confirmed(int(word(reply, 2)), now, request, self._asks.granted)
            self._answer(request, reply[len(b"outcome "):], now)
        else:
            self.close(request.client, "reply lost")

    # Limits of time, health

    def sweep(self) -> None:
        """Closes the clients that have passed a limit of time, and lets those go that were found gone."""
        now = monotonic()
        for client in list(self.clients):
            request = client.request
            cause = client.why_late(now)
            if cause is None and request is not None:
                since = request.sent or (now if request.verb == b"ask" and now < request.deadline else request.came)
                cause = "no reply" if now - since > self.options.manager_time + self._spare(request) else None
            if cause is not None:
                self.close(client, cause)
            elif not client.is_read() and client.hung_up():
                self.is_gone(client)
        self.records.tell_turned_away()
        self._sweeps += 1
        if self._sweeps % OFTEN == 0 and self.link.is_up:
            for line in self._watches.forget(self.options.idle_time):
                self.send(OwnLine(line, now))

    def _spare(self, request: ClientLine) -> float:
        """How long an ask that wasn't sent may have waited in the line."""
        return request.client.wait if request.verb == b"ask" and not request.sent else 0.0

    def ask_status(self) -> None:
        """Asks for the metrics' numbers, unless they are asked for already."""
        if self.link.is_up and not self._asks_status:
            self._asks_status = True
            self.send(OwnLine(b"status", monotonic()))

    def read_policy(self) -> None:
        """Reads the policy again. A file with a fault changes nothing, and is told."""
        if self.options.policy is None:
            return
        try:
            policy: Policy = read_policy(self.options.policy)
        except PolicyFault as fault:
            self.policy_well = False
            self.records.event("policy not read", f'"why": {quoted(str(fault))}')
            return
        self.policy_well, self._rights.policy = True, policy
        self.records.event("policy read", f'"lines": {len(policy.lines)}')

    def _manager(self) -> tuple[bool, str]:
        """Whether the manager answers, and in words."""
        oldest = self.link.oldest()
        waits = 0.0 if oldest is None else monotonic() - oldest
        is_well = self.link.is_up and waits < STUCK
        return is_well, "answers" if is_well else "doesn't answer" if self.link.is_up else "isn't there or reads another"

    def health(self) -> tuple[bool, str]:
        """Whether the manager answers, and what is known of it, without asking it."""
        is_well, what = self._manager()
        lines = [f"the manager {what}", f"history {self.metrics.history}", f"clients {len(self.clients)}",
                 f"waiting {len(self._asks)}"]
        if not self.log.is_well():
            lines.append("the log isn't written")
            is_well = is_well and not self.log.is_must
        place = self.log.written
        return is_well, "\n".join((*lines, f"log {place.number} {place.chain}", ""))

    def metrics_text(self) -> str:
        """The metrics as Prometheus reads them."""
        asks, now = self._asks, monotonic()
        oldest, holder = asks.oldest(), asks.holder
        reservation = (holder.who.key if holder else "unknown", now - asks.since) if asks.is_open() else None
        return self.metrics.text(Now(
            self.health()[0], self.link.is_up, len(asks), 0.0 if oldest is None else now - oldest, len(self.clients),
            self._unread.bytes, len(self._watches), reservation, self.log.lost, self.log.is_well(), self.log.written.number,
            self.policy_well, self.options.nodes, self._held_records.found))

    def view_text(self) -> str:
        """What people see, as JSON."""
        asks, metrics, now = self._asks, self.metrics, monotonic()
        start = time.time() - now  # of this machine's clock that never goes back
        reservation = None
        if asks.is_open():
            action = asks.granted.action_of(asks.ticket) if asks.granted else None
            reservation = Asked(asks.holder.who.key if asks.holder else None, start + asks.since, action, start + asks.until)
        waiting = [Asked(ask.client.who.key, start + ask.came, shown(ask.line, 1)) for ask in islice(asks.waiting(), FIRST)]
        is_there = self.link.is_up
        # Where nobody tells what the journal's file has, it is taken for one that wasn't renewed.
        actions, boots = self._held_records.found or ((metrics.history, metrics.boots()) if is_there else (None, None))
        return Seen(
            self.health()[0], self._manager()[1], reservation, waiting, len(asks), self._recent.last(metrics.history, start),
            {"history": (actions, HISTORY_LIMIT),
             "nodes": (metrics.nodes if is_there else None, self.options.nodes),
             "boots": (boots, BOOTS_LIMIT),
             "watches": (len(self._watches), WATCHES_LIMIT),
             "clients": (len(self.clients), self.options.clients)}).text(self.options.page_actions)

    def is_idle(self) -> bool:
        """Whether no client's line is at the manager."""
        return not self._gate and all(isinstance(request, OwnLine) for request in self.link.unanswered)

    def let_go(self) -> None:
        """Takes no more lines, as the front is about to end. Clients of this machine are kept for the next one where they
        can be; else those whose lines haven't been sent are closed."""
        self.is_ending = True
        for client in list(self.clients):
            if is_kept() and not client.who.name:
                self._keep(client)
            elif client.request is None or client.request.sent == 0.0:
                self.close(client, "front ends")

    def _keep(self, client: Client) -> None:
        """Keeps a client. Its line is put back where it waits for the manager, and not where it waits for the log."""
        request = client.request
        client.keep(request is not None and (self._asks.remove(request) or self._held.pop(request, request) is None))

    def hand_over(self) -> None:
        """Hands the clients that are kept over to the next front, in the order of their asks."""
        for client in self.clients:
            if client.is_kept:
                self._keep(client)  # an ask may wait again meanwhile
        state, socks, holder = State(tickets=self._rights.tickets()), [], self._asks.holder
        for client in sorted(self.clients, key=lambda client: client.put_back):
            kept = client.kept() if client.is_kept else None
            if kept is not None:
                state.clients[number_of(client.sock)] = kept
                socks.append(client.sock)
        if holder is not None and self._asks.is_open() and not holder.is_closed:
            state.holder = number_of(holder.sock)
            state.reservation = self._asks.ticket.decode("ascii"), self._asks.since, self._asks.until
        if socks:
            hand_over(socks, state)

    def go_on(self, socks: list[socket.socket], state: State) -> None:
        """Goes on with the clients of the front of before."""
        self._rights.go_on(state.tickets)
        clients: dict[str, Client] = {}
        for sock in socks:
            number = number_of(sock)
            if number not in state.clients:
                sock.close()
                continue
            client = self._let_in(sock, peer_of(sock))
            if client is not None:
                clients[number] = client
        if state.holder in clients:
            ticket, since, until = state.reservation
            self._asks.go_on(ticket.encode(), clients[state.holder], since, until)
        for number, kept in state.clients.items():
            if number in clients:
                clients[number].go_on(kept)
