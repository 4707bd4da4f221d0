"""What a client may know by the lines that it was sent, and so which lines it may send next and
what it may say at its end: the rules of docs/client.md, one by one."""

from dataclasses import dataclass, field
from enum import Enum

from ixm import protocol

RULES = {
    1: "an ask is granted only by a whole line `granted T`",
    2: "the ticket is written down before it is confirmed",
    3: "a confirm says done or never by two lines only; everything else is unsure",
    4: "while it is unsure, the outcome is asked for, with pauses",
    5: "done, unsure or neither is said exactly as it was told",
    6: "the same action is asked for again only behind never",
    7: "after a crash of the client it goes on by what is written down, and believes no ticket of another action",
    8: "a cancel says never by two lines only",
    9: "a reply is read exactly, as the whole first line",
}


class Phase(Enum):
    GRANTED = "granted"  # and its lease may be open
    UNSURE = "unsure"
    NEVER = "never"
    DONE = "done"
    MIXED = "of another action"


@dataclass
class Ticket:
    phase: Phase = Phase.GRANTED
    was_confirmed: bool = False  # a confirm was sent, so it may be in the history
    number: str = ""
    is_to_check: bool = False  # done by an outcome, and the log wasn't heard yet
    is_left_out: bool = False  # the last outcome was that


@dataclass
class Judge:
    """What was heard of one action, by all runs of a client. `broken` has the number of each rule
    that was broken, and how; `met` those that were put to the test."""

    action: str
    tickets: dict[str, Ticket] = field(default_factory=dict)
    broken: list[tuple[int, str]] = field(default_factory=list)
    met: set[int] = field(default_factory=set)
    owes: str | None = None  # the ticket of which a new run has to ask first, by what it had to write down
    outcomes: int = 0  # asked for in this run

    def begin(self, keeps: bool) -> None:
        """Another run of the client begins. What was sent and not answered is unsure."""
        self.outcomes = 0
        unsure = [name for name, it in self.tickets.items() if it.phase is Phase.UNSURE]
        self.owes = unsure[-1] if keeps and unsure else None

    def hear(self, line: str, sent: bytes) -> None:
        """The client sent a line, and was sent these bytes for it, or none where it was killed."""
        verb, *words = line.split(" ")
        reply = whole_line(sent)
        if verb in ("ask", "confirm", "cancel", "outcome"):
            self.check_first(line)
        if verb == "ask":
            self.hear_ask(line, reply)
        elif verb in ("confirm", "cancel", "outcome") and len(words) == 1:
            ticket = self.tickets.get(words[0])
            if ticket is None:
                self.broken.append((1, f"`{line}`, which was never granted by a whole line"))
            elif verb == "confirm":
                self.hear_confirm(line, ticket, reply)
            elif verb == "cancel":
                self.hear_cancel(words[0], ticket, reply)
            else:
                self.hear_outcome(ticket, reply)
        elif verb == "log" and reply is not None and reply.startswith("entry "):
            self.hear_entry(reply)

    def check_first(self, line: str) -> None:
        """The first such line of a run asks for the outcome of the ticket that was written down."""
        if self.owes is not None:
            self.met |= {2, 7}
            if line != f"outcome {self.owes}":
                self.broken.append((2, f"a new run began with `{line}`, and not with `outcome {self.owes}`"))
            self.owes = None

    def hear_ask(self, line: str, reply: str | None) -> None:
        self.met.add(1)
        for name, it in self.tickets.items():
            if it.was_confirmed and it.phase is not Phase.NEVER:
                self.met.add(6)
                self.broken.append((6, f"`{line}`, where {name} is {it.phase.value}"))
        if self.tickets:
            self.met.add(6)
        granted = protocol.GRANTED.read(reply)
        if granted is not None:
            self.tickets[granted] = Ticket()

    def hear_confirm(self, line: str, ticket: Ticket, reply: str | None) -> None:
        self.met.add(3)
        if ticket.phase is not Phase.GRANTED:
            self.broken.append((4, f"`{line}`, where it is {ticket.phase.value}"))
        ticket.was_confirmed = True
        number = protocol.CONFIRMED.read(reply)
        if number is not None:
            ticket.phase, ticket.number = Phase.DONE, number
        else:
            ticket.phase = Phase.NEVER if reply == protocol.EXPIRED else Phase.UNSURE

    def hear_cancel(self, name: str, ticket: Ticket, reply: str | None) -> None:
        self.met.add(8)
        is_never = reply == protocol.EXPIRED or protocol.CANCELLED.read(reply) == name
        ticket.phase = Phase.NEVER if is_never else Phase.UNSURE

    def hear_outcome(self, ticket: Ticket, reply: str | None) -> None:
        self.met.add(4)
        self.outcomes += 1
        ticket.is_to_check = True
        ticket.is_left_out = reply == protocol.OUTCOME_LEFT_OUT
        number = protocol.OUTCOME_CONFIRMED.read(reply)
        if number is not None:
            ticket.phase, ticket.number = Phase.DONE, number
        elif reply == protocol.OUTCOME_NEVER:
            ticket.phase = Phase.NEVER
        elif reply == protocol.OUTCOME_OPEN:
            ticket.phase = Phase.GRANTED

    def hear_entry(self, reply: str) -> None:
        """If an entry is another action's, what was told of its number isn't about this one."""
        for it in self.tickets.values():
            told = f"entry {it.number} "
            if it.phase is Phase.DONE and reply.startswith(told):
                it.is_to_check = False
                it.phase = Phase.DONE if reply == told + self.action else Phase.MIXED

    def end(self, put: str, rule: int) -> None:
        """The client ended by itself, and put this. If that isn't what it was told, this rule is
        broken."""
        self.met |= {5, rule}
        wanted = self.wanted()
        is_right = put in wanted if wanted else not put.startswith(("done ", "unsure ", "left out "))
        if not is_right:
            told = " or ".join(f"`{it}`" for it in sorted(wanted)) or "a line that says neither done nor unsure"
            self.broken.append((rule, f"it put {put!r} in place of {told}"))
        if self.outcomes > 50:
            self.broken.append((4, f"it asked {self.outcomes} times for the outcome, so it makes no pauses"))

    def wanted(self) -> set[str]:
        """The lines that it may put; none of them where it may put any line that says neither."""
        confirmed = {name: it for name, it in self.tickets.items() if it.was_confirmed}
        done = [name for name, it in confirmed.items() if it.phase is Phase.DONE]
        open_ones = [name for name, it in confirmed.items() if it.phase is not Phase.NEVER]
        unsure = [name for name in done or open_ones if confirmed[name].is_to_check or not done]
        left_out = {f"left out {it}" for it in unsure if confirmed[it].is_left_out}
        return {f"done {confirmed[it].number}" for it in done} | {f"unsure {it}" for it in unsure} | left_out


def whole_line(sent: bytes) -> str | None:
    """The first line of what was sent, or None if that isn't whole, too long, or no text."""
    line, end, _ = sent.partition(b"\n")
    return line.decode() if end and len(line) <= protocol.LONGEST_REPLY and line.isascii() else None
