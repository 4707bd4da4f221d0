"""Counts and times, and their text in the form that Prometheus reads."""

from __future__ import annotations

import os
import resource
import time
from bisect import bisect_left
from collections import Counter
from dataclasses import dataclass

from .protocol import number
from .version import version

BOUNDS = (0.0005, 0.001, 0.0025, 0.005, 0.01, 0.025, 0.05, 0.1, 0.25, 0.5, 1.0, 2.5, 5.0, 10.0, 30.0, 60.0)
HISTORY_LIMIT = 1000000
WATCHES_LIMIT = 4096
BOOTS_LIMIT = 1000000


class Histogram:
    """How many times were at most as long as each bound, in seconds."""

    def __init__(self) -> None:
        self.counts = [0] * (len(BOUNDS) + 1)
        self.sum = 0.0

    def add(self, seconds: float) -> None:
        """Counts one time."""
        self.counts[bisect_left(BOUNDS, seconds)] += 1
        self.sum += seconds

    def lines(self, name: str) -> list[str]:
        """Its lines under this name."""
        lines, total = [], 0
        for bound, count in zip((*BOUNDS, "+Inf"), self.counts):
            total += count
            lines.append(f'{name}_bucket{{le="{bound}"}} {total}')
        return [*lines, f"{name}_sum {self.sum:.6f}", f"{name}_count {total}"]


@dataclass(frozen=True)
class Now:
    """What the metrics tell of this moment, and what isn't known is None."""

    is_up: bool
    is_connected: bool
    waiting: int
    oldest_wait: float
    clients: int
    unread: int
    watches: int
    reservation: tuple[str, float] | None  # whose it is, and its age in seconds
    log_lost: int
    log_well: bool
    log_number: int
    policy_well: bool
    nodes_limit: int
    held: tuple[int, int] | None  # the journal's records of actions and of boots


class Metrics:
    """What the front has counted since it began. `history`, `nodes`, `is_complete` and `ticket`, the last one that was
    granted, are by the manager's last word."""

    def __init__(self) -> None:
        self.requests: Counter[tuple[bytes, bytes]] = Counter()
        self.closed: Counter[str] = Counter()
        self.turned_away: Counter[str] = Counter()
        self.denied: Counter[str] = Counter()
        self.connections = 0
        self.manager_starts = 0
        self.sent_again = 0
        self.faults_passed = 0
        self.ask = Histogram()
        self.confirm = Histogram()
        self.manager = Histogram()
        self.history = 0
        self.nodes = 0
        self.is_complete = False
        self.ticket = b""
        self.began = time.time()

    def boots(self) -> int | None:
        """The starts of a manager, those of before a renewal too, which a ticket begins with; None where none was
        granted."""
        return number(self.ticket.partition(b"-")[0])

    def text(self, now: Now) -> str:
        """All of them."""
        page = Text()
        self._put_now(page, now)
        self._put_counts(page, now)
        for name, histogram, about in (
                ("ixm_front_ask_seconds", self.ask, "From an ask's coming to its reply, with its waiting."),
                ("ixm_front_confirm_seconds", self.confirm, "From a confirm's coming to its reply."),
                ("ixm_front_manager_seconds", self.manager, "From sending a line to the manager to its reply.")):
            page.put(name, "histogram", about, *histogram.lines(name))
        return page.text()

    def _put_now(self, page: Text, now: Now) -> None:
        gauge = page.gauge
        gauge("ixm_front_up", "Whether the manager answers, as /ready tells it.", int(now.is_up))
        gauge("ixm_front_written_seconds", "When this was written, in seconds since 1970.", f"{time.time():.3f}")
        gauge("ixm_front_start_seconds", "When the front began, in seconds since 1970.", f"{self.began:.3f}")
        page.put("ixm_front_build", "gauge", "The version, in its label.", f'ixm_front_build{{version="{version()}"}} 1')
        gauge("ixm_front_waiting", "Asks that wait in the line.", now.waiting)
        gauge("ixm_front_oldest_wait_seconds", "How long the longest of them has waited.", f"{now.oldest_wait:.3f}")
        gauge("ixm_front_clients", "Connections of clients.", now.clients)
        gauge("ixm_front_unread_bytes", "Replies that their clients haven't read.", now.unread)
        gauge("ixm_watches", "Watches that are set.", now.watches)
        gauge("ixm_watches_limit", "How many there may be.", WATCHES_LIMIT)
        gauge("ixm_front_log_well", "Whether the log is written.", int(now.log_well))
        gauge("ixm_front_log_number", "The number of the log's last record.", now.log_number)
        gauge("ixm_front_policy_well", "Whether the policy's file was read the last time it was to be.",
              int(now.policy_well))
        user, age = now.reservation or ("", 0.0)
        page.put("ixm_reservation_age_seconds", "gauge", "How long the open reservation is open, and whose it is.",
                 *([f'ixm_reservation_age_seconds{{user="{escaped(user)}"}} {age:.3f}'] if now.reservation else []))
        if now.is_connected:
            # What an absent manager said last is no longer true.
            gauge("ixm_history_length", "Actions of the history.", self.history)
            gauge("ixm_nodes", "Size of the manager's state.", self.nodes)
            gauge("ixm_complete", "Whether the history is complete.", int(self.is_complete))
            boots = self.boots()
            if boots is not None:
                gauge("ixm_boots", "Starts of a manager, those of before a renewal too.", boots)
        if now.held is not None:
            gauge("ixm_journal_actions", "Actions that the journal's file has.", now.held[0])
            gauge("ixm_journal_boots", "Starts that the journal's file has.", now.held[1])
        gauge("ixm_history_limit", "How many actions the journal's file may have.", HISTORY_LIMIT)
        gauge("ixm_boots_limit", "How many starts it may have.", BOOTS_LIMIT)
        gauge("ixm_nodes_limit", "How large the state may be, as --nodes says.", now.nodes_limit)
        used = resource.getrusage(resource.RUSAGE_SELF)
        page.count("process_cpu_seconds_total", "Processor time of the front.", f"{used.ru_utime + used.ru_stime:.3f}")
        gauge("process_resident_memory_bytes", "Memory of the front.", resident())
        gauge("process_open_fds", "Open files of the front.", open_files())

    def _put_counts(self, page: Text, now: Now) -> None:
        page.many("ixm_front_requests_total", "Answered lines by request and reply.", {
            f'request="{told(verb)}",reply="{told(reply)}"': count
            for (verb, reply), count in self.requests.items()})
        for name, about, label, counts in (
                ("ixm_front_closed_total", "Connections that the front closed, by the cause.", "cause", self.closed),
                ("ixm_front_turned_away_total", "Connections closed at once, by the limit.", "limit", self.turned_away),
                ("ixm_front_denied_total", "Lines refused by the front, by the cause.", "cause", self.denied)):
            page.many(name, about, {f'{label}="{escaped(key)}"': count for key, count in counts.items()})
        page.count("ixm_front_connections_total", "Connections that were taken.", self.connections)
        page.count("ixm_front_manager_starts_total", "Connections to a manager.", self.manager_starts)
        page.count("ixm_front_sent_again_total", "Asks that were busy and waited on.", self.sent_again)
        page.count("ixm_front_faults_passed_total", "Faults that were passed over.", self.faults_passed)
        page.count("ixm_front_log_lost_total", "Records of the log that were lost.", now.log_lost)


class Text:
    """The lines of the page."""

    def __init__(self) -> None:
        self._lines: list[str] = []

    def put(self, name: str, kind: str, about: str, *values: str) -> None:
        """One metric with all its lines."""
        self._lines.extend((f"# HELP {name} {about}", f"# TYPE {name} {kind}", *values))

    def gauge(self, name: str, about: str, value: int | str) -> None:
        """One that rises and falls."""
        self.put(name, "gauge", about, f"{name} {value}")

    def count(self, name: str, about: str, value: int | str) -> None:
        """One that rises."""
        self.put(name, "counter", about, f"{name} {value}")

    def many(self, name: str, about: str, values: dict[str, int]) -> None:
        """One that rises, by labels."""
        self.put(name, "counter", about, *(f"{name}{{{labels}}} {count}" for labels, count in sorted(values.items())))

    def text(self) -> str:
        """All of them."""
        return "\n".join(self._lines) + "\n"


def told(name: bytes) -> str:
    """A word of a line as a label's value."""
    return escaped(name.decode("ascii", "replace"))


def escaped(text: str) -> str:
    """A text as a label's value."""
    return text.replace("\\", "\\\\").replace('"', '\\"').replace("\n", "\\n")


def resident() -> int:
    """The memory that this process has now, in bytes."""
    with open("/proc/self/statm", encoding="ascii") as file:
        return int(file.read().split()[1]) * resource.getpagesize()


def open_files() -> int:
    """The open files of this process."""
    return len(os.listdir("/proc/self/fd"))
