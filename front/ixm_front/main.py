"""The program: its doors, its signals, and what it does now and then."""

from __future__ import annotations

import asyncio
import contextlib
import gc
import os
import resource
import signal
import socket
import sys
import traceback
from collections.abc import Callable, Coroutine
from time import monotonic
from typing import Any

from .doors import Door, NamedDoor, tcp_socket
from .front import Front
from .handing import CLIENT, is_kept
from .log import Log, quoted
from .loop import TurnSelector, new_loop
from .options import Options, address, is_address, read_options
from .pages import Pages
from .policy import PolicyFault
from .records import told
from .service import handed_over, notify, watchdog_seconds
from .tls import Files, Guests
from .who import peer_of

SWEEP = 0.5  # seconds between two looks at the limits of time
LAST_REPLIES = 2.0  # seconds for the replies that are still to come when the front ends
LAST_RECORDS = 2.0  # seconds for what the log hasn't written then
FAULT_RECORDS = 1.0  # the same behind a fault
SPARE_FILES = 150
NEW_OBJECTS = 20000  # behind which Python looks for cycles among the objects; there are few


def raise_open_files(options: Options) -> None:
    """Lets the process have as many open files as it needs, or ends it where it may not."""
    # A client of the network has a pair of sockets beside its own.
    wanted = options.clients * (3 if options.tls_cert else 1) + SPARE_FILES
    soft, hard = resource.getrlimit(resource.RLIMIT_NOFILE)
    if hard != resource.RLIM_INFINITY and hard < wanted:
        sys.exit(f"ixm-front: {options.clients} clients need {wanted} open files, and the system allows {hard}")
    if soft != resource.RLIM_INFINITY and soft < wanted:
        resource.setrlimit(resource.RLIMIT_NOFILE, (wanted, hard))


async def every(seconds: float, *actions: Callable[[], object]) -> None:
    """Does these again and again."""
    while True:
        await asyncio.sleep(seconds)
        for action in actions:
            action()


class Program:
    """The parts of a front that runs, and how they end."""

    def __init__(self, options: Options, loop: asyncio.AbstractEventLoop, selector: TurnSelector) -> None:
        self.options = options
        self.loop = loop
        self.ended = asyncio.Event()
        self.log = Log(options.log, options.log_sync, options.log_must)
        self.front = Front(options, loop, selector, self.log)
        self.pages = Pages(loop, self.front.metrics_text, self.front.health, self.front.view_text)
        self.guests: Guests | None = None
        self.doors: list[Door] = []
        self.tasks: list[asyncio.Task[None]] = []
        selector.flush = self.front.turn
        loop.set_exception_handler(self.handle)
        self.log.on_fault = lambda fault: self.from_thread(self.fail, fault)
        self.log.on_opened = lambda why: self.from_thread(self.log_opened, why)
        self.pages.readers.on_fault = self.pass_over
        self.pages.refused = self.refuse_reader

    # Faults

    def handle(self, loop: asyncio.AbstractEventLoop, context: dict[str, Any]) -> None:
        """A fault that nobody took: one of a connection of the network costs that connection, any other the front."""
        fault = context.get("exception")
        if isinstance(fault, (OSError, asyncio.TimeoutError)) and ("transport" in context or "protocol" in context):
            self.pass_over(fault)
        else:
            loop.default_exception_handler(context)
            self.fail(fault or RuntimeError(str(context.get("message"))))

    def pass_over(self, fault: BaseException) -> None:
        """A fault that cost somebody a connection, and nothing else."""
        self.front.metrics.faults_passed += 1
        self.front.records.event("fault passed over", f'"why": {quoted(repr(fault))}', is_minor=True)

    def fail(self, fault: BaseException) -> None:
        """A fault of the front itself: it ends, since another start is safer than to go on with what it now believes."""
        print(f"ixm-front: {fault!r}", file=sys.stderr, flush=True)
        self.front.records.event("fault", f'"why": {quoted(repr(fault))}')
        self.log.end(FAULT_RECORDS)
        self.remove_file()
        os._exit(1)

    def from_thread(self, action: Callable[..., object], *words: object) -> None:
        """Lets the loop do what a thread has found."""
        with contextlib.suppress(RuntimeError):  # the loop is closed by now
            self.loop.call_soon_threadsafe(action, *words)

    def task_is_done(self, task: asyncio.Task[None]) -> None:
        """A task of the front's own never ends by itself."""
        if not task.cancelled():
            self.fail(task.exception() or RuntimeError("a task has ended"))

    # Beginning

    def open_doors(self) -> None:
        """Begins to listen, on what was handed over and what is named."""
        options = self.options
        handed, state = handed_over()
        if options.tls_cert and options.tls_key and options.tls_ca:
            files = Files(options.tls_cert, options.tls_key, options.tls_ca, options.tls_crl)
            self.guests = Guests(self.loop, files, options.silent_time, self.front.welcome, self.refuse_guest)
            self.guests.connections.on_fault = self.pass_over
            sockets = handed["tls"] + ([tcp_socket(options.tls)] if options.tls else [])
            self.doors += [Door(sock, self.loop, self.guests.take) for sock in sockets]
        self.doors += [Door(sock, self.loop, self.pages.take) for sock in handed["page"]]
        if options.page is not None and not handed["page"]:
            self.doors.append(self.page_door(options.page))
        self.doors += [Door(sock, self.loop, self.front.accept) for sock in handed["front"]]
        if not handed["front"]:
            if options.socket is None:
                sys.exit("ixm-front: FRONT_SOCKET is wanted, where systemd hands over none")
            self.doors.append(NamedDoor(options.socket, options.mode, options.group, self.loop, self.front.accept))
        for door in self.doors:
            door.open()
        self.front.go_on(handed[CLIENT], state)

    def page_door(self, place: str) -> Door:
        """Where the pages are read."""
        if is_address(place):
            return Door(tcp_socket(address(place)), self.loop, self.pages.take)
        return NamedDoor(place, self.options.page_mode, None, self.loop, self.pages.take)

    def refuse_guest(self, why: str, where: str) -> None:
        """Somebody of the network wasn't let in."""
        self.front.turn_away(why, f'"address": {quoted(where.rpartition(":")[0])}')

    def refuse_reader(self, sock: socket.socket) -> None:
        """Somebody got no page, since too many read one."""
        with contextlib.suppress(OSError):
            self.front.turn_away("readers", told(peer_of(sock)))

    def begin(self) -> None:
        """Begins everything."""
        for number in (signal.SIGTERM, signal.SIGINT):
            self.loop.add_signal_handler(number, self.ended.set)
        self.loop.add_signal_handler(signal.SIGHUP, self.read_again)
        self.front.records.starts()
        self.open_doors()
        ways: list[Coroutine[Any, Any, None]] = [
            self.front.link.keep(), every(SWEEP, self.front.sweep, self.look_at_names),
            every(self.options.every, self.front.ask_status, self.write_file)]
        watchdog = watchdog_seconds()
        if watchdog is not None:
            ways.append(every(watchdog, lambda: notify("WATCHDOG=1")))
        for way in ways:
            task = self.loop.create_task(way)
            task.add_done_callback(self.task_is_done)
            self.tasks.append(task)
        notify("READY=1")

    # Now and then

    def look_at_names(self) -> None:
        """Where a socket's file is gone, nobody finds the front any more: it ends, to be started again."""
        for door in self.doors if not self.ended.is_set() else ():
            if isinstance(door, NamedDoor) and not door.is_found():
                self.fail(FileNotFoundError(f"{door.path} was removed"))

    def write_file(self) -> None:
        """Writes the metrics to their file."""
        if self.options.file is not None:
            self.pages.write(self.options.file)

    def remove_file(self) -> None:
        """Removes the metrics' file, which would tell of a front that is there."""
        if self.options.file is not None:
            with contextlib.suppress(OSError):
                os.unlink(self.options.file)

    def read_again(self) -> None:
        """Opens the log again, and reads the policy and the certificates again."""
        self.log.open_again()
        self.front.read_policy()
        if self.guests is not None:
            try:
                cut_off = self.guests.read_again()
                self.front.records.event("certificates read", f'"cut_off": {quoted("all" if cut_off else "none")}')
            except OSError as error:
                self.front.records.event("certificates not read", f'"why": {quoted(str(error))}')

    def log_opened(self, why: str | None) -> None:
        """The log's file was opened again, or couldn't be."""
        if why is None:
            self.front.records.event("log opened again")
        else:
            self.front.records.event("log not opened again", f'"why": {quoted(why)}')

    # The end

    async def run(self) -> None:
        """Runs until it is told to end."""
        await self.ended.wait()
        notify("STOPPING=1")
        for door in self.doors:
            door.close()
        self.front.let_go()
        until = monotonic() + LAST_REPLIES
        while not self.front.is_idle() and monotonic() < until:
            await asyncio.sleep(0.01)
        for task in self.tasks:
            task.cancel()
        if self.guests is not None:
            self.guests.close()
        await asyncio.sleep(0)
        if is_kept():
            with contextlib.suppress(OSError):
                self.front.hand_over()
        self.front.records.event("front ends")
        self.log.end(LAST_RECORDS)
        self.remove_file()


def main() -> int:
    """Reads the words and runs. 0 where it was told to end, 1 where it couldn't start, 2 where the words are wrong."""
    options = read_options()
    raise_open_files(options)
    loop, selector = new_loop()
    asyncio.set_event_loop(loop)
    gc.freeze()
    gc.set_threshold(NEW_OBJECTS, 10, 10)
    try:
        program = Program(options, loop, selector)
        program.begin()
    except (OSError, PolicyFault) as error:
        sys.exit(f"ixm-front: {error}")
    try:
        loop.run_until_complete(program.run())
    except Exception as fault:
        traceback.print_exc()
        program.fail(fault)
    return 0
