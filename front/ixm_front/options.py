"""The words of the command line."""

from __future__ import annotations

import argparse
import ipaddress
from collections.abc import Callable
from dataclasses import dataclass

from .protocol import LONGEST, MOST_ASKS
from .version import version

Add = Callable[..., argparse.Action]  # takes one option into a parser


@dataclass(frozen=True)
class Options:
    """What the front was told; docs/front.md has the meaning of each."""

    manager: str
    socket: str | None
    mode: int | None
    group: str | None
    wait: int
    again: int
    lease: int
    watches: int
    asks: int
    cancel_unspent: bool
    clients: int
    user: int | None
    each: int
    kept: int | None
    unread: int
    unread_all: int
    line_time: float
    read_time: float
    idle_time: float
    manager_time: float
    allow_stop: bool
    policy: str | None
    log: str
    log_sync: bool
    log_must: bool
    log_reads: bool
    page: str | None
    page_mode: int | None
    page_actions: bool
    file: str | None
    every: float
    nodes: int
    records: str | None
    tls: tuple[str, int] | None
    tls_cert: str | None
    tls_key: str | None
    tls_ca: str | None
    tls_crl: str | None
    silent_time: float

    def places_of_a_user(self) -> int:
        """How many connections one user may have."""
        return self.clients - self.clients // 10 if self.user is None else self.user

    def places_kept(self) -> int:
        """How many connections are kept for users that have none."""
        return self.clients // 50 if self.kept is None else self.kept


def counted(least: int, most: int) -> Callable[[str], int]:
    """A reader of whole numbers in these bounds."""
    def read(text: str) -> int:
        value = int(text)
        if not least <= value <= most:
            raise argparse.ArgumentTypeError(f"{text} isn't from {least} to {most}")
        return value
    return read


def seconds(text: str) -> float:
    """A reader of a length of time in seconds, above 0 and up to a day."""
    value = float(text)
    if not 0 < value <= 86400:
        raise argparse.ArgumentTypeError(f"{text} isn't above 0 and up to 86400")
    return value


def mode(text: str) -> int:
    """A reader of a file's mode, in octal."""
    value = int(text, 8)
    if not 0 <= value <= 0o777:
        raise argparse.ArgumentTypeError(f"{text} isn't from 0 to 777")
    return value


def address(text: str) -> tuple[str, int]:
    """A reader of an address and a port, as 127.0.0.1:9464 or [::1]:9464."""
    host, found, port = text.rpartition(":")
    host = host.removeprefix("[").removesuffix("]")
    try:
        ipaddress.ip_address(host)
        number = counted(0, 65535)(port)
    except ValueError:
        found = ""
        number = 0
    if not found:
        raise argparse.ArgumentTypeError(f"{text} isn't an address and a port")
    return host, number


def is_address(text: str) -> bool:
    """Whether a place is one of the network, and no file."""
    return "/" not in text and ":" in text


def page(text: str) -> str:
    """A reader of the page's place: a socket's name, or an address of this machine alone."""
    if is_address(text) and not ipaddress.ip_address(address(text)[0]).is_loopback:
        raise argparse.ArgumentTypeError(f"{text} isn't an address of this machine alone, and nobody is asked who they are")
    return text


def add_places(add: Add) -> None:
    """Where it listens, how long asks wait, and what a user may have."""
    add("--mode", type=mode, metavar="MODE", help="the mode of that socket's file, in octal")
    add("--group", metavar="GROUP", help="its group")
    add("--wait", type=counted(0, LONGEST), default=60000, metavar="MILLIS", help="how long an ask may wait")
    add("--again", type=counted(10, 60000), default=1000, metavar="MILLIS",
        help="after how long the first ask in the line is tried again at the latest")
    add("--lease", type=counted(1, LONGEST), default=LONGEST, metavar="MILLIS", help="the longest lease")
    add("--watches", type=counted(0, 4096), default=1024, metavar="N", help="watches at most of one user")
    add("--asks", type=counted(1, MOST_ASKS), default=MOST_ASKS, metavar="N", help="asks at most of one user in any second")
    add("--cancel-unspent", action="store_true", help="cancel a grant whose connection closes before it is spent")
    add("--clients", type=counted(1, 100000), default=1000, metavar="N", help="clients at most")
    add("--user", type=counted(1, 100000), metavar="N", help="clients at most of one user, nine tenths of all")
    add("--each", type=counted(1, 100000), default=500, metavar="N", help="clients at most of one process")
    add("--kept", type=counted(0, 100000), metavar="N", help="places that are kept for users that have none, a fiftieth")


def add_bounds(add: Add) -> None:
    """What is held of a client, and for how long."""
    add("--unread", type=counted(1024, 1 << 20), default=4096, metavar="BYTES", help="held of a client at most")
    add("--unread-all", type=counted(1 << 20, 1 << 34), default=1 << 26, metavar="BYTES",
        help="replies that are held for all clients together at most")
    add("--line-time", type=seconds, default=10, metavar="SECONDS", help="in which a line begun has to be ended")
    add("--read-time", type=seconds, default=30, metavar="SECONDS", help="in which a client has to read its replies")
    add("--idle-time", type=seconds, default=900, metavar="SECONDS", help="in which a client has to send something")
    add("--manager-time", type=seconds, default=60, metavar="SECONDS", help="in which the manager has to answer")


def add_records(add: Add) -> None:
    """Who may do what, and what is told of it."""
    add("--allow-stop", action="store_true", help="let a client's `stop` through")
    add("--policy", metavar="FILE", help="who may do what; without it all may do everything")
    add("--log", default="-", metavar="FILE", help="where the log is written, - for standard output")
    add("--log-sync", action="store_true", help="have each write of the log on the disk")
    add("--log-must", action="store_true", help="answer with no grant, confirm or cancel that the log doesn't have")
    add("--log-reads", action="store_true", help="log `may`, `log`, `poll`, `watch`, `drop`, `status` and `outcome` too")
    add("--page", type=page, metavar="PLACE",
        help="a socket, or 127.0.0.1:PORT, with the view, the metrics and the health, as HTTP")
    add("--page-mode", type=mode, metavar="MODE", help="the mode of that socket's file, in octal")
    add("--page-actions", action="store_true", help="the view shows the names of actions, which may name patients")
    add("--file", metavar="FILE", help="a file with the metrics")
    add("--every", type=seconds, default=10, metavar="SECONDS",
        help="how often the manager is asked for its status, and the file is written")
    add("--nodes", type=counted(1, 1000000), default=100000, metavar="N", help="the manager's own, for the metrics")
    add("--records", metavar="FILE", help="where `ixm-look` writes how many records the journal has, for the metrics")


def add_network(add: Add) -> None:
    """Clients of other machines."""
    add("--tls", type=address, metavar="ADDRESS:PORT", help="where clients of other machines connect")
    add("--tls-cert", metavar="FILE", help="the certificate that they are shown")
    add("--tls-key", metavar="FILE", help="its key")
    add("--tls-ca", metavar="FILE", help="who signs the certificates that they show")
    add("--tls-crl", metavar="FILE", help="which of these are revoked")
    add("--silent-time", type=seconds, default=30, metavar="SECONDS",
        help="behind which a client of the network that gives no sign is gone")


def parser_of() -> argparse.ArgumentParser:
    """What the command line may say."""
    parser = argparse.ArgumentParser(
        prog="ixm-front", description="Many clients at once, in front of a manager's socket.", allow_abbrev=False)
    parser.add_argument("--version", action="version", version=f"ixm-front {version()}")
    parser.add_argument("manager", metavar="MANAGER_SOCKET")
    parser.add_argument("socket", metavar="FRONT_SOCKET", nargs="?", help="not wanted where systemd hands it over")
    for add_some in (add_places, add_bounds, add_records, add_network):
        add_some(parser.add_argument)
    return parser


def read_options(words: list[str] | None = None) -> Options:
    """The options that these words give; where they give none, the program ends with status 2."""
    parser = parser_of()
    options = Options(**vars(parser.parse_args(words)))
    if not (options.tls_cert is None) == (options.tls_key is None) == (options.tls_ca is None):
        parser.error("--tls-cert, --tls-key and --tls-ca go together")
    if options.tls is not None and options.tls_cert is None:
        parser.error("--tls wants --tls-cert, --tls-key and --tls-ca")
    return options
