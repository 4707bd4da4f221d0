"""Clients of other machines, by TLS 1.3: each shows a certificate, whose name it has from then on.

Behind the handshake a connection is carried to the front over a pair of sockets, so that to the front it is one like any
other, with the same limits."""

from __future__ import annotations

import asyncio
import contextlib
import hashlib
import socket
import ssl
import time
from collections.abc import Callable
from dataclasses import dataclass
from typing import Any

from .loop import Services
from .who import Who

HANDSHAKE = 10.0  # seconds in which a handshake has to be done
HANDSHAKES = 64  # at once; a connection above that is closed
PIECE = 4096  # bytes that are carried at once
NAME_LIMIT = 64
TCP_USER_TIMEOUT = 18  # of Linux, in milliseconds; not every description of the module `socket` has it


@dataclass(frozen=True)
class Files:
    """The files by which a connection is judged."""

    certificate: str
    key: str
    authority: str
    revoked: str | None

    def context(self) -> ssl.SSLContext:
        """What they say. Raises an OSError where one can't be read or isn't what it should be."""
        context = ssl.SSLContext(ssl.PROTOCOL_TLS_SERVER)
        context.minimum_version = ssl.TLSVersion.TLSv1_3
        context.verify_mode = ssl.CERT_REQUIRED
        setattr(context, "num_tickets", 0)  # who comes back shows its certificate again
        context.load_cert_chain(self.certificate, self.key)
        context.load_verify_locations(self.authority)
        if self.revoked is not None:
            context.load_verify_locations(self.revoked)
            context.verify_flags |= ssl.VerifyFlags.VERIFY_CRL_CHECK_LEAF
        return context

    def judges(self) -> bytes:
        """What those say by whom it is decided who may connect: it changes where they do."""
        digest = hashlib.sha256()
        for path in filter(None, (self.authority, self.revoked)):
            with open(path, "rb") as file:
                digest.update(file.read())
        return digest.digest()


def name_in(certificate: dict[str, Any]) -> str:
    """The one common name of a certificate's subject; empty where it has none, or one that is no word."""
    names = [value for parts in certificate.get("subject", ()) for kind, value in parts if kind == "commonName"]
    name = str(names[0]) if len(names) == 1 else ""
    is_word = name.isascii() and name.isprintable() and " " not in name and len(name) <= NAME_LIMIT
    return name if is_word else ""


class Guests:
    """Takes connections of the network, and hands over those that showed a good certificate."""

    def __init__(self, loop: asyncio.AbstractEventLoop, files: Files, silent: float,
                 taken: Callable[[socket.socket, Who], None], refused: Callable[[str, str], None]) -> None:
        self.loop = loop
        self.files = files
        self.silent = silent  # seconds after which a client of whom the network tells nothing is gone
        self.taken = taken
        self.refused = refused  # is told why and from where
        self.connections = Services(loop)
        self._context = files.context()
        self._judges = files.judges()
        self._handshakes = 0

    def read_again(self) -> bool:
        """Reads the files again. Where they say otherwise who may connect, all are cut off, and show themselves again;
        gives whether they were. Raises an OSError, and changes nothing, where a file has a fault."""
        context, judges = self.files.context(), self.files.judges()
        is_other, self._context, self._judges = judges != self._judges, context, judges
        if is_other:
            self.close()
        return is_other

    def close(self) -> None:
        """Cuts all of them off."""
        self.connections.cancel()

    def take(self, sock: socket.socket) -> None:
        """Takes a connection."""
        if self._handshakes >= HANDSHAKES:
            self.refused("handshakes", address_of(sock))
            sock.close()
            return
        sock.setblocking(False)
        ask_for_signs(sock, self.silent)
        self.connections.begin(self._serve(sock))

    async def _serve(self, sock: socket.socket) -> None:
        address = address_of(sock)
        self._handshakes += 1
        try:
            reader, writer = await self._shake_hands(sock)
        except (OSError, asyncio.TimeoutError) as error:
            why = getattr(error, "verify_message", "") or getattr(error, "reason", "") or type(error).__name__
            self.refused(f"no handshake: {why}", address)
            sock.close()
            return
        finally:
            self._handshakes -= 1
        try:
            certificate = writer.get_extra_info("peercert") or {}
            name = name_in(certificate)
            if name:
                await self._carry(reader, writer, Who(name=name, address=address), certificate)
            else:
                self.refused("no name in the certificate", address)
        finally:
            if writer.transport.is_closing():
                writer.transport.abort()
            else:
                writer.close()

    async def _shake_hands(self, sock: socket.socket) -> tuple[asyncio.StreamReader, asyncio.StreamWriter]:
        reader = asyncio.StreamReader(limit=PIECE, loop=self.loop)
        protocol = asyncio.StreamReaderProtocol(reader, loop=self.loop)
        transport, _ = await self.loop.connect_accepted_socket(
            lambda: protocol, sock, ssl=self._context, ssl_handshake_timeout=HANDSHAKE)
        return reader, asyncio.StreamWriter(transport, protocol, reader, self.loop)

    async def _carry(self, reader: asyncio.StreamReader, writer: asyncio.StreamWriter, who: Who,
                     certificate: dict[str, Any]) -> None:
        """Carries bytes both ways, until one end closes or the certificate expires."""
        inner, outer = socket.socketpair()
        outer.setblocking(False)
        with outer:
            self.taken(inner, who)
            left = ssl.cert_time_to_seconds(str(certificate["notAfter"])) - time.time()
            ways = [self.loop.create_task(way) for way in (self._bring(reader, outer), self._fetch(outer, writer))]
            try:
                await asyncio.wait(ways, timeout=left, return_when=asyncio.FIRST_COMPLETED)
            finally:
                for way in ways:
                    way.cancel()
                await asyncio.gather(*ways, return_exceptions=True)

    async def _bring(self, reader: asyncio.StreamReader, outer: socket.socket) -> None:
        with contextlib.suppress(OSError):
            while data := await reader.read(PIECE):
                await self.loop.sock_sendall(outer, data)

    async def _fetch(self, outer: socket.socket, writer: asyncio.StreamWriter) -> None:
        with contextlib.suppress(OSError):
            while data := await self.loop.sock_recv(outer, 16 * PIECE):
                writer.write(data)
                await writer.drain()


def ask_for_signs(sock: socket.socket, silent: float) -> None:
    """Has the system ask the other end for a sign of life where nothing comes, so that it is told to be gone in time."""
    sock.setsockopt(socket.SOL_SOCKET, socket.SO_KEEPALIVE, 1)
    for option, value in ((socket.TCP_KEEPIDLE, max(1, int(silent / 2))), (socket.TCP_KEEPINTVL, max(1, int(silent / 6))),
                          (socket.TCP_KEEPCNT, 3), (TCP_USER_TIMEOUT, int(silent * 1000))):
        sock.setsockopt(socket.IPPROTO_TCP, option, value)


def address_of(sock: socket.socket) -> str:
    """From where a connection comes."""
    try:
        host, port, *_ = sock.getpeername()
    except (OSError, ValueError):
        return ""
    return f"[{host}]:{port}" if ":" in host else f"{host}:{port}"
