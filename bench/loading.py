#!/usr/bin/env python3
"""The engines of bench/load as processes in Python, to set beside those of load.c: what an engine costs that isn't compiled.

    loading.py SOCKET WAY ENGINES SECONDS PATIENCE

The words, what each engine does and what is put are those of load.c."""

from __future__ import annotations

import multiprocessing
import random
import socket
import sys
import time


class Engine:
    """One engine, and what it has done."""

    def __init__(self, number: int, path: str, way: str, patience: float) -> None:
        self.number, self.path, self.way, self.patience = number, path, way, patience
        self.random = random.Random(number)
        self.sock: socket.socket | None = None
        self.busy = self.lost = 0

    def leave(self) -> None:
        if self.sock is not None:
            self.sock.close()
        self.sock = None

    def request(self, line: bytes) -> bytes:
        """The reply to a line, and nothing where there was none."""
        reply = b""
        try:
            if self.sock is None:
                self.sock = socket.socket(socket.AF_UNIX)
                self.sock.connect(self.path)  # a connect with a limit would be refused where the queue is full
                self.sock.settimeout(self.patience)
            self.sock.sendall(line)
            while not reply.endswith(b"\n"):
                piece = self.sock.recv(256)
                if not piece:
                    raise ConnectionError
                reply += piece
        except OSError:
            self.lost += 1
            self.leave()
            return b""
        if self.way == "straight":
            self.leave()
        return reply

    def try_once(self) -> bool:
        """Whether the next action was granted and confirmed."""
        if self.way == "turn" and not self.request(b"status\n"):
            return False
        reply = self.request(b"ask do(e%d) 10000\n" % self.number)
        if not reply.startswith(b"granted "):
            self.busy += reply.startswith(b"refused 20 ")
            return False
        return self.request(b"confirm " + reply[len(b"granted "):]).startswith(b"confirmed ")

    def run(self, begin: float, end: float) -> str:
        """Does one action after the other, and tells what load.c puts."""
        took: list[int] = []
        time.sleep(max(0.0, begin - time.monotonic()))
        while (start := time.monotonic()) < end:
            while not (is_done := self.try_once()) and time.monotonic() < end:
                self.leave()
                time.sleep(self.random.uniform(0.01, 0.03))
            if self.way != "kept":
                self.leave()
            if is_done and (now := time.monotonic()) < end:
                took.append(round((now - start) * 1e6))
        self.leave()
        return " ".join(map(str, (self.busy, self.lost, *took)))


def main(path: str, way: str, count: str, seconds: str, patience: str) -> None:
    begin = time.monotonic() + 0.3 + 0.01 * int(count)  # until then all of them are there
    end = begin + float(seconds)
    engines = [Engine(number, path, way, float(patience)) for number in range(int(count))]
    reading, writing = multiprocessing.Pipe(duplex=False)
    lock = multiprocessing.Lock()

    def work(engine: Engine) -> None:
        line = engine.run(begin, end)
        with lock:
            writing.send(line)

    processes = [multiprocessing.get_context("fork").Process(target=work, args=(engine,)) for engine in engines]
    for process in processes:
        process.start()
    for _ in processes:
        print(reading.recv())
    for process in processes:
        process.join()


if __name__ == "__main__":
    main(*sys.argv[1:])
