"""Lines and replies are cut the same wherever the bytes are cut."""

from __future__ import annotations

import random
import unittest

from ixm_front.lines import LineReader, ReplyReader
from ixm_front.protocol import number, word


def cut(data: bytes, rng: random.Random) -> list[bytes]:
    """The bytes in pieces of random lengths."""
    pieces, place = [], 0
    while place < len(data):
        length = rng.choice((1, 2, 7, 100, 600, 5000))
        pieces.append(data[place:place + length])
        place += length
    return pieces


def lines_of(data: bytes) -> list[bytes]:
    """What is told of the lines: each whole one, and the first 513 bytes of one that is longer."""
    parts = data.split(b"\n")
    whole = [part[:513] for part in parts[:-1]]
    return whole + ([parts[-1][:513]] if len(parts[-1]) > 512 else [])


class Lines(unittest.TestCase):
    def test_lines_are_the_same_however_they_are_cut(self) -> None:
        rng = random.Random(1)
        for _ in range(200):
            lengths = [rng.choice((0, 1, 30, 511, 512, 513, 514, 4000)) for _ in range(rng.randrange(8))]
            data = b"\n".join(b"x" * length for length in lengths)
            reader = LineReader()
            told: list[bytes] = []
            for piece in cut(data, rng):
                reader.feed(piece)
                while (line := reader.next()) is not None:
                    told.append(line)
            self.assertEqual(told, lines_of(data))

    def test_replies_are_whole_however_they_are_cut(self) -> None:
        rng = random.Random(2)
        replies = [b"yes\n", b"changes 0\n", b"changes 2\nyes do(a)\nno do(b)\n", b"granted 1-1\n", b"changes 1\nno x\n"]
        for _ in range(200):
            wanted = [rng.choice(replies) for _ in range(rng.randrange(12))]
            replies_of = ReplyReader()
            told: list[bytes] = []
            for piece in cut(b"".join(wanted), rng):
                told += replies_of.feed(piece)
            self.assertEqual(told, wanted)

    def test_words_and_numbers(self) -> None:
        self.assertEqual([word(b"ask do(a) 10\n", place) for place in range(4)], [b"ask", b"do(a)", b"10", b""])
        rows: dict[bytes, int | None] = {
            b"0": 0, b"10": 10, b"18446744073709551615": 2**64 - 1, b"18446744073709551616": None, b"01": None, b"": None,
            b"-1": None, b"1x": None}
        self.assertEqual({text: number(text) for text in rows}, rows)
