"""Fetches by HTTP: the program's whole output, record by record."""

from __future__ import annotations

import random
import unittest

from tests import made
from tests.replays import can_run
from tests.script_rows import Row, RowCase
from tests.web_chance import random_row
from tests.web_fetches import ASKED, ELF, LENGTH, MOVED, WIRE, length_of
from tests.web_model import Fetch
from tests.web_records import ACK, FIN
from tests.web_rows import ROWS

SEED, BY_CHANCE = 11, 1_000
HEAD = b"HTTP/1.1 200 OK\r\n"
# responses that are cut at every place, each with the server's FIN or without it
CUT = {
    "sized": (length_of(ELF) + ELF, 0),
    "sized_with_fin": (length_of(ELF) + ELF, FIN),
    "chunked": (HEAD + b"Transfer-Encoding: chunked\r\n\r\n5;x\r\n\x7fELF!\r\n00a\r\n0123456789\r\n0\r\nT: x\r\n\r\n", 0),
    "open": (HEAD + b"\r\n" + ELF, FIN),
    "moved": (MOVED + b"gone", FIN),
    "interim": (b"HTTP/1.1 100 Go\r\n\r\n" + b"HTTP/1.1 404 No\n\n", 0),
    "broken": (b"HTTP/1.1 200 OK\r\nno field\r\n\r\n", 0),
    "broken_chunk": (HEAD + b"Transfer-Encoding: chunked\r\n\r\n3\r\nabcd\r\n0\r\n\r\n", 0),
}  # fmt: skip


def in_pieces(stream: bytes, fin: int, *places: int) -> Row:
    """A response that is cut there, from a server that acknowledges the whole request."""
    fetch = Fetch(b"/a")
    fetch.finds()
    fetch.uses(WIRE.answers())
    for at, end in zip((0, *places), (*places, len(stream)), strict=True):
        fetch.uses(WIRE.brings(at, stream[at:end], ACK | (fin if end == len(stream) else 0), LENGTH))
    return fetch.row()


def cut_rows() -> dict[str, Row]:
    """Each response in two pieces, cut at every place, and byte by byte."""
    rows = {}
    for name, (stream, fin) in CUT.items():
        places = range(1, len(stream))
        rows |= {f"cut_{name}_{place}": in_pieces(stream, fin, place) for place in places}
        rows[f"cut_{name}_in_bytes"] = in_pieces(stream, fin, *places)
    return rows


def by_chance() -> dict[str, Row]:
    """Connections that lose, double and reorder, by a second reading of the rules."""
    chance = random.Random(SEED)
    return {f"chance_{number}": random_row(chance) for number in range(BY_CHANCE)}


CUT_ROWS, READ_TWICE = cut_rows(), by_chance()


def all_inputs() -> dict[str, bytes]:
    rows = {**ROWS, **CUT_ROWS, **READ_TWICE}
    return {f"web_{name}": made.spelled(row.inputs) for name, row in rows.items()}


@unittest.skipUnless(can_run(), "the program isn't built, and the toolchain's rt is missing")
class Web(RowCase):
    def test_rows(self) -> None:
        self.same_all(ROWS)

    def test_streams_cut_at_every_place(self) -> None:
        self.same_all(CUT_ROWS)

    def test_connections_by_chance(self) -> None:
        self.same_all(READ_TWICE)

    def same_all(self, rows: dict[str, Row]) -> None:
        for name, row in rows.items():
            with self.subTest(name):
                self.same(f"web_{name}", row)


class Requests(unittest.TestCase):
    def test_the_request_has_75_bytes(self) -> None:
        self.assertEqual(len(ASKED), 75)


if __name__ == "__main__":
    unittest.main()
