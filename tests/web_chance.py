"""Servers by chance: responses, and how their segments come, lost, doubled, cut, in another order, with other bytes."""

from __future__ import annotations

import random
from itertools import pairwise

from shared.records import Record, Tick
from tests.script_rows import Row
from tests.web_model import Fetch
from tests.web_records import ACK, FIN, PSH, RST, SYN, Connection, Segment

ELF = b"\x7fELF"
MOST_RECORDS = 90
FIRST_NUMBERS = (5_000, 0, 0xFFFF_FF00, 0x7FFF_FFF0)
SIZES = (b"", bytes.fromhex("02040020"), bytes.fromhex("020405b4"), bytes.fromhex("0204ffff"))
ENDS = (b"\r\n", b"\r\n", b"\r\n", b"\n")
STATUSES = (b"404 Not Found", b"500 No", b"204 None", b"304 Same", b"200", b"206 Part", b"302 Found")
PLACES = (b"/b", b"/c/d?e", b"ftp://10.0.0.1/x", b"https://10.0.0.1/y")
BROKEN = (b"hello", b"HTTP/2 200 OK", b"HTTP/1.1 20 OK", b"HTTP/1.1 abc", b"GET / HTTP/1.1")
LENGTHS = (b"x", b"-1", b"5, 5", b"", b"0x5")


def body_of(chance: random.Random) -> bytes:
    size = chance.choice((0, 1, 3, 40, 700, 1_460, 3_000, 9_000))
    begin = ELF if chance.random() < 0.8 else b"text"
    return (begin + chance.randbytes(size))[: size + 4] if chance.random() < 0.95 else b""


def chunks_of(chance: random.Random, body: bytes) -> bytes:
    """A chunked body, which may break."""
    out, at = b"", 0
    while at < len(body):
        size = chance.choice((1, 2, 7, 300, 4_096, 5_000))
        piece = body[at : at + size]
        extension = chance.choice((b"", b"", b"", b";x", b";a=b"))
        number = b"%x" % len(piece) if chance.random() < 0.7 else b"%03X" % len(piece)
        out += number + extension + b"\r\n" + piece + b"\r\n"
        at += size
    if chance.random() < 0.1:
        place = chance.randrange(len(out) + 1)
        return out[:place] + chance.choice((b"zz\r\n", b"\n", b"\r\r")) + out[place:]
    trailer = chance.choice((b"", b"", b"T: x\r\n", b"any thing\n"))
    return out + b"0\r\n" + trailer + b"\r\n"


def fields_of(chance: random.Random) -> list[bytes]:
    count = chance.choice((0, 0, 1, 2, 5, 63))
    return [b"X-%d: %s" % (number, b"v" * chance.randrange(9)) for number in range(count)]


def head_of(chance: random.Random, status: bytes, *more: bytes) -> bytes:
    lines = [*fields_of(chance), *more]
    chance.shuffle(lines)
    end = chance.choice(ENDS)
    return b"HTTP/1.1 " + status + end + b"".join(line + end for line in lines) + end


def response_of(chance: random.Random) -> bytes:
    """A response, and what may stand before and behind it."""
    before = b"".join(head_of(chance, b"100 Continue") for _ in range(chance.choice((0, 0, 0, 1, 2))))
    body = body_of(chance)
    match chance.choice(("sized", "sized", "sized", "chunked", "chunked", "open", "open", "moved", "status", "broken", "odd")):
        case "sized":
            whole = head_of(chance, b"200 OK", b"Content-Length: %d" % len(body)) + body
        case "chunked":
            whole = head_of(chance, b"200 OK", b"Transfer-Encoding: chunked") + chunks_of(chance, body)
        case "open":
            whole = head_of(chance, b"200 OK") + body
        case "moved":
            whole = head_of(chance, chance.choice((b"301 M", b"302", b"308 P")), b"Location:  " + chance.choice(PLACES)) + body
        case "status":
            whole = head_of(chance, chance.choice(STATUSES), b"Content-Length: %d" % len(body)) + body
        case "broken":
            whole = chance.choice(BROKEN) + b"\r\nA: b\r\n\r\n" + body
        case _:
            whole = head_of(chance, b"200 OK", b"Content-Length: " + chance.choice(LENGTHS)) + body
    return before + whole + (chance.randbytes(20) if chance.random() < 0.1 else b"")


class Server:
    """What one connection brings, as it comes."""

    def __init__(self, chance: random.Random, wire: Connection) -> None:
        self.chance = chance
        self.first = chance.choice(FIRST_NUMBERS)
        self.wire = wire
        self.stream = response_of(chance)
        self.has_fin = chance.random() < 0.7
        cuts = sorted({0, len(self.stream), *(chance.randrange(len(self.stream) + 1) for _ in range(chance.choice((0, 2, 8))))})
        pieces = [self.piece(at, end) for begin, stop in pairwise(cuts) for at, end in self.fit(begin, stop)]
        if self.has_fin and not (pieces and chance.random() < 0.6):
            pieces.append((len(self.stream), b"", FIN))
        elif self.has_fin:
            place, bytes_, flags = pieces[-1]
            pieces[-1] = (place, bytes_, flags | FIN)
        self.pieces = self.disturbed(pieces)

    def fit(self, begin: int, stop: int) -> list[tuple[int, int]]:
        """In pieces that fit a frame."""
        return [(at, min(at + 1_460, stop)) for at in range(begin, stop, 1_460)]

    def piece(self, at: int, end: int) -> tuple[int, bytes, int]:
        """Some begin before their place or end after it; some have other bytes there."""
        chance = self.chance
        begin = max(0, at - chance.choice((0, 0, 0, 5, 60)))
        body = self.stream[begin : min(end + chance.choice((0, 0, 0, 9)), begin + 1_460)]
        if begin < at and chance.random() < 0.3:
            body = bytes(at - begin) + body[at - begin :]
        return begin, body, chance.choice((0, PSH))

    def disturbed(self, pieces: list[tuple[int, bytes, int]]) -> list[tuple[int, bytes, int]]:
        chance, out = self.chance, []
        for piece in pieces:
            out += [piece] * chance.choice((1, 1, 1, 1, 2, 0))
        for _ in range(chance.choice((0, 1, 6))):
            if len(out) > 1:
                at = chance.randrange(len(out) - 1)
                out[at], out[at + 1] = out[at + 1], out[at]
        # what was lost comes again in the end
        return out + [piece for piece in pieces if piece not in out] + (pieces if chance.random() < 0.1 else [])

    def segment(self, number: int, flags: int, acknowledged: int, body: bytes = b"", options: bytes = b"") -> Record:
        window = self.chance.choice((65_535, 65_535, 1_000, 10, 0))
        acknowledges = self.wire.ours + 1 + acknowledged
        out = Segment(number & 0xFFFF_FFFF, acknowledges & 0xFFFF_FFFF, flags, window, body, options)
        return self.wire.received(out)

    def answer(self) -> Record:
        return self.segment(self.first, SYN | ACK, 0, options=self.chance.choice(SIZES))

    def odd(self, sent: int) -> Record:
        """A segment that isn't in its place."""
        chance = self.chance
        place = chance.choice((-1, 0, 1, 70_000, len(self.stream), len(self.stream) // 2))
        flags = chance.choice((0, PSH, SYN, SYN | ACK, RST, RST | ACK, ACK, FIN | ACK, RST | SYN))
        if flags & RST and chance.random() < 0.7:
            flags = ACK
        acknowledged = chance.choice((0, sent, sent + 1, sent // 2, -1, sent + 100_000))
        return self.segment(self.first + 1 + place, flags, acknowledged, chance.randbytes(chance.choice((0, 0, 3))))

    def next(self, sent: int, acked: int) -> Record | None:
        """The next piece, with what it acknowledges."""
        if not self.pieces:
            return None
        place, body, flags = self.pieces.pop(0)
        acknowledged = self.chance.choice((sent, sent, sent, acked, (acked + sent) // 2))
        return self.segment(self.first + 1 + place, flags | ACK, acknowledged, body)


def random_row(chance: random.Random) -> Row:
    """A run, up to its end or to the input's."""
    fetch = Fetch(chance.choice((b"/a", b"/", b"/d/e?f", b"/long" * 30)))
    fetch.finds()
    server = Server(chance, fetch.talk.wire)
    while not fetch.is_done and len(fetch.inputs) < MOST_RECORDS:
        talk = fetch.talk
        if talk.wire.number != server.wire.number:
            server = Server(chance, talk.wire)
        if chance.random() < 0.12:
            fetch.uses(Tick(chance.choice((1, 250, 500, 5_000, 20_000))))
        elif chance.random() < 0.07:
            fetch.uses(server.odd(talk.sent))
        elif not talk.is_open:
            fetch.uses(server.answer())
        else:
            come = server.next(talk.sent, talk.acked)
            fetch.uses(come or Tick(chance.choice((250, 15_000, 60_000))))
    return fetch.row(is_off=chance.random() < 0.5)
