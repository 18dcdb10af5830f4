#!/usr/bin/env python3
"""Makes http-boot.rec: what a client meets that boots a kernel by HTTP from a server that has moved it.

The server is 10.0.0.1. It answers the first request by a move to another path, and the second by a kernel of 4,000
bytes, in segments of 1,000 bytes. The second of these is lost; what comes after it is kept, and the server sends the
lost one again. The answer to the client's first SYN is never sent, since the SYN itself waits for the server's hardware
address. Everything here is fixed, so each run makes the same bytes.
"""

from __future__ import annotations

import sys
from pathlib import Path
from typing import Iterator

HERE = Path(__file__).resolve().parent
sys.path.insert(0, str(HERE.parent / "tools"))

from shared.random_words import words_of  # noqa: E402
from shared.records import Received, Record, Tick  # noqa: E402
from shared.wire import PROTOCOL_TCP, arp_reply, packet_frame, padded, segment  # noqa: E402
from stations import CLIENT, FIRST_OWN_PORT, SERVER, start, write  # noqa: E402

PORT, WINDOW = 80, 65_535
SYN, PSH, ACK = 2, 8, 16
# maximum segment size 1,460 (RFC 9293, section 3.7.1)
SIZE = bytes.fromhex("020405b4")
PIECE, KERNEL_LENGTH = 1_000, 4_000
REQUEST = b"GET %s HTTP/1.1\r\nHost: 10.0.0.1\r\nUser-Agent: netboot\r\nConnection: close\r\n\r\n"
MOVED = b"HTTP/1.1 302 Found\r\nLocation: /v2/k\r\nContent-Length: 0\r\n\r\n"


def kernel() -> bytes:
    """A file that begins as a 64-bit ELF file does, and goes on with a fixed pattern."""
    head = b"\x7fELF\x02\x01\x01"
    return head + bytes((17 * place + 3) % 256 for place in range(len(head), KERNEL_LENGTH))


class Connection:
    """The server's side of the client's open of this number."""

    def __init__(self, number: int, path: bytes) -> None:
        self.ports = (PORT, FIRST_OWN_PORT + number)
        self.ours, self.theirs = 1_000_000 * (number + 1), words_of(bytes(32), number)[0]
        self.request = len(REQUEST % path)

    def answers(self) -> Received:
        """It takes the connection."""
        return self._frame(self.ours, self.theirs + 1, SYN | ACK, options=SIZE)

    def brings(self, place: int, body: bytes) -> Received:
        """Bytes of its stream, in a segment that acknowledges the request."""
        return self._frame(self.ours + 1 + place, self.theirs + 1 + self.request, PSH | ACK, body)

    def _frame(self, number: int, acknowledged: int, flags: int, body: bytes = b"", options: bytes = b"") -> Received:
        numbers = (number, acknowledged)
        text = segment(SERVER.ip, CLIENT.ip, self.ports, numbers, flags, WINDOW, body, options)
        return Received(padded(packet_frame(SERVER, CLIENT, PROTOCOL_TCP, text)))


def records(script: bytes) -> Iterator[Record]:
    """The recording: in comments what the client does."""
    first, second = Connection(0, b"/k"), Connection(1, b"/v2/k")
    yield start(script)  # asks by ARP for the server's address
    yield Received(padded(arp_reply(SERVER, CLIENT)))
    yield Tick(250)  # sends its SYN, the second try
    yield Tick(1)
    yield first.answers()  # acknowledges it, and asks for /k
    yield Tick(1)
    yield first.brings(0, MOVED)  # acknowledges it, resets the connection, and sends the next SYN
    yield Tick(1)
    yield second.answers()  # asks for /v2/k
    yield Tick(2)
    stream = b"HTTP/1.1 200 OK\r\nContent-Length: %d\r\n\r\n" % KERNEL_LENGTH + kernel()
    pieces = {at: stream[at : at + PIECE] for at in range(0, len(stream), PIECE)}
    lost = pieces.pop(PIECE)
    for at, piece in pieces.items():
        yield second.brings(at, piece)  # acknowledges the first 1,000 bytes, again for each that comes behind the hole
    yield Tick(200)
    yield second.brings(PIECE, lost)  # acknowledges all, resets the connection, and hands the kernel off


def main() -> None:
    write("http-boot", records)


if __name__ == "__main__":
    main()
