"""Requests by HTTP in a capture: the connections of its clients, and what leads their servers' segments to a run's own.

A run's client has its own port, its own first number and a request of its own length on each connection. So a segment for
it gets that port, and acknowledges the same of the run's bytes as it did of the capture's.
"""

from __future__ import annotations

import re
from dataclasses import dataclass, field
from ipaddress import IPv4Address
from typing import NamedTuple

from shared.frames import Ends, ends_of, is_syn, packet_of
from shared.wire import PROTOCOL_TCP, web_request

WEB_PORT = 80
ACK = 16
LEAST_HEAD = 20
# what is kept of a connection's request, and how many connections are followed
MOST_TEXT, MOST_CONNECTIONS = 16_384, 1_024
ASKS = re.compile(rb"GET (?:http://[^/ ]*)?(/[^ \r\n]*) HTTP/1\.[01]\r?\n(.*?\r?\n)??\r?\n", re.S)
HOST = re.compile(rb"^Host:[ \t]*([^\r\n]*?)[ \t]*\r?$", re.M | re.I)


class Segment(NamedTuple):
    """A segment of a capture, with its ends."""

    ends: Ends
    number: int
    acknowledged: int
    flags: int
    body: bytes
    begins: bool


def segment_of(frame: bytes) -> Segment | None:
    """The TCP segment that a frame carries."""
    packet = packet_of(frame)
    if packet is None or packet.protocol != PROTOCOL_TCP or packet.is_fragment or len(packet.body) < LEAST_HEAD:
        return None
    body = packet.body
    number, acknowledged = (int.from_bytes(body[at : at + 4], "big") for at in (4, 8))
    return Segment(ends_of(packet), number, acknowledged, body[13], body[(body[12] >> 4) * 4 :], is_syn(packet))


class Asked(NamedTuple):
    """What a request by HTTP asks for: a path, of a host as the request names it."""

    path: bytes
    host: bytes


@dataclass(slots=True)
class Connection:
    """A client's connection: the number and the time of its SYN, what it sent, and its first request once that is whole."""

    first: int
    time: int
    text: bytes = b""
    asked: Asked | None = None
    length: int = 0
    requests: int = 0

    def sends(self, segment: Segment) -> bool:
        """Takes bytes of the client, in their order; whether its first request is whole by them."""
        place = (segment.number - self.first - 1) % 2**32
        if not segment.body or place != len(self.text) or place > MOST_TEXT:
            return False
        self.text += segment.body
        self.requests += segment.body.startswith(b"GET ")
        found = ASKS.match(self.text)
        if found is None or self.asked:
            return False
        host = HOST.search(found[0])
        self.asked, self.length = Asked(found[1], host[1] if host else b""), found.end()
        return True

    def acknowledged(self, number: int, first: int, length: int) -> int:
        """What stands for an acknowledgement where a run's SYN has another number and its request another length.

        As long as the capture's request isn't acknowledged whole, nothing of the run's is.
        """
        place = (number - self.first - 1) % 2**32
        is_whole = self.asked is not None and self.length <= place < 2**31
        return (first + 1 + (length if is_whole else 0)) % 2**32


@dataclass(slots=True)
class Connections:
    """The connections of a capture, by the ends of what their clients send."""

    known: dict[Ends, Connection] = field(default_factory=dict)

    def sends(self, segment: Segment, time: int) -> Connection | None:
        """Takes a segment; answers its connection where its first request is whole by it."""
        if segment.begins and not segment.flags & ACK:
            if segment.ends not in self.known and len(self.known) < MOST_CONNECTIONS:
                self.known[segment.ends] = Connection(segment.number, time)
            return None
        connection = self.known.get(segment.ends)
        return connection if connection and connection.sends(segment) else None

    def answered(self, segment: Segment) -> Connection | None:
        """The connection whose client gets a segment."""
        return self.known.get(segment.ends.back())


def host_of(server: IPv4Address, port: int) -> bytes:
    """How a request names a host that is asked for by its address."""
    return str(server).encode() + (b"" if port == WEB_PORT else b":%d" % port)


def length_asked(asked: Asked, host: bytes) -> int:
    """How many bytes the client's request has for the same path of this host."""
    return len(web_request(asked.path, host))
