"""The records of an open by HTTP, built from docs/RECORDS.md, RFC 9293 and RFC 9112 alone.

A `Connection` has the segments of both sides, and the functions say what happens to the open's three objects. What a
message makes the open send stands within the entry of the TCP, before what goes up.
"""

from __future__ import annotations

from dataclasses import dataclass
from typing import NamedTuple

from shared.causes import OK, Cause
from shared.kinds import GraphEvent, OpenKind, Way
from shared.random_words import words_of
from shared.records import Advance, Ended, Graph, Open, Received, Record, Sent, Try
from shared.wire import PROTOCOL_TCP, Station, arp_request, packet_frame, segment
from tests import graph_records, made
from tests.graph_records import ABOVE, BELOW, Trio, entered, freed, left

FIN, SYN, RST, PSH, ACK = 1, 2, 4, 8, 16
HTTP_PORT = 80
WINDOW = 65_535
# maximum segment size 1,460 (RFC 9293, section 3.7.1)
OUR_SIZE = bytes.fromhex("020405b4")
# the number of the servers' SYN
THEIRS = 5_000


def request(path: bytes, host: bytes = b"10.0.0.1") -> bytes:
    """The request that asks for a path, its query with it; `host` has the port where that isn't 80."""
    lines = (b"GET " + path + b" HTTP/1.1", b"Host: " + host, b"User-Agent: netboot", b"Connection: close", b"", b"")
    return b"\r\n".join(lines)


class Segment(NamedTuple):
    """A segment's numbers, its flags and its body, without its ports."""

    number: int
    acknowledges: int
    flags: int
    window: int = WINDOW
    body: bytes = b""
    options: bytes = b""


@dataclass(frozen=True, slots=True)
class Connection:
    """Open `number` by HTTP, which asks for this URL at a server's port."""

    url: bytes
    number: int = 0
    fetch: int = 1
    lower: int | None = None
    server: Station = made.SERVER
    port: int = HTTP_PORT
    client: Station = made.CLIENT
    theirs: int = THEIRS
    key: bytes = bytes(32)

    @property
    def trio(self) -> Trio:
        return Trio(self.number, self.fetch, self.lower)

    @property
    def own(self) -> int:
        return made.OWN_PORT + self.number

    @property
    def ours(self) -> int:
        """The number of the client's SYN: the first word of the open."""
        return words_of(self.key, self.number)[0]

    @property
    def opened(self) -> Open:
        return Open(self.number, OpenKind.HTTP, self.server.ip, self.port, self.own, self.url)

    def frame_of(self, out: Segment) -> bytes:
        """The client's segment in its frame."""
        ports, numbers = (self.own, self.port), (out.number, out.acknowledges)
        text = segment(
            self.client.ip, self.server.ip, ports, numbers, out.flags, out.window, out.body, out.options
        )
        return packet_frame(self.client, self.server, PROTOCOL_TCP, text)

    def sent(self, flags: int, place: int = 0, taken: int = 0, body: bytes = b"", window: int = WINDOW) -> Record:
        """A segment of the established connection, at this place; so much of the server's stream was taken."""
        numbers = (self.ours + 1 + place, self.theirs + 1 + taken)
        return Sent(self.frame_of(Segment(*numbers, flags, window, body)))

    def acks(self, taken: int, place: int = 0) -> Record:
        """So much was taken."""
        return self.sent(ACK, place, taken)

    def resets(self, taken: int, place: int) -> Record:
        """The close where the server's FIN hasn't come."""
        return self.sent(RST | ACK, place, taken, window=0)

    def finishes(self, taken: int, place: int) -> Record:
        """The close where it has; a FIN that was reached counts as one more taken."""
        return self.sent(FIN | ACK, place, taken)

    def syn(self, attempt: int) -> list[Record]:
        out = Segment(self.ours, 0, SYN, options=OUR_SIZE)
        return [Try(self.number, attempt), Sent(self.frame_of(out))]

    def looks(self, attempt: int = 1) -> list[Record]:
        """In its place the server's hardware address is asked for."""
        return [Try(self.number, attempt), Sent(arp_request(self.client, self.server.ip))]

    def text(self, body: bytes, attempt: int = 1, place: int = 0, taken: int = 0) -> list[Record]:
        """A segment of the request."""
        return [Try(self.number, attempt), self.sent(PSH | ACK, place, taken, body)]

    def advances(self, taken: int, acknowledged: int | None = None, place: int = 0) -> list[Record]:
        """The place grows, and is acknowledged; so is the server's FIN, which counts one, where it was reached."""
        return [Advance(self.number, taken), self.acks(taken if acknowledged is None else acknowledged, place)]

    def received(self, come: Segment, port: int | None = None, sender: Station | None = None, own: int | None = None) -> Record:
        """A segment of the server, or of another port or host."""
        source = sender or self.server
        ports, numbers = (port or self.port, own or self.own), (come.number, come.acknowledges)
        text = segment(source.ip, self.client.ip, ports, numbers, come.flags, come.window, come.body, come.options)
        return Received(packet_frame(source, self.client, PROTOCOL_TCP, text))

    def answers(self, options: bytes = b"", window: int = WINDOW) -> Record:
        """The server's SYN, which acknowledges ours."""
        return self.received(Segment(self.theirs, self.ours + 1, SYN | ACK, window, b"", options))

    def brings(self, place: int, body: bytes, flags: int = ACK, acknowledged: int = 0, window: int = WINDOW) -> Record:
        """Bytes of the server's stream, with what it acknowledges of ours."""
        numbers = (self.theirs + 1 + place, self.ours + 1 + acknowledged)
        return self.received(Segment(*numbers, flags, window, body))

    # what happens to the objects

    def asked(self, *put: Record) -> list[Record]:
        """After its COMMAND: the objects are made, and the request goes down."""
        return graph_records.asked(self.opened, *put, cast=self.trio)

    def asked_next(self, *put: Record) -> list[Record]:
        """After the end of the look-up of its server."""
        return graph_records.asked_next(self.opened, *put, cast=self.trio)

    def turned_back(self, cause: Cause) -> list[Record]:
        return graph_records.turned_back(self.opened, cause, self.trio)

    def passed(self, *put: Record, over: Cause | None = None) -> list[Record]:
        return graph_records.passed(self.trio, *put, over=over)

    def shut(self, *put: Record) -> list[Record]:
        """The run ends while it lives."""
        return graph_records.shut(self.trio, *put)

    def came(self, put: list[Record], *ups: list[Record], over: Cause | None = None, ended: Cause | None = None) -> list[Record]:
        """A segment comes: what the connection sends, what goes up, and its own end; `ended` is one from above, before that."""
        closes = self.trio.closed_below(over) if over else []
        cause = ended or over
        ends = [*freed(self.trio), Ended(self.number, cause)] if cause else []
        within = [*put, *(event for events in ups for event in events), *(closes[-1:] if ended else closes)]
        return [entered(self.trio.tcp, BELOW, Way.UP), *within, left(self.trio.tcp, BELOW), *ends]

    def read(self, *within: Record, rest: bool = False) -> list[Record]:
        """The HTTP takes bytes of the stream, piece after piece, or its end; what it left is dropped where it has ended."""
        http = self.trio.http
        dropped = [Graph(GraphEvent.DROPPED, http, BELOW)] if rest else []
        return [entered(http, BELOW, Way.UP), *within, *dropped, left(http, BELOW)]

    def given(self) -> list[Record]:
        """Bytes of the body go up to the fetch."""
        fetch = self.trio.fetch
        return [entered(fetch, BELOW, Way.UP), left(fetch, BELOW)]

    def deciding(self, cause: Cause, closing: Record | None) -> list[Record]:
        """The response is decided: the HTTP closes its ports, and the TCP says so to the server, unless it has ended."""
        return [*self.trio.fetch_closed(cause), *self._closing(cause, closing)]

    def moving(self, closing: Record | None) -> list[Record]:
        """The response is a move: the fetch closes its ports, and then the HTTP that below."""
        up, ends = entered(self.trio.fetch, BELOW, Way.UP), left(self.trio.fetch, BELOW)
        return [up, *graph_records.fetch_moved(self.trio), ends, *self._closing(OK, closing)]

    def _closing(self, cause: Cause, closing: Record | None) -> list[Record]:
        return self.trio.tcp_closed(cause, *([closing] if closing else []), has_ended=closing is None)

    def gives(self) -> list[Record]:
        """The HTTP takes bytes, and those of the body go up."""
        return self.read(*self.given())

    def decides(self, cause: Cause, closing: Record | None, *, gives: bool = False, rest: bool = False) -> list[Record]:
        body = self.given() if gives else []
        return self.read(*body, *self.deciding(cause, closing), rest=rest)

    def moves(self, closing: Record | None, *, rest: bool = False) -> list[Record]:
        return self.read(*self.moving(closing), rest=rest)

    def end_dropped(self) -> list[Record]:
        """The stream's end doesn't go up any more."""
        return [Graph(GraphEvent.DROPPED, self.trio.tcp, ABOVE)]
