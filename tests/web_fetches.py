"""Fetches by HTTP that the rows share: a run up to its connection, what a response brings, and how the run ends."""

from __future__ import annotations

from ipaddress import IPv4Address

from shared.causes import OK, Cause, Code
from shared.kinds import PartKind, Status
from shared.records import Done, Part, Record, Result, Step, Tick
from shared.wire import Station
from tests import made
from tests.script_rows import FIRST, Row, left, steps
from tests.web_records import ACK, Connection, request

URI = b"http://10.0.0.1/a"
FETCH = b"imgexec " + URI
WIRE = Connection(URI)
ASKED = request(b"/a")
# the request's text has so many bytes, which the server's segments acknowledge
LENGTH = len(ASKED)
QUARTER = Tick(250)
ELF = b"\x7fELF a kernel"
# a host beside the server
HOST = Station(bytes.fromhex("525400000009"), IPv4Address("10.0.0.9"))
NOT_BOOTABLE = Cause(Code.NOT_BOOTABLE)
MOVED = b"HTTP/1.1 302 Found\r\nLocation: /b\r\n\r\n"


def broken(rec: int) -> Cause:
    return Cause(Code.BROKEN, rec)


def refused(rec: int, status: int) -> Cause:
    return Cause(Code.REFUSED, rec, status)


def length_of(body: bytes) -> bytes:
    return b"HTTP/1.1 200 OK\r\nContent-Length: %d\r\n\r\n" % len(body)


def asks(wire: Connection, words: bytes = FETCH) -> list[Record]:
    """The first step: its request waits for the server's hardware address."""
    return [Step(1), made.enter(), made.command(words), *wire.asked(*wire.looks())]


def connects(wire: Connection, text: bytes = ASKED) -> list[Record]:
    """The server's SYN comes: it is acknowledged, and the request is sent."""
    return wire.came([wire.acks(0), *wire.text(text)])


def fails(cause: Cause) -> list[Record]:
    return [Result(cause), *left(cause)]


def boots(body: bytes = ELF, name: bytes = b"a") -> list[Record]:
    parts = [Part(PartKind.KERNEL_NAME, 0, 0, name), Part(PartKind.KERNEL, 0, 0, body)]
    return [Result(OK), *parts, Part(PartKind.COMMAND_LINE, 0, 0, b""), Done(Status.HANDED_OFF)]


def fetches(
    received: list[Record],
    *each: list[Record],
    end: list[Record],
    words: bytes = FETCH,
    wire: Connection = WIRE,
    text: bytes = ASKED,
    rest: bytes = b"",
) -> Row:
    """The connection is established in step 4, and these records come then."""
    script = made.start(FIRST + words + b"\n" + rest)
    inputs = [script, made.found(), QUARTER, wire.answers(), *received]
    outputs = [*asks(wire, words), *steps(2, [], wire.passed(*wire.syn(2)), connects(wire, text), *each), *end]
    return Row(inputs, outputs)


def answered(response: bytes, *ups: list[Record], cause: Cause = OK, end: list[Record] | None = None, flags: int = ACK) -> Row:
    """The whole response comes at once, in record 5, which decides it: after what goes up the connection is reset."""
    come = WIRE.brings(0, response, flags, LENGTH)
    put = WIRE.advances(len(response), place=LENGTH)
    return fetches([come], WIRE.came(put, *ups, ended=cause), end=fails(cause) if end is None else end)


def decides_at(response: bytes, cause: Cause, rest: bytes = b"", before: bytes = b"") -> Row:
    """A head decides it, whatever comes with it; interim heads come before it."""
    taken = len(before + response + rest)
    decided = WIRE.decides(cause, WIRE.resets(taken, LENGTH), rest=rest != b"")
    return answered(before + response + rest, decided, cause=cause)
