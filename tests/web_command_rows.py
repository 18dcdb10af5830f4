"""Commands that fetch by HTTP, and servers by name: whole outputs, worked by hand as those of web_response_rows.py."""

from __future__ import annotations

from dataclasses import replace
from ipaddress import IPv4Address

from shared.causes import OK
from shared.kinds import ObjectKind
from shared.records import Off, Received, Result, Sent, Step, Text
from shared.wire import arp_reply
from tests import graph_records, made
from tests.asking_records import LookUp
from tests.graph_records import Waiter
from tests.script_rows import FIRST, UNFINISHED, Row, steps
from tests.web_records import ACK, RST, Connection, Segment, request
from tests.web_fetches import ELF, FETCH, HOST, LENGTH, QUARTER, URI, WIRE, asks, boots, connects, fetches, length_of
from tests.web_move_rows import next_wire


def fetched_image() -> Row:
    """`imgfetch`, `imgstat` and `imgselect` of an image that came by HTTP."""
    words = b"imgfetch --name kernel " + URI + b" quiet"
    stream = length_of(ELF) + ELF
    decided = WIRE.decides(OK, WIRE.resets(len(stream), LENGTH), gives=True)
    last = WIRE.came(WIRE.advances(len(stream), place=LENGTH), decided, ended=OK)
    shown = [made.command(b"imgstat", 3), Text(b"kernel : %d bytes\n" % len(ELF)), Result(OK)]
    boot = [made.command(b"boot kernel", 4), *boots(name=b"kernel")]
    received = [WIRE.brings(0, stream, ACK, LENGTH)]
    row = fetches(received, last, end=[Result(OK), *shown, *boot], words=words, rest=b"imgstat\nboot kernel\n")
    return row


def chained_script() -> Row:
    """A script by HTTP runs, and its own URIs are joined to the one that it was moved to."""
    wire, text = Connection(b"http://10.0.0.1/d/s"), request(b"/d/s")
    script = b"#!ipxe\nimgfetch k\n"
    words = b"chain http://10.0.0.1/d/s"
    move = b"HTTP/1.1 303 See\r\nLocation: ../e/s\r\n\r\n"
    second, asked = next_wire(b"http://10.0.0.1/e/s"), request(b"/e/s")
    third = next_wire(b"http://10.0.0.1/e/k", 2)
    stream = length_of(script) + script
    decided = second.decides(OK, second.resets(len(stream), len(asked)), gives=True)
    first = wire.came(wire.advances(len(move), place=len(text)), wire.moves(wire.resets(len(move), len(text))), ended=OK)
    runs = second.came(second.advances(len(stream), place=len(asked)), decided, ended=OK)
    begins = [made.enter(2), made.command(b"imgfetch k", 2, 2), *third.asked(*third.syn(1))]
    received = [
        wire.brings(0, move, ACK, len(text)), second.answers(), second.brings(0, stream, ACK, len(asked)), Off(),
    ]
    closing = Sent(third.frame_of(Segment(third.ours + 1, 0, RST | ACK, 0)))
    each = [[*first, *second.asked(*second.syn(1))], connects(second, asked), [*runs, *begins], third.shut(closing)]
    return fetches(received, *each, end=[UNFINISHED], words=words, wire=wire, text=text)


# names


NAMED = b"http://boot.example/a"
NAMES = IPv4Address("10.0.0.1")


def named() -> Row:
    """The server's name is looked up first; the request has the name."""
    look_up = LookUp(0, 2, name=b"boot.example")
    waiter = Waiter(1, ObjectKind.FETCH)
    wire = Connection(NAMED, 1, 1, 3, HOST)
    text = request(b"/a", b"boot.example")
    stream = length_of(ELF) + ELF
    words = b"imgexec " + NAMED
    start = replace(made.start(FIRST + words + b"\n"), dns=NAMES)
    inputs = [
        start, made.found(), QUARTER, look_up.found(), Received(arp_reply(HOST, made.CLIENT)), QUARTER, wire.answers(),
        wire.brings(0, stream, ACK, len(text)),
    ]
    begins = [*graph_records.one_made(*waiter), *look_up.begins(*look_up.asks_for())]
    decided = wire.decides(OK, wire.resets(len(stream), len(text)), gives=True)
    each = [
        [], look_up.passed(*look_up.queries(2)),
        [*look_up.came(over=OK), *wire.asked_next(*wire.looks())],
        [], wire.passed(*wire.syn(2)), connects(wire, text),
        wire.came(wire.advances(len(stream), place=len(text)), decided, ended=OK),
    ]
    return Row(inputs, [Step(1), made.enter(), made.command(words), *begins, *steps(2, *each), *boots()])


def moved_to_a_name() -> Row:
    """A move to another server by its name: that is looked up beside the new fetch."""
    response = b"HTTP/1.1 308 There\r\nLocation: http://boot.example/k?z\r\n\r\n"
    look_up = LookUp(1, 5, name=b"boot.example")
    waiter = Waiter(4, ObjectKind.FETCH)
    wire = Connection(b"http://boot.example/k?z", 2, 4, 6, HOST)
    text = request(b"/k?z", b"boot.example")
    stream = length_of(ELF) + ELF
    start = replace(made.start(FIRST + FETCH + b"\n"), dns=NAMES)
    inputs = [
        start, made.found(), QUARTER, WIRE.answers(), WIRE.brings(0, response, ACK, LENGTH), look_up.found(),
        Received(arp_reply(HOST, made.CLIENT)), QUARTER, wire.answers(), wire.brings(0, stream, ACK, len(text)),
    ]
    moves = WIRE.moves(WIRE.resets(len(response), LENGTH))
    first = WIRE.came(WIRE.advances(len(response), place=LENGTH), moves, ended=OK)
    begins = [*graph_records.one_made(*waiter), *look_up.begins(*look_up.queries())]
    decided = wire.decides(OK, wire.resets(len(stream), len(text)), gives=True)
    each = [
        [], WIRE.passed(*WIRE.syn(2)), connects(WIRE), [*first, *begins],
        [*look_up.came(over=OK), *wire.asked_next(*wire.looks())],
        [], wire.passed(*wire.syn(2)), connects(wire, text),
        wire.came(wire.advances(len(stream), place=len(text)), decided, ended=OK),
    ]
    return Row(inputs, [*asks(WIRE), *steps(2, *each), *boots()])


COMMAND_ROWS: dict[str, Row] = {
    "moved_to_a_name": moved_to_a_name(),
    "fetched_image": fetched_image(),
    "chained_script": chained_script(),
    "named": named(),
}
