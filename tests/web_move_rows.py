"""Files that were moved: whole outputs of fetches by HTTP, worked by hand as those of web_response_rows.py."""

from __future__ import annotations

from dataclasses import replace

from shared.causes import OK, Cause, Code
from shared.records import Advance, Received, Record, Sent, Try
from shared.wire import arp_reply, tftp_ack, tftp_data, tftp_request, udp_frame
from tests import graph_records, made
from tests.graph_records import Pair
from tests.script_rows import Row
from tests.web_fetches import ASKED, ELF, HOST, LENGTH, MOVED, QUARTER, WIRE, answered, boots, connects, fails, fetches
from tests.web_fetches import length_of
from tests.web_records import ACK, Connection, request

NO_SCHEME, BAD_URI, MANY_MOVES = Cause(Code.NO_SCHEME), Cause(Code.BAD_URI), Cause(Code.TOO_MANY, 2)


def next_wire(url: bytes = b"http://10.0.0.1/b", number: int = 1) -> Connection:
    """The open after so many moves: three objects each."""
    return Connection(url, number, 1 + 3 * number)


def moved() -> Row:
    """A hole is filled, and what is delivered then is a move and 400 bytes more: they are dropped, and the next open begins."""
    rest = bytes(400)
    stream = MOVED + rest
    closing = WIRE.resets(len(stream), LENGTH)
    second = next_wire()
    text = request(b"/b")
    response = length_of(ELF) + ELF
    received = [
        WIRE.brings(10, stream[10:], ACK, LENGTH),
        WIRE.brings(0, stream[:10], ACK, LENGTH),
        second.answers(),
        second.brings(0, response, ACK, len(text)),
    ]
    each = [
        WIRE.came([WIRE.acks(0, LENGTH)]),
        [
            *WIRE.came(WIRE.advances(len(stream), place=LENGTH), WIRE.moves(closing, rest=True), ended=OK),
            *second.asked(*second.syn(1)),
        ],
        connects(second, text),
        second.came(
            second.advances(len(response), place=len(text)),
                second.decides(OK, second.resets(len(response), len(text)), gives=True),
            ended=OK,
        ),
    ]
    return fetches(received, *each, end=boots())


def moved_on(count: int, hole: int = 0) -> tuple[list[Record], list[list[Record]]]:
    """So many moves to /b, one after another; the first bytes of each response may come last."""
    received: list[Record] = []
    each: list[list[Record]] = []
    for number in range(count):
        wire, text = (next_wire(number=number), request(b"/b")) if number else (WIRE, ASKED)
        if number:
            received.append(wire.answers())
            each.append(connects(wire, text))
        if hole:
            received.append(wire.brings(hole, MOVED[hole:], ACK, len(text)))
            each.append(wire.came([wire.acks(0, len(text))]))
        received.append(wire.brings(0, MOVED[:hole] if hole else MOVED, ACK, len(text)))
        following = next_wire(number=number + 1)
        each.append([*moves_away(wire, text), *following.asked(*following.syn(1))])
    return received, each


def moves_away(wire: Connection, text: bytes) -> list[Record]:
    """The step with which the move has come whole."""
    moves = wire.moves(wire.resets(len(MOVED), len(text)))
    return wire.came(wire.advances(len(MOVED), place=len(text)), moves, ended=OK)


def moved_too_often(hole: int = 0) -> Row:
    """The sixth move ends the command."""
    received, each = moved_on(6, hole)
    each[-1] = moves_away(next_wire(number=5), request(b"/b"))
    return fetches(received, *each, end=fails(MANY_MOVES))


def moved_five_times() -> Row:
    """Five moves are followed, and the image keeps the name of the first URI."""
    received, each = moved_on(5)
    wire, text = next_wire(number=5), request(b"/b")
    response = length_of(ELF) + ELF
    received += [wire.answers(), wire.brings(0, response, ACK, len(text))]
    decided = wire.decides(OK, wire.resets(len(response), len(text)), gives=True)
    last = wire.came(wire.advances(len(response), place=len(text)), decided, ended=OK)
    return fetches(received, *each, connects(wire, text), last, end=boots())


def moved_to_another_host() -> Row:
    """A move to another host and port: its hardware address is asked for, and the SYN's second try goes to it."""
    response = b"HTTP/1.1 301 Moved\r\nLocation: http://10.0.0.9:8080/b\r\n\r\n"
    second = Connection(b"http://10.0.0.9:8080/b", 1, 4, server=HOST, port=8_080)
    text, stream = request(b"/b", b"10.0.0.9:8080"), length_of(ELF) + ELF
    received = [
        WIRE.brings(0, response, ACK, LENGTH), Received(arp_reply(HOST, made.CLIENT)), QUARTER, second.answers(),
        second.brings(0, stream, ACK, len(text)),
    ]
    moves = WIRE.moves(WIRE.resets(len(response), LENGTH))
    first = WIRE.came(WIRE.advances(len(response), place=LENGTH), moves, ended=OK)
    decided = second.decides(OK, second.resets(len(stream), len(text)), gives=True)
    each = [
        [*first, *second.asked(*second.looks())], [], second.passed(*second.syn(2)), connects(second, text),
        second.came(second.advances(len(stream), place=len(text)), decided, ended=OK),
    ]
    return fetches(received, *each, end=boots())


def moved_elsewhere(location: bytes, cause: Cause) -> Row:
    """A move to what isn't fetched: its open has ended well."""
    response = b"HTTP/1.1 301 Moved\r\nLocation: " + location + b"\r\n\r\n"
    return answered(response, WIRE.moves(WIRE.resets(len(response), LENGTH)), cause=OK, end=fails(cause))


def moved_to_tftp() -> Row:
    """A file that is moved to a server of TFTP comes from there."""
    response = b"HTTP/1.1 307 Moved\r\nLocation: tftp://10.0.0.1/k\r\n\r\n"
    pair = Pair(1, 4)
    ends = (made.OWN_PORT + 1, 69)
    opened = replace(made.tftp_open(b"k"), number=1, own=made.OWN_PORT + 1)
    sent = Sent(udp_frame(made.CLIENT, made.SERVER, ends, tftp_request(b"k")))
    block = Received(udp_frame(made.SERVER, made.CLIENT, (made.SERVER_PORT, ends[0]), tftp_data(1, ELF)))
    acked = Sent(udp_frame(made.CLIENT, made.SERVER, (ends[0], made.SERVER_PORT), tftp_ack(1)))
    moves = WIRE.moves(WIRE.resets(len(response), LENGTH))
    first = WIRE.came(WIRE.advances(len(response), place=LENGTH), moves, ended=OK)
    begins = graph_records.asked(opened, Try(1, 1), sent, cast=pair)
    last = graph_records.came(pair, Advance(1, 1), acked, gives=True, over=OK)
    return fetches([WIRE.brings(0, response, ACK, LENGTH), block], [*first, *begins], last, end=boots())


# places that can't be fetched from
ELSEWHERE = {
    "moved_to_another_scheme": (b"https://10.0.0.1/b", NO_SCHEME),
    "moved_to_a_disk": (b"iscsi:10.0.0.1::::iqn.x:t", NO_SCHEME),
    "moved_to_no_uri": (b"http://", BAD_URI),
    "moved_to_a_name_unset": (b"http://boot.example/b", Cause(Code.NO_SERVER)),
    "moved_to_no_name": (b"http://boot..example/b", Cause(Code.BAD_NAME)),
}

MOVE_ROWS: dict[str, Row] = {
    **{name: moved_elsewhere(*place) for name, place in ELSEWHERE.items()},
    "moved": moved(),
    "moved_five_times": moved_five_times(),
    "moved_too_often": moved_too_often(),
    "moved_too_often_over_holes": moved_too_often(10),
    "moved_to_another_host": moved_to_another_host(),
    "moved_to_tftp": moved_to_tftp(),
}
