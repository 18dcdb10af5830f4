"""How a response is read: whole outputs of fetches by HTTP, worked by hand from docs/RECORDS.md, RFC 9293 and RFC 9112."""

from __future__ import annotations

from dataclasses import replace
from typing import NamedTuple

from shared.causes import OK, Cause, Code
from shared.records import Tick
from tests.script_rows import Row
from tests.web_fetches import ELF, LENGTH, NOT_BOOTABLE, WIRE, answered, boots, broken, decides_at, fails, fetches
from tests.web_fetches import length_of, refused
from tests.web_records import ACK, FIN, RST, Connection, Segment

TOO_LARGE, MANY_FIELDS = Cause(Code.TOO_LARGE, 1), Cause(Code.TOO_MANY, 7)
FIELDS = b"A: b\r\n"
HEAD, OLD_HEAD = b"HTTP/1.1 200 OK\r\n", b"HTTP/1.0 200 OK\r\n\r\n"


def in_another_order(wire: Connection = WIRE) -> Row:
    """A response of 1,000 bytes comes as the places 600 to 999, 0 to 299, and 250 to 699: the first bytes stay."""
    head = b"HTTP/1.1 200 OK\r\nContent-Length: 960\r\n\r\n"
    body = ELF + bytes(7 * at % 251 for at in range(960 - len(ELF)))
    stream = head + body
    assert len(stream) == 1_000
    other = bytes(50) + stream[300:600] + bytes(100)
    pieces = [(600, stream[600:]), (0, stream[:300]), (250, other)]
    received = [wire.brings(place, piece, ACK, LENGTH) for place, piece in pieces]
    closing = wire.resets(1_000, LENGTH)
    each = [
        wire.came([wire.acks(0, LENGTH)]),
        wire.came(wire.advances(300, place=LENGTH), wire.gives()),
        wire.came(wire.advances(1_000, place=LENGTH), wire.decides(OK, closing, gives=True), ended=OK),
    ]
    return fetches(received, *each, end=boots(body), wire=wire)


def chunked_and_reset() -> Row:
    """A segment ends inside a size line, and then the connection is reset in place of the last chunk: no image."""
    head = b"HTTP/1.1 200 OK\r\nTransfer-Encoding: chunked\r\n\r\n"
    first, second = head + b"4\r\nabcd\r\n1", b"0\r\n0123456789abcdef\r\n"
    reset = WIRE.brings(len(first + second), b"", RST | ACK, LENGTH)
    received = [WIRE.brings(0, first, ACK, LENGTH), WIRE.brings(len(first), second, ACK, LENGTH), reset]
    cause = refused(7, 65_535)
    each = [
        WIRE.came(WIRE.advances(len(first), place=LENGTH), WIRE.gives()),
        WIRE.came(WIRE.advances(len(first + second), place=LENGTH), WIRE.gives()),
        WIRE.came([], over=cause),
    ]
    return fetches(received, *each, end=fails(cause))


def with_fields(count: int) -> bytes:
    return HEAD + FIELDS * count + b"\r\n"


def with_64_fields() -> Row:
    """64 fields are a head, and the body goes to the stream's end."""
    head = with_fields(64)
    finishes = WIRE.finishes(len(head + ELF) + 1, LENGTH)
    ups = [WIRE.gives(), WIRE.decides(OK, finishes)]
    put = WIRE.advances(len(head + ELF), len(head + ELF) + 1, LENGTH)
    return fetches([WIRE.brings(0, head + ELF, FIN | ACK, LENGTH)], WIRE.came(put, *ups, ended=OK), end=boots())


def with_65_fields() -> Row:
    """A 65th is too many: the 66th line that isn't empty decides."""
    head = with_fields(65)
    decided = WIRE.decides(MANY_FIELDS, WIRE.resets(len(head), LENGTH), rest=True)
    return answered(head, decided, cause=MANY_FIELDS)


def hello() -> Row:
    """A broken first line is so at the empty line after it."""
    received = [WIRE.brings(0, b"hello\r\n", ACK, LENGTH), WIRE.brings(7, b"\r\n", ACK, LENGTH)]
    decided = WIRE.decides(broken(6), WIRE.resets(9, LENGTH))
    each = [
        WIRE.came(WIRE.advances(7, place=LENGTH), WIRE.read()),
        WIRE.came(WIRE.advances(9, place=LENGTH), decided, ended=broken(6)),
    ]
    return fetches(received, *each, end=fails(broken(6)))


def not_found_in_record_9() -> Row:
    """Times and other ports' segments before it count as records."""
    head = b"HTTP/1.1 404 Not Found\r\nContent-Length: 3\r\n\r\n"
    foreign = WIRE.received(Segment(1, 1, ACK, 0, b"x"), port=81)
    received = [Tick(1), Tick(1), foreign, Tick(1), WIRE.brings(0, head, ACK, LENGTH)]
    decided = WIRE.decides(refused(9, 404), WIRE.resets(len(head), LENGTH))
    last = WIRE.came(WIRE.advances(len(head), place=LENGTH), decided, ended=refused(9, 404))
    each = [WIRE.passed(), WIRE.passed(), [], WIRE.passed(), last]
    return fetches(received, *each, end=fails(refused(9, 404)))


def coded() -> Row:
    """A coded body is handed on unread."""
    head = b"HTTP/1.1 200 OK\r\nContent-Encoding: gzip\r\nContent-Length: %d\r\n\r\n" % len(ELF)
    stream = head + ELF
    decided = WIRE.decides(OK, WIRE.resets(len(stream), LENGTH), gives=True)
    return answered(stream, decided, end=boots())


def interim() -> Row:
    """Interim heads are passed over."""
    before = b"HTTP/1.1 100 Continue\r\n\r\n" + b"HTTP/1.1 103 Early Hints\r\nLink: x\r\n\r\n"
    stream = before + length_of(ELF) + ELF
    decided = WIRE.decides(OK, WIRE.resets(len(stream), LENGTH), gives=True)
    return answered(stream, decided, end=boots())


def chunked() -> Row:
    """A chunked body with an extension and a trailer, and the server's FIN with it."""
    head = b"HTTP/1.1 200 OK\r\ntransfer-encoding: Chunked\r\nContent-Length: 1\r\n\r\n"
    body = b"4;a=b\r\n" + ELF[:4] + b"\r\n%x\r\n" % len(ELF[4:]) + ELF[4:] + b"\r\n0\r\nT: x\r\n\r\n"
    stream = head + body
    decided = WIRE.decides(OK, WIRE.finishes(len(stream) + 1, LENGTH), gives=True)
    put = WIRE.advances(len(stream), len(stream) + 1, LENGTH)
    step = WIRE.came(put, decided, WIRE.end_dropped(), ended=OK)
    return fetches([WIRE.brings(0, stream, FIN | ACK, LENGTH)], step, end=boots())


def early_end() -> Row:
    """The server's FIN before all of the body: no image."""
    stream = length_of(ELF) + ELF[:5]
    cause = broken(5)
    ups = [WIRE.gives(), WIRE.decides(cause, WIRE.finishes(len(stream) + 1, LENGTH))]
    put = WIRE.advances(len(stream), len(stream) + 1, LENGTH)
    return fetches([WIRE.brings(0, stream, FIN | ACK, LENGTH)], WIRE.came(put, *ups, ended=cause), end=fails(cause))


def empty_body(head: bytes) -> Row:
    """A body of no bytes is an image of none, which isn't booted."""
    return answered(head, WIRE.decides(OK, WIRE.resets(len(head), LENGTH)), end=fails(NOT_BOOTABLE))


def fin_before_its_hole() -> Row:
    """A FIN over a hole fixes the end; what comes after it in place ends the body."""
    head = b"HTTP/1.1 200 OK\r\n\r\n"
    stream = head + ELF
    received = [WIRE.brings(len(head), ELF, FIN | ACK, LENGTH), WIRE.brings(0, head + b"?", ACK, LENGTH)]
    closing = WIRE.finishes(len(stream) + 1, LENGTH)
    each = [
        WIRE.came([WIRE.acks(0, LENGTH)]),
        WIRE.came(
            WIRE.advances(len(stream), len(stream) + 1, LENGTH),
            WIRE.gives(), WIRE.decides(OK, closing), ended=OK,
        ),
    ]
    return fetches(received, *each, end=boots())


def second_fin() -> Row:
    """Two FINs at different places: the bytes go up, and then the connection is broken, without a reset."""
    head = b"HTTP/1.1 200 OK\r\n\r\n"
    received = [WIRE.brings(100, b"", FIN | ACK, LENGTH), WIRE.brings(0, head + b"abc", FIN | ACK, LENGTH)]
    each = [
        WIRE.came([WIRE.acks(0, LENGTH)]),
        WIRE.came(WIRE.advances(len(head) + 3, place=LENGTH), WIRE.gives(), over=broken(6)),
    ]
    return fetches(received, *each, end=fails(broken(6)))


def second_fin_after_all() -> Row:
    """A second FIN at another place, whose bytes make the response whole: it has come, and no close is sent."""
    head, rest = length_of(ELF) + ELF[:3], ELF[3:]
    received = [WIRE.brings(500, b"", FIN | ACK, LENGTH), WIRE.brings(0, head + rest + b"more", FIN | ACK, LENGTH)]
    taken = len(head + rest + b"more")
    whole = WIRE.decides(OK, None, gives=True, rest=True)
    each = [
        WIRE.came([WIRE.acks(0, LENGTH)]),
        WIRE.came(WIRE.advances(taken, place=LENGTH), whole, over=broken(6), ended=OK),
    ]
    return fetches(received, *each, end=boots())


def old_version() -> Row:
    """A body of HTTP/1.0 goes to the stream's end, and the client's FIN follows the server's."""
    stream = OLD_HEAD + ELF
    put = WIRE.advances(len(stream), len(stream) + 1, LENGTH)
    decided = WIRE.decides(OK, WIRE.finishes(len(stream) + 1, LENGTH))
    return fetches([WIRE.brings(0, stream, FIN | ACK, LENGTH)], WIRE.came(put, WIRE.gives(), decided, ended=OK), end=boots())


class Decided(NamedTuple):
    """A head that decides the response, with its cause, and what comes behind and before it."""

    head: bytes
    cause: Cause
    rest: bytes = b""
    before: bytes = b""


# each comes whole in record 5
DECIDED = {
    "move_without_a_place": Decided(b"HTTP/1.1 302 Found\r\nLocation: \r\n\r\n", refused(5, 302)),
    "no_content": Decided(b"HTTP/1.1 204 No Content\r\n\r\n", refused(5, 204)),
    "not_there": Decided(b"HTTP/1.1 404 Not Found\r\nContent-Length: 0\r\n\r\n", refused(5, 404)),
    "other_status": Decided(b"HTTP/1.1 500 No\r\nContent-Length: x\r\n\r\n", refused(5, 500), b"body"),
    "two_lengths": Decided(HEAD + b"Content-Length: 5\r\nContent-Length: 6\r\n\r\n", broken(5), b"abcde"),
    "no_length": Decided(HEAD + b"Content-Length: 5, 5\r\n\r\n", broken(5)),
    "other_coding": Decided(HEAD + b"Transfer-Encoding: gzip, chunked\r\n\r\n", broken(5)),
    "two_codings": Decided(HEAD + b"Transfer-Encoding: chunked\r\n" * 2 + b"\r\n", broken(5)),
    "too_large": Decided(HEAD + b"Content-Length: 268435457\r\n\r\n", TOO_LARGE),
    "far_too_large": Decided(HEAD + b"Content-Length: 99999999999999999999999\r\n\r\n", TOO_LARGE),
    "after_interim_heads": Decided(b"HTTP/1.1 404 No\r\n\r\n", refused(5, 404), before=b"HTTP/1.1 100 Go\r\n\r\n"),
    "hello_at_once": Decided(b"hello\r\n\r\n", broken(5)),
    "with_a_length_as_65th_field": Decided(HEAD + FIELDS * 64 + b"Content-Length: 0\r\n", MANY_FIELDS, b"\r\n"),
}

RESPONSE_ROWS: dict[str, Row] = {
    **{name: decides_at(*decided) for name, decided in DECIDED.items()},
    "in_another_order": in_another_order(),
    "in_another_order_over_zero": in_another_order(replace(WIRE, theirs=2**32 - 500)),
    "chunked_and_reset": chunked_and_reset(),
    "not_found_in_record_9": not_found_in_record_9(),
    "with_64_fields": with_64_fields(),
    "with_65_fields": with_65_fields(),
    "with_a_length_as_64th_field": empty_body(HEAD + FIELDS * 63 + b"Content-Length: 0\r\n\r\n"),
    "hello": hello(),
    "coded": coded(),
    "interim": interim(),
    "chunked": chunked(),
    "early_end": early_end(),
    "empty_body": empty_body(length_of(b"")),
    "old_version": old_version(),
    "fin_before_its_hole": fin_before_its_hole(),
    "second_fin": second_fin(),
    "second_fin_after_all": second_fin_after_all(),
}
