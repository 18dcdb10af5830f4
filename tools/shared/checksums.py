"""Checksums in captured frames: which are wrong, and which a network card was still to fill in.

A system that leaves checksums to its card hands it frames whose TCP or UDP checksum is only the
sum over the pseudo-header, or whose IPv4 header checksum is 0. A capture on that machine shows
the frames so, and no other machine ever saw them.
"""

from __future__ import annotations

from enum import Enum
from ipaddress import IPv4Address
from typing import NamedTuple

from shared.wire import IPV4, PROTOCOL_TCP, PROTOCOL_UDP, checksum, pseudo_header, sum16

ETHERNET = 14
HEADER_SUM = 10
UDP_HEADER = 8
# where a DHCP message has its transaction number (RFC 2131, section 2)
NUMBER_PLACE = 4
# where a segment has what it acknowledges (RFC 9293, section 3.1)
ACKNOWLEDGED_PLACE = 8
SUM_PLACES = {PROTOCOL_UDP: 6, PROTOCOL_TCP: 16}
MORE_FRAGMENTS_AND_OFFSET = 0x3FFF


class Sums(Enum):
    """What a frame's checksums are."""

    RIGHT = "right"
    UNFILLED = "unfilled"
    WRONG = "wrong"


class _Places(NamedTuple):
    """Where the header, and the datagram or segment, stand in a frame."""

    header: slice
    body: slice
    sum_place: int | None
    pseudo: bytes


def _number(data: bytes, at: int) -> int:
    return int.from_bytes(data[at : at + 2], "big")


def _places(frame: bytes) -> _Places | None:
    """None where the frame carries no IPv4 packet that is complete."""
    if len(frame) < ETHERNET + 20 or _number(frame, 12) != IPV4 or frame[ETHERNET] >> 4 != 4:
        return None
    header, total = (frame[ETHERNET] & 15) * 4, _number(frame, ETHERNET + 2)
    if not 20 <= header <= total <= len(frame) - ETHERNET:
        return None
    protocol, start, end = frame[ETHERNET + 9], ETHERNET + header, ETHERNET + total
    place = SUM_PLACES.get(protocol)
    is_fragment = _number(frame, ETHERNET + 6) & MORE_FRAGMENTS_AND_OFFSET != 0
    if place is None or is_fragment or end - start < place + 2:
        return _Places(slice(ETHERNET, start), slice(start, end), None, b"")
    length = end - start
    if protocol == PROTOCOL_UDP:
        length = _number(frame, start + 4)
        if not 8 <= length <= end - start:
            return _Places(slice(ETHERNET, start), slice(start, end), None, b"")
    source, target = (IPv4Address(frame[at : at + 4]) for at in (26, 30))
    pseudo = pseudo_header(source, target, protocol, length)
    return _Places(slice(ETHERNET, start), slice(start, start + length), start + place, pseudo)


def _header_sums(frame: bytes, places: _Places) -> Sums:
    if checksum(frame[places.header]) == 0:
        return Sums.RIGHT
    return Sums.WRONG if _number(frame, ETHERNET + HEADER_SUM) else Sums.UNFILLED


def _body_sums(frame: bytes, places: _Places) -> Sums:
    if places.sum_place is None:
        return Sums.RIGHT
    kept = _number(frame, places.sum_place)
    is_udp = frame[ETHERNET + 9] == PROTOCOL_UDP
    if (is_udp and kept == 0) or checksum(places.pseudo + frame[places.body]) == 0:
        return Sums.RIGHT
    return Sums.UNFILLED if kept == sum16(places.pseudo) else Sums.WRONG


def sums_of(frame: bytes) -> Sums:
    """What the frame's checksums are; a frame without any is right."""
    places = _places(frame)
    if places is None:
        return Sums.RIGHT
    both = (_header_sums(frame, places), _body_sums(frame, places))
    if Sums.WRONG in both:
        return Sums.WRONG
    return Sums.UNFILLED if Sums.UNFILLED in both else Sums.RIGHT


def filled(frame: bytes) -> bytes:
    """The frame as a card sends it: both of its checksums are right."""
    places = _places(frame)
    if places is None:
        return frame
    mended = bytearray(frame)
    at = ETHERNET + HEADER_SUM
    mended[at : at + 2] = b"\0\0"
    mended[at : at + 2] = checksum(bytes(mended[places.header])).to_bytes(2, "big")
    if places.sum_place is not None and _body_sums(frame, places) is not Sums.RIGHT:
        at = places.sum_place
        mended[at : at + 2] = b"\0\0"
        total = checksum(places.pseudo + bytes(mended[places.body])) or 0xFFFF
        mended[at : at + 2] = total.to_bytes(2, "big")
    return bytes(mended)


def readdressed(frame: bytes, port: int) -> bytes:
    """The datagram's frame with another receiving port; a wrong checksum stays wrong."""
    return _changed(frame, 2, port.to_bytes(2, "big"))


def renumbered(frame: bytes, number: int) -> bytes:
    """The frame of a DHCP message with another transaction number; a wrong checksum stays wrong."""
    return _changed(frame, UDP_HEADER + NUMBER_PLACE, number.to_bytes(4, "big"))


def led_to(frame: bytes, port: int, acknowledged: int) -> bytes:
    """The segment's frame with another receiving port and acknowledgement; a wrong checksum stays wrong."""
    return _changed(_changed(frame, 2, port.to_bytes(2, "big")), ACKNOWLEDGED_PLACE, acknowledged.to_bytes(4, "big"))


def _changed(frame: bytes, place: int, value: bytes) -> bytes:
    """The frame with another value at a place of its datagram or segment."""
    places = _places(frame)
    if places is None or places.sum_place is None:
        return frame
    sums, at = _body_sums(frame, places), places.body.start + place
    changed = frame[:at] + value + frame[at + len(value) :]
    has_none = frame[ETHERNET + 9] == PROTOCOL_UDP and _number(frame, places.sum_place) == 0
    return changed if sums is not Sums.RIGHT or has_none else filled(changed)
