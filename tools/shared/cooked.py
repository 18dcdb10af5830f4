"""Frames of captures on `any`: Linux cooked headers (SLL and SLL2) made into Ethernet headers.

A cooked header has the sender's hardware address, and not the receiver's. That is found from what
the capture has shown: which hardware address sent from which IPv4 address, the target that an ARP
reply names, the client that a DHCP message names.
"""

from __future__ import annotations

from typing import NamedTuple

from shared.wire import ARP, BROADCAST, IPV4, PROTOCOL_UDP, ethernet

SLL = 113
SLL2 = 276
SLL_HEADER = 16
SLL2_HEADER = 20
ETHERNET_HEADER = 14
TO_ALL = 1
TO_GROUP = 2
UNKNOWN = bytes(6)
MOST_KNOWN = 4_096
ARP_REQUEST = 1
DHCP_CLIENT_PORT = 68


class _Header(NamedTuple):
    """What a cooked header says."""

    length: int
    packet_type: int
    address_length: int
    address: bytes
    protocol: int


def _header_of(link: int, data: bytes) -> _Header | None:
    def number(at: int, width: int = 2) -> int:
        return int.from_bytes(data[at : at + width], "big")

    if link == SLL and len(data) >= SLL_HEADER:
        return _Header(SLL_HEADER, number(0), number(4), data[6:12], number(14))
    if link == SLL2 and len(data) >= SLL2_HEADER:
        return _Header(SLL2_HEADER, data[10], data[11], data[12:18], number(0))
    return None


def header_length(link: int) -> int:
    return SLL_HEADER if link == SLL else SLL2_HEADER


def frame_of(link: int, data: bytes) -> bytes | None:
    """The frame with an Ethernet header, or None where the link below has other addresses.

    Its receiver is UNKNOWN where the header doesn't show it.
    """
    header = _header_of(link, data)
    if header is None or header.address_length != len(UNKNOWN):
        return None
    to = BROADCAST if header.packet_type == TO_ALL else UNKNOWN
    return ethernet(to, header.address, header.protocol, data[header.length :])


class Receivers:
    """Finds the receivers of cooked frames, from the frames so far."""

    def __init__(self, known: dict[bytes, bytes]) -> None:
        self._known = dict(known)

    def complete(self, frame: bytes) -> bytes:
        """The frame with its receiver, where that is known now."""
        self._learn(frame)
        if frame[:6] != UNKNOWN:
            return frame
        return self._receiver(frame) + frame[6:]

    def _learn(self, frame: bytes) -> None:
        sender, kind = frame[6:12], int.from_bytes(frame[12:14], "big")
        if kind == IPV4 and len(frame) >= 34:
            address = frame[26:30]
        elif kind == ARP and len(frame) >= 42:
            address = frame[28:32]
        else:
            return
        if sender != UNKNOWN and address != bytes(4):
            self._known.setdefault(address, sender)
        while len(self._known) > MOST_KNOWN:
            del self._known[next(iter(self._known))]

    def _receiver(self, frame: bytes) -> bytes:
        kind = int.from_bytes(frame[12:14], "big")
        if kind == ARP and len(frame) >= 42:
            is_request = int.from_bytes(frame[20:22], "big") == ARP_REQUEST
            return BROADCAST if is_request else frame[32:38]
        if kind != IPV4 or len(frame) < 34:
            return UNKNOWN
        return self._receiver_of_packet(frame)

    def _receiver_of_packet(self, frame: bytes) -> bytes:
        to = frame[30:34]
        if to == bytes([255] * 4):
            return BROADCAST
        if to[0] >> 4 == 14:
            return b"\x01\x00\x5e" + bytes([to[1] & 0x7F]) + to[2:]
        if to in self._known:
            return self._known[to]
        datagram = frame[14 + (frame[14] & 15) * 4 :]
        if frame[23] == PROTOCOL_UDP and int.from_bytes(datagram[2:4], "big") == DHCP_CLIENT_PORT:
            return datagram[36:42].ljust(6, b"\0")
        return UNKNOWN
