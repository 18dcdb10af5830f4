"""Joined frames: TCP segments in one frame that is longer than a wire carries.

A card joins segments that it receives (GRO, LRO), and a system leaves the cutting of what it sends to its card (TSO), also
where there is none, as on a veth. No wire has such a frame, so it is cut into segments here.
"""

from __future__ import annotations

from shared.checksums import ETHERNET, Sums, filled, sums_of
from shared.frames import packet_of
from shared.wire import PROTOCOL_TCP

# an IPv4 packet on Ethernet
MOST_IN_PACKET = 1_500
LEAST_HEAD = 20
FIN, SYN, RST, PSH, CWR = 1, 2, 4, 8, 128
# where a packet has its length, its identification and its checksum, and a segment its number, its flags and its checksum
LENGTH, IDENTIFICATION, HEAD_SUM = slice(2, 4), slice(4, 6), slice(10, 12)
NUMBER, FLAGS, SUM = slice(4, 8), 13, slice(16, 18)


def cut(frame: bytes) -> list[bytes]:
    """The segments of a joined frame in frames of their own; none where it is no sound segment with data."""
    packet = packet_of(frame)
    if packet is None or packet.protocol != PROTOCOL_TCP or packet.is_fragment or len(packet.body) < LEAST_HEAD:
        return []
    start = ETHERNET + (frame[ETHERNET] & 15) * 4
    head = (packet.body[12] >> 4) * 4
    body = packet.body[head:]
    size = MOST_IN_PACKET - (start - ETHERNET) - head
    if head < LEAST_HEAD or size <= 0 or not body or packet.body[FLAGS] & (SYN | RST) or sums_of(frame) is Sums.WRONG:
        return []
    heads = frame[:start], packet.body[:head]
    return [_piece(*heads, body, at, size) for at in range(0, len(body), size)]


def _piece(before: bytes, head: bytes, body: bytes, at: int, size: int) -> bytes:
    """The segment of what stands from a place on: the first alone says CWR, and the last PSH and FIN."""
    piece = body[at : at + size]
    ethernet, packet, segment = before[:ETHERNET], bytearray(before[ETHERNET:]), bytearray(head)
    packet[LENGTH] = (len(packet) + len(segment) + len(piece)).to_bytes(2, "big")
    packet[IDENTIFICATION] = _after(packet[IDENTIFICATION], at // size)
    segment[NUMBER] = _after(segment[NUMBER], at)
    segment[FLAGS] &= ~((CWR if at else 0) | (PSH | FIN if at + size < len(body) else 0))
    packet[HEAD_SUM] = segment[SUM] = b"\0\0"
    return filled(ethernet + packet + segment + piece)


def _after(number: bytes, count: int) -> bytes:
    """A number of so many bytes, counted on."""
    return ((int.from_bytes(number, "big") + count) % (1 << 8 * len(number))).to_bytes(len(number), "big")
