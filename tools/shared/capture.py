"""Reads pcap and pcapng files of Ethernet frames, and writes pcap files.

Reading goes packet by packet. Captures on `any` (Linux cooked, SLL and SLL2) are read as Ethernet
frames. What a file of these formats cannot hold, and what would need a guess (packets without a
time, frames with check sequence, other links), is refused.
"""

from __future__ import annotations

import struct
from dataclasses import dataclass
from typing import BinaryIO, Callable, Iterator

from shared import cooked
from shared.fields import CutOff, Damaged

ETHERNET = 1
NANOSECONDS = 10**9
MAX_PACKET = 262_144
PCAP_UNITS = {0xA1B2C3D4: 10**6, 0xA1B23C4D: 10**9}
PCAP_FLAGS = 0xFFFF0000
SECTION = 0x0A0D0D0A
SECTION_ORDER = 0x1A2B3C4D
INTERFACE = 1
OLD_PACKET = 2
SIMPLE_PACKET = 3
ENHANCED_PACKET = 6
OPTION_RESOLUTION = 9
OPTION_CHECK_SEQUENCE = 13
OPTION_TIME_OFFSET = 14
MAX_BLOCK = 16_777_216
MAX_INTERFACES = 4_096


@dataclass(frozen=True, slots=True)
class Packet:
    """A captured frame and its time in nanoseconds since 1970. `length` is the frame's on the
    wire: where it is more than `frame` has, the capture cut the frame."""

    offset: int
    time: int
    frame: bytes
    length: int


class Source:
    """A stream that knows its place, and refuses to end inside something."""

    def __init__(self, stream: BinaryIO) -> None:
        self.stream = stream
        self.at = 0

    def take(self, count: int, what: str) -> bytes:
        data = self.stream.read(count)
        if len(data) < count:
            raise CutOff(self.at, f"the file ends inside {what}")
        self.at += count
        return data

    def take_or_end(self, count: int, what: str) -> bytes:
        """As `take`, but nothing where the file ends right here."""
        data = self.stream.read(count)
        if data and len(data) < count:
            raise CutOff(self.at, f"the file ends inside {what}")
        self.at += len(data)
        return data


def read_capture(stream: BinaryIO) -> Iterator[Packet]:
    """The packets of a pcap or pcapng file, in the file's order."""
    source = Source(stream)
    magic = source.take(4, "its first number")
    if int.from_bytes(magic, "big") == SECTION:
        return _Sections(source).packets(magic)
    for order in "<>":
        unit = PCAP_UNITS.get(struct.unpack(order + "I", magic)[0])
        if unit:
            return _pcap_packets(source, order, unit)
    raise Damaged(0, f"{magic.hex()} begins no pcap or pcapng file")


def _pcap_packets(source: Source, order: str, unit: int) -> Iterator[Packet]:
    header = source.take(20, "the file's header")
    major, _, _, _, _, link = struct.unpack(order + "HHiIII", header)
    if major != 2:
        raise Damaged(4, f"pcap version {major} is not read here")
    if link & PCAP_FLAGS:
        raise Damaged(20, "frames with check sequence are not read here")
    _check_link(link, 20)
    while head := source.take_or_end(16, "a packet's header"):
        offset = source.at - 16
        seconds, fraction, kept, length = struct.unpack(order + "IIII", head)
        if kept > MAX_PACKET:
            raise Damaged(offset + 8, f"a packet of {kept} bytes is over {MAX_PACKET}")
        if fraction >= unit:
            raise Damaged(offset + 4, f"{fraction} is no fraction of a second")
        frame = source.take(kept, "a packet")
        time = seconds * NANOSECONDS + fraction * (NANOSECONDS // unit)
        packet = _with_ethernet(link, Packet(offset, time, frame, length))
        if packet:
            yield packet


def _check_link(link: int, offset: int) -> None:
    if link not in (ETHERNET, cooked.SLL, cooked.SLL2):
        raise Damaged(offset, f"link type {link} is not Ethernet or Linux cooked (SLL, SLL2)")


def _with_ethernet(link: int, packet: Packet) -> Packet | None:
    """The packet with an Ethernet header; None where the link below it has other addresses."""
    if link == ETHERNET:
        return packet
    frame = cooked.frame_of(link, packet.frame)
    if frame is None:
        return None
    length = packet.length - cooked.header_length(link) + cooked.ETHERNET_HEADER
    return Packet(packet.offset, packet.time, frame, length)


@dataclass(frozen=True, slots=True)
class _Interface:
    """What a pcapng file says of an interface: its link, and how it counts time."""

    link: int
    units: int
    time_offset: int

    def nanoseconds(self, ticks: int) -> int:
        return self.time_offset * NANOSECONDS + ticks * NANOSECONDS // self.units


class _Sections:
    """Reads the blocks of a pcapng file; each section has its own byte order and interfaces."""

    def __init__(self, source: Source) -> None:
        self.source = source
        self.order = "<"
        self.interfaces: list[_Interface] = []

    def packets(self, head: bytes) -> Iterator[Packet]:
        readers: dict[int, Callable[[int, bytes], Packet | None]] = {
            INTERFACE: self._interface,
            ENHANCED_PACKET: self._packet,
            SIMPLE_PACKET: self._without_time,
            OLD_PACKET: self._obsolete,
        }
        while head:
            offset = self.source.at - 4
            kind, body = self._block(head, offset)
            reader = readers.get(kind)
            packet = reader(offset, body) if reader else None
            if packet:
                yield packet
            head = self.source.take_or_end(4, "a block's type")

    def _block(self, head: bytes, offset: int) -> tuple[int, bytes]:
        """The type and the body of a block, its two lengths compared."""
        length_bytes = self.source.take(4, "a block's length")
        first = b""
        if int.from_bytes(head, "big") == SECTION:
            first = self.source.take(4, "a section's byte order")
            self._section(first, offset)
        kind = struct.unpack(self.order + "I", head)[0]
        length = struct.unpack(self.order + "I", length_bytes)[0]
        if length % 4 or not 12 + len(first) <= length <= MAX_BLOCK:
            raise Damaged(offset + 4, f"a block has no length {length}")
        body = self.source.take(length - 12 - len(first), "a block")
        if self.source.take(4, "a block's second length") != length_bytes:
            raise Damaged(self.source.at - 4, "a block's two lengths differ")
        return kind, first + body

    def _section(self, order_bytes: bytes, offset: int) -> None:
        for order in "<>":
            if struct.unpack(order + "I", order_bytes)[0] == SECTION_ORDER:
                self.order = order
                self.interfaces = []
                return
        raise Damaged(offset + 8, f"{order_bytes.hex()} is no byte order")

    def _interface(self, offset: int, body: bytes) -> None:
        if len(body) < 8:
            raise Damaged(offset, "an interface's block is too short")
        link = struct.unpack_from(self.order + "H", body)[0]
        options = dict(self._options(body[8:], offset + 16))
        if options.get(OPTION_CHECK_SEQUENCE, b"\0") != b"\0":
            raise Damaged(offset, "frames with check sequence are not read here")
        units = _units(options.get(OPTION_RESOLUTION, b"\x06"), offset)
        time_offset = options.get(OPTION_TIME_OFFSET, bytes(8))
        if len(time_offset) != 8:
            raise Damaged(offset, "an interface's time offset has not eight bytes")
        seconds = struct.unpack(self.order + "q", time_offset)[0]
        if len(self.interfaces) == MAX_INTERFACES:
            raise Damaged(offset, f"there are more than {MAX_INTERFACES} interfaces")
        self.interfaces.append(_Interface(link, units, seconds))

    def _options(self, data: bytes, offset: int) -> Iterator[tuple[int, bytes]]:
        at = 0
        while at + 4 <= len(data):
            code, length = struct.unpack_from(self.order + "HH", data, at)
            if code == 0:
                return
            if at + 4 + length > len(data):
                raise Damaged(offset + at, "an option goes past its block's end")
            yield code, data[at + 4 : at + 4 + length]
            at += 4 + (length + 3) // 4 * 4

    def _packet(self, offset: int, body: bytes) -> Packet:
        if len(body) < 20:
            raise Damaged(offset, "a packet's block is too short")
        number, high, low, kept, length = struct.unpack_from(self.order + "IIIII", body)
        if number >= len(self.interfaces):
            raise Damaged(offset + 8, f"there is no interface {number}")
        if kept > len(body) - 20:
            raise Damaged(offset + 20, f"a packet of {kept} bytes goes past its block's end")
        interface = self.interfaces[number]
        _check_link(interface.link, offset)
        time = interface.nanoseconds(high << 32 | low)
        return _with_ethernet(interface.link, Packet(offset, time, body[20 : 20 + kept], length))

    def _without_time(self, offset: int, body: bytes) -> None:
        raise Damaged(offset, "a simple packet block has no time")

    def _obsolete(self, offset: int, body: bytes) -> None:
        raise Damaged(offset, "the obsolete packet block is not read here")


def _units(resolution: bytes, offset: int) -> int:
    """How many units a second has: a power of 10, or of 2 where the highest bit is set."""
    if len(resolution) != 1:
        raise Damaged(offset, "an interface's time resolution has not one byte")
    exponent = resolution[0] & 0x7F
    return 2**exponent if resolution[0] & 0x80 else 10**exponent


class PcapWriter:
    """Writes a pcap file of Ethernet frames with times in milliseconds."""

    def __init__(self, stream: BinaryIO) -> None:
        self.stream = stream
        self.stream.write(struct.pack("<IHHiIII", 0xA1B2C3D4, 2, 4, 0, 0, MAX_PACKET, ETHERNET))

    def put(self, milliseconds: int, frame: bytes) -> None:
        seconds, rest = divmod(milliseconds, 1000)
        length = len(frame)
        self.stream.write(struct.pack("<IIII", seconds, rest * 1000, length, length) + frame)
