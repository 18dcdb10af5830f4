"""Says in a few words what a frame is: ARP, IPv4, UDP, TCP, ICMP echo and what they carry."""

from __future__ import annotations

from dataclasses import dataclass
from ipaddress import IPv4Address

from shared import messages
from shared.iscsi import USUAL_PORT, pdu_text, pdus_in
from shared.texts import mac, quoted
from shared.wire import (
    ARP,
    IPV4,
    PROTOCOL_ICMP,
    PROTOCOL_TCP,
    PROTOCOL_UDP,
    checksum,
    pseudo_header,
)

DHCP_PORTS = frozenset({67, 68})
DNS_PORT = 53
ECHO_REPLY = 0
ECHO_REQUEST = 8
# messages by their types and codes (RFC 792; RFC 1812, section 5.2.7.1)
UNREACHABLE = {
    (3, 0): "net unreachable",
    (3, 1): "host unreachable",
    (3, 2): "protocol unreachable",
    (3, 3): "port unreachable",
    (3, 13): "administratively prohibited",
}
FLAGS = ((2, "SYN"), (1, "FIN"), (4, "RST"), (8, "PSH"), (16, "ACK"), (32, "URG"))
SYN = 2
ACK = 16
MORE_FRAGMENTS_AND_OFFSET = 0x3FFF
MOST_STREAMS = 4_096


@dataclass(frozen=True, slots=True)
class Ends:
    """The two ends of an IPv4 packet; ports are 0 where the protocol has none."""

    source: IPv4Address
    source_port: int
    target: IPv4Address
    target_port: int

    def back(self) -> Ends:
        return Ends(self.target, self.target_port, self.source, self.source_port)

    def __str__(self) -> str:
        if not self.source_port and not self.target_port:
            return f"{self.source} > {self.target}"
        return f"{self.source}:{self.source_port} > {self.target}:{self.target_port}"


@dataclass(frozen=True, slots=True)
class Packet:
    """An IPv4 packet, its padding cut off."""

    source: IPv4Address
    target: IPv4Address
    protocol: int
    body: bytes
    is_fragment: bool
    is_sound: bool


def packet_of(frame: bytes) -> Packet | None:
    """The IPv4 packet of a frame, or None where the frame carries none that is whole."""
    if len(frame) < 34 or frame[12:14] != IPV4.to_bytes(2, "big") or frame[14] >> 4 != 4:
        return None
    head = (frame[14] & 15) * 4
    total = int.from_bytes(frame[16:18], "big")
    if not 20 <= head <= total <= len(frame) - 14:
        return None
    header = frame[14 : 14 + head]
    place = int.from_bytes(header[6:8], "big")
    return Packet(
        source=IPv4Address(header[12:16]),
        target=IPv4Address(header[16:20]),
        protocol=header[9],
        body=frame[14 + head : 14 + total],
        is_fragment=place & MORE_FRAGMENTS_AND_OFFSET != 0,
        is_sound=checksum(header) == 0,
    )


def ends_of(packet: Packet) -> Ends:
    """The ends of a packet, with the ports of a UDP datagram or a TCP segment."""
    if packet.protocol not in (PROTOCOL_UDP, PROTOCOL_TCP) or len(packet.body) < 4:
        return Ends(packet.source, 0, packet.target, 0)
    source = int.from_bytes(packet.body[0:2], "big")
    target = int.from_bytes(packet.body[2:4], "big")
    return Ends(packet.source, source, packet.target, target)


class Summaries:
    """Summaries of frames in order. It remembers where each TCP stream began, so that the
    places of its bytes are known from then on (a stream's first byte has place 0)."""

    def __init__(self) -> None:
        self._first_numbers: dict[Ends, int] = {}

    def of(self, frame: bytes) -> str:
        kind = int.from_bytes(frame[12:14], "big")
        if kind == ARP:
            return _arp(frame[14:])
        if kind == IPV4:
            return self._ipv4(frame)
        return f"Ethernet type 0x{kind:04x} {mac(frame[6:12])} > {mac(frame[0:6])}"

    def _ipv4(self, frame: bytes) -> str:
        packet = packet_of(frame)
        if packet is None:
            return "IPv4, not well-formed"
        warning = "" if packet.is_sound else ", wrong header checksum"
        return self._inside(packet) + warning

    def _inside(self, packet: Packet) -> str:
        ends = ends_of(packet)
        if packet.is_fragment:
            return f"{ends} IPv4 fragment"
        if packet.protocol == PROTOCOL_UDP:
            return f"{ends} {_udp(packet, ends)}"
        if packet.protocol == PROTOCOL_TCP:
            return f"{ends} {self._tcp(packet, ends)}"
        if packet.protocol == PROTOCOL_ICMP:
            return f"{ends} {_icmp(packet.body)}"
        return f"{ends} IPv4 protocol {packet.protocol}, {len(packet.body)} bytes"

    def _tcp(self, packet: Packet, ends: Ends) -> str:
        segment = packet.body
        head = (segment[12] >> 4) * 4 if len(segment) >= 20 else 0
        if not 20 <= head <= len(segment):
            return "TCP, not well-formed"
        number = int.from_bytes(segment[4:8], "big")
        flags = segment[13]
        if flags & SYN:
            self._remember(ends, number)
        names = " ".join(name for bit, name in FLAGS if flags & bit)
        parts = [f"TCP [{names}] {self._place_of(ends, number, flags, segment[head:])}"]
        if flags & ACK:
            acknowledged = int.from_bytes(segment[8:12], "big")
            parts.append(f"acknowledges {self._place(ends.back(), acknowledged)}")
        parts.append(f"window {int.from_bytes(segment[14:16], 'big')}")
        if not _is_sum_right(packet):
            parts.append("wrong checksum")
        return ", ".join(parts) + (_pdu_names(ends, segment[head:]) or _http_line(segment[head:]))

    def _remember(self, ends: Ends, number: int) -> None:
        while len(self._first_numbers) >= MOST_STREAMS:
            del self._first_numbers[next(iter(self._first_numbers))]
        self._first_numbers[ends] = number

    def _place_of(self, ends: Ends, number: int, flags: int, data: bytes) -> str:
        if flags & SYN:
            return f"number {number}"
        return f"{self._place(ends, number)}, {len(data)} bytes"

    def _place(self, ends: Ends, number: int) -> str:
        first = self._first_numbers.get(ends)
        if first is None:
            return f"number {number}"
        place = (number - first - 1) % 2**32
        return f"place {place if place < 2**31 else place - 2**32}"


def _arp(body: bytes) -> str:
    if len(body) < 28 or body[0:6] != bytes.fromhex("000108000604"):
        return "ARP, not well-formed"
    sender_mac, sender = mac(body[8:14]), IPv4Address(body[14:18])
    target = IPv4Address(body[24:28])
    operation = int.from_bytes(body[6:8], "big")
    if operation == 1:
        return f"ARP who has {target}, asks {sender} at {sender_mac}"
    if operation == 2:
        return f"ARP {sender} is at {sender_mac}, sent to {target}"
    return f"ARP operation {operation}"


def _is_sum_right(packet: Packet) -> bool:
    length = len(packet.body)
    pseudo = pseudo_header(packet.source, packet.target, packet.protocol, length)
    return checksum(pseudo + packet.body) == 0


def datagram_of(packet: Packet) -> bytes | None:
    """The body of a packet's UDP datagram, its checksum right or left out; else None."""
    datagram = packet.body
    length = int.from_bytes(datagram[4:6], "big")
    if packet.is_fragment or len(datagram) < 8 or not 8 <= length <= len(datagram):
        return None
    whole = Packet(packet.source, packet.target, PROTOCOL_UDP, datagram[:length], False, True)
    if datagram[6:8] != b"\0\0" and not _is_sum_right(whole):
        return None
    return datagram[8:length]


def datagram_in(frame: bytes) -> bytes | None:
    """The body of the UDP datagram that a frame carries to a port, if it carries one."""
    packet = packet_of(frame)
    is_udp = packet is not None and packet.protocol == PROTOCOL_UDP and ends_of(packet).target_port != 0
    return datagram_of(packet) if packet and is_udp else None


def segment_data(packet: Packet) -> bytes:
    """The bytes of its stream that a TCP segment has."""
    segment = packet.body
    head = (segment[12] >> 4) * 4 if packet.protocol == PROTOCOL_TCP and len(segment) >= 20 else len(segment)
    return segment[head:]


def is_syn(packet: Packet) -> bool:
    """Whether it is a TCP segment that asks for a connection (RFC 9293)."""
    return _has_flag(packet, 0x02)


def is_fin(packet: Packet) -> bool:
    """Whether it is one with which its sender's stream ends."""
    return _has_flag(packet, 0x01)


def _has_flag(packet: Packet, flag: int) -> bool:
    return packet.protocol == PROTOCOL_TCP and len(packet.body) >= 20 and bool(packet.body[13] & flag)


def asked_address(frame: bytes) -> IPv4Address | None:
    """The address whose hardware address an ARP request asks for."""
    is_arp = int.from_bytes(frame[12:14], "big") == ARP and len(frame) >= 42
    return IPv4Address(frame[38:42]) if is_arp else None


def _udp(packet: Packet, ends: Ends) -> str:
    datagram = packet.body
    length = int.from_bytes(datagram[4:6], "big")
    if len(datagram) < 8 or not 8 <= length <= len(datagram):
        return "UDP, not well-formed"
    whole = Packet(packet.source, packet.target, PROTOCOL_UDP, datagram[:length], False, True)
    has_sum = datagram[6:8] != b"\0\0"
    warning = ", wrong checksum" if has_sum and not _is_sum_right(whole) else ""
    return _udp_message(ends, datagram[8:length]) + warning


def _udp_message(ends: Ends, body: bytes) -> str:
    ports = {ends.source_port, ends.target_port}
    said = None
    if ports <= DHCP_PORTS:
        said = messages.dhcp(body)
    elif DNS_PORT in ports:
        said = messages.dns(body)
    else:
        said = messages.tftp(body)
    return said or f"UDP, {len(body)} bytes"


def is_message_sound(body: bytes) -> bool:
    """Whether an ICMP message has a right checksum. All bits 0 and all bits 1 are both zero in its sum.

    So one whose bytes are all 0 has a right one too, as Linux answers an echo of zeros."""
    return checksum(body) == 0 or not any(body)


def icmp_name(body: bytes) -> str:
    """What an ICMP message of at least two bytes is (RFC 792)."""
    kind, code = body[0], body[1]
    if kind in (ECHO_REQUEST, ECHO_REPLY):
        return "echo request" if kind == ECHO_REQUEST else "echo reply"
    return UNREACHABLE.get((kind, code), f"type {kind}, code {code}")


def _icmp(body: bytes) -> str:
    if len(body) < 8:
        return "ICMP, not well-formed"
    name = icmp_name(body)
    warning = "" if is_message_sound(body) else ", wrong checksum"
    if body[0] not in (ECHO_REQUEST, ECHO_REPLY):
        return f"ICMP {name}{warning}"
    identifier = int.from_bytes(body[4:6], "big")
    sequence = int.from_bytes(body[6:8], "big")
    return f"ICMP {name}, identifier {identifier}, number {sequence}{warning}"


def _pdu_names(ends: Ends, data: bytes) -> str:
    """The PDUs of iSCSI that begin in a segment of a target's port, where the first begins with it."""
    if USUAL_PORT not in (ends.source_port, ends.target_port):
        return ""
    return "".join(f", iSCSI {pdu_text(pdu)}" for pdu in pdus_in(data))


def _http_line(data: bytes) -> str:
    """The first line of a segment that begins a request or a response, up to 60 bytes."""
    if not data.startswith((b"GET ", b"HTTP/")):
        return ""
    line = data.split(b"\r\n", 1)[0]
    return f", {quoted(line[:60])}"
