"""Writes frames: Ethernet, ARP, IPv4, UDP and TFTP (RFC 826, 791, 768, 1350, 2347), echoes and segments.

The made examples and the tests build their frames with it; the tools themselves only read.
"""

from __future__ import annotations

from dataclasses import dataclass
from enum import IntEnum
from ipaddress import IPv4Address

IPV4 = 0x0800
ARP = 0x0806
PROTOCOL_ICMP = 1
PROTOCOL_TCP = 6
PROTOCOL_UDP = 17
BROADCAST = bytes([0xFF] * 6)
MIN_ON_WIRE = 60


class Opcode(IntEnum):
    """TFTP opcodes (RFC 1350, section 5; RFC 2347)."""

    RRQ = 1
    WRQ = 2
    DATA = 3
    ACK = 4
    ERROR = 5
    OACK = 6


@dataclass(frozen=True, slots=True)
class Station:
    """A machine on the wire."""

    mac: bytes
    ip: IPv4Address


def sum16(data: bytes) -> int:
    """The ones' complement sum of 16-bit words, an odd end padded with zero (RFC 1071)."""
    if len(data) % 2:
        data += b"\0"
    total = int.from_bytes(data, "big")
    return (total % 0xFFFF) or (0xFFFF if total else 0)


def checksum(data: bytes) -> int:
    """The internet checksum."""
    return 0xFFFF - sum16(data)


def ethernet(to: bytes, sender: bytes, kind: int, body: bytes) -> bytes:
    return to + sender + kind.to_bytes(2, "big") + body


def padded(frame: bytes) -> bytes:
    """A frame as it comes from a wire: at least 60 bytes without its check sequence."""
    return frame.ljust(MIN_ON_WIRE, b"\0")


def _arp(operation: int, sender: Station, target_mac: bytes, target: IPv4Address) -> bytes:
    fixed = bytes.fromhex("0001 0800 06 04") + operation.to_bytes(2, "big")
    return fixed + sender.mac + sender.ip.packed + target_mac + target.packed


def arp_request(sender: Station, target: IPv4Address) -> bytes:
    return ethernet(BROADCAST, sender.mac, ARP, _arp(1, sender, bytes(6), target))


def arp_reply(sender: Station, to: Station) -> bytes:
    return ethernet(to.mac, sender.mac, ARP, _arp(2, sender, to.mac, to.ip))


def pseudo_header(source: IPv4Address, target: IPv4Address, protocol: int, length: int) -> bytes:
    """What TCP and UDP sum before their own bytes."""
    return source.packed + target.packed + bytes([0, protocol]) + length.to_bytes(2, "big")


def ipv4(
    source: IPv4Address, target: IPv4Address, protocol: int, body: bytes, identification: int = 0
) -> bytes:
    """An IPv4 packet without options, don't-fragment set, time to live 64."""
    length = (20 + len(body)).to_bytes(2, "big")
    head = b"\x45\0" + length + identification.to_bytes(2, "big") + b"\x40\0\x40"
    head += bytes([protocol])
    addresses = source.packed + target.packed
    return head + checksum(head + addresses).to_bytes(2, "big") + addresses + body


def udp(source: IPv4Address, target: IPv4Address, ports: tuple[int, int], body: bytes) -> bytes:
    """A UDP datagram with its checksum; `ports` are the sender's and the receiver's."""
    length = 8 + len(body)
    head = b"".join(number.to_bytes(2, "big") for number in (*ports, length))
    summed = pseudo_header(source, target, PROTOCOL_UDP, length) + head + b"\0\0" + body
    return head + (checksum(summed) or 0xFFFF).to_bytes(2, "big") + body


def udp_frame(
    sender: Station,
    to: Station,
    ports: tuple[int, int],
    body: bytes,
    identification: int = 0,
) -> bytes:
    datagram = udp(sender.ip, to.ip, ports, body)
    packet = ipv4(sender.ip, to.ip, PROTOCOL_UDP, datagram, identification)
    return ethernet(to.mac, sender.mac, IPV4, packet)


def echo(kind: int, identifier: int, number: int, body: bytes, code: int = 0) -> bytes:
    """An ICMP echo, a request (8) or a reply (0) (RFC 792)."""
    head, rest = bytes([kind, code]), _numbers(identifier, number) + body
    return head + checksum(head + b"\0\0" + rest).to_bytes(2, "big") + rest


def segment(
    source: IPv4Address,
    target: IPv4Address,
    ports: tuple[int, int],
    numbers: tuple[int, int],
    flags: int,
    window: int = 0,
    body: bytes = b"",
    options: bytes = b"",
) -> bytes:
    """A TCP segment; `numbers` are its sequence number and what it acknowledges, and its options fill words of 4 bytes."""
    places = b"".join((number & 0xFFFF_FFFF).to_bytes(4, "big") for number in numbers)
    head = _numbers(*ports) + places + bytes([0x50 + 0x10 * (len(options) // 4), flags]) + _numbers(window)
    rest = b"\0\0" + options + body
    pseudo = pseudo_header(source, target, PROTOCOL_TCP, len(head) + 2 + len(rest))
    return head + checksum(pseudo + head + b"\0\0" + rest).to_bytes(2, "big") + rest


def packet_frame(sender: Station, to: Station, protocol: int, body: bytes) -> bytes:
    return ethernet(to.mac, sender.mac, IPV4, ipv4(sender.ip, to.ip, protocol, body))


def web_request(path: bytes, host: bytes) -> bytes:
    """The client's request by HTTP (RFC 9112); a host has its port, where that isn't 80."""
    lines = (b"GET " + path + b" HTTP/1.1", b"Host: " + host, b"User-Agent: netboot", b"Connection: close", b"", b"")
    return b"\r\n".join(lines)


def tftp_request(path: bytes) -> bytes:
    """The client's read request: octet mode, blksize 1432 and tsize 0 (RFC 2348, 2349)."""
    return _numbers(Opcode.RRQ) + path + b"\0octet\0blksize\x001432\0tsize\x000\0"


def tftp_data(block: int, data: bytes) -> bytes:
    return _numbers(Opcode.DATA, block) + data


def tftp_ack(block: int) -> bytes:
    return _numbers(Opcode.ACK, block)


def tftp_oack(**options: int | str) -> bytes:
    """An answer that grants these options (RFC 2347)."""
    texts = [f"{name}\0{value}\0".encode() for name, value in options.items()]
    return _numbers(Opcode.OACK) + b"".join(texts)


def tftp_error(code: int, text: bytes) -> bytes:
    return _numbers(Opcode.ERROR, code) + text + b"\0"


def _numbers(*values: int) -> bytes:
    return b"".join(int(value).to_bytes(2, "big") for value in values)
